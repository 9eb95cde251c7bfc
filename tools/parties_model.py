#!/usr/bin/env python3
"""A second reading of the services and the verifiers, to hold the proved crate to.

    parties_model.py statements    one line for each statement
    parties_model.py answers       one line for each answer, in the same order

The seed is fixed, so the lists never change. Bytes are in hexadecimal, '-' for none; a name stands as it is, '-' for none.

    panel new | relays | state | perform NAME PAYLOAD CLOCK
    outbox new | waiting | collect | state | perform NAME PAYLOAD CLOCK
    hmac KEY TEXT TAG
    list clear | add KEYHASH DIGEST TAG | verify KEY TEXT TAG
    widths

The rules. A service has a number of commands done, 0 at first, and a last command, none at first. A command that is taken
raises the number by one and becomes the last; another changes nothing. The panel has eight relays, off at first, and takes
SetTarget with a payload of two bytes, a relay 0 to 7 and a state 0 or 1, which that relay then has. The outbox takes a name of
1 to 16 bytes with a payload of at most 16 while fewer than 16 commands wait. The oldest that waits is collected first, and
collecting changes neither number nor last. By HMAC a tag stands that is HMAC-SHA1 of the text under the key. By the list a tag
of 20 bytes stands where one signature on it has the key, the SHA-1 of the text and the tag.
"""
import hashlib
import hmac
import random
import sys

SEED = 20260311
TOP = 2 ** 64 - 1


# The model.

class Service:
    def __init__(self):
        self.done, self.last = 0, None

    def perform(self, name, payload, clock):
        if self.done == TOP or not self.takes(name, payload):
            return "not taken"
        self.done, self.last = self.done + 1, (name, payload, clock)
        self.act(name, payload, clock)
        return "taken"

    def state(self):
        return f"done {self.done}, last {shown(self.last)}"


class Panel(Service):
    def __init__(self):
        super().__init__()
        self.on = set()

    def takes(self, name, payload):
        return name == b"SetTarget" and len(payload) == 2 and payload[0] in range(8) and payload[1] in (0, 1)

    def act(self, name, payload, clock):
        relay, state = payload
        if state == 1:
            self.on.add(relay)
        else:
            self.on.discard(relay)

    def relays(self):
        return "".join("1" if relay in self.on else "0" for relay in range(8))


class Outbox(Service):
    def __init__(self):
        super().__init__()
        self.queue = []

    def takes(self, name, payload):
        return len(name) in range(1, 17) and len(payload) in range(17) and len(self.queue) < 16

    def act(self, name, payload, clock):
        self.queue.append((name, payload, clock))

    def waiting(self):
        return str(len(self.queue))

    def collect(self):
        return shown(self.queue.pop(0) if self.queue else None)


def by_hmac(key, text, tag):
    return tag == hmac.new(key, text, hashlib.sha1).digest()


def by_list(signatures, key, text, tag):
    return (key, hashlib.sha1(text).digest(), tag) in signatures


def word(data):
    return data.hex() or "-"


def shown(command):
    if command is None:
        return "none"
    name, payload, clock = command
    return f"{word(name)} {word(payload)} {clock}"


def told(stands):
    return "stands" if stands else "does not stand"


class World:
    """Answers statements, and keeps both."""

    def __init__(self):
        self.panel, self.outbox, self.signatures = Panel(), Outbox(), []
        self.statements, self.answers = [], []

    def say(self, statement, answer):
        self.statements.append(statement)
        self.answers.append(answer)

    def perform(self, kind, name, payload, clock):
        service = getattr(self, kind)
        answer = service.perform(name.encode(), payload, clock)
        self.say(f"{kind} perform {name or '-'} {word(payload)} {clock}", f"{answer}, {service.state()}")

    def ask(self, kind, what):
        self.say(f"{kind} {what}", getattr(getattr(self, kind), what)())

    def new(self, kind):
        setattr(self, kind, Panel() if kind == "panel" else Outbox())
        self.say(f"{kind} new", "new")

    def hmac(self, key, text, tag):
        self.say(f"hmac {word(key)} {word(text)} {word(tag)}", told(by_hmac(key, text, tag)))

    def clear(self):
        self.signatures = []
        self.say("list clear", "0 listed")

    def add(self, key_hash, digest, tag):
        self.signatures.append((key_hash, digest, tag))
        self.say(f"list add {word(key_hash)} {word(digest)} {word(tag)}", f"{len(self.signatures)} listed")

    def verify(self, key, text, tag):
        self.say(f"list verify {word(key)} {word(text)} {word(tag)}", told(by_list(self.signatures, key, text, tag)))


# The statements.

def panel_edges(w):
    w.ask("panel", "relays")
    w.ask("panel", "state")
    for relay in range(8):
        w.perform("panel", "SetTarget", bytes([relay, 1]), relay)
        w.ask("panel", "relays")
    for relay in (3, 0, 7, 3):
        w.perform("panel", "SetTarget", bytes([relay, 0]), TOP)
        w.ask("panel", "relays")
    w.perform("panel", "SetTarget", bytes([3, 1]), 1)
    refused = [
        ("SetTarget", b"\x08\x01"), ("SetTarget", b"\xff\x00"), ("SetTarget", b"\x00\x02"), ("SetTarget", b"\x00\xff"),
        ("SetTarget", b""), ("SetTarget", b"\x00"), ("SetTarget", b"\x00\x01\x00"), ("SetTarget", b"\x00\x01" * 256),
        ("SetTargets", b"\x00\x01"), ("SetTarge", b"\x00\x01"), ("setTarget", b"\x00\x01"), ("", b"\x00\x01"),
        ("SetTarget\u00e9", b"\x00\x01"), ("X" + "SetTarget", b"\x00\x01"),
    ]
    for name, payload in refused:
        w.perform("panel", name, payload, 99)
        w.ask("panel", "relays")
    w.perform("panel", "SetTarget", b"\x00\x00", 0)
    w.ask("panel", "state")
    w.new("panel")
    w.ask("panel", "state")
    w.ask("panel", "relays")


def outbox_edges(w):
    w.ask("outbox", "state")
    w.ask("outbox", "collect")
    w.ask("outbox", "state")
    for name, payload in [
        ("A", b""), ("A" * 16, bytes(16)), ("A" * 17, b""), ("A", bytes(17)), ("", b""), ("", bytes(16)), ("SetTarget", b"\x08\x02"),
        ("\u00e9" * 8, b"\x01"), ("\u00e9" * 8 + "x", b"\x01"), ("A", bytes(512)), ("A" * 17, bytes(17)),
    ]:
        w.perform("outbox", name, payload, len(name))
        w.ask("outbox", "waiting")
    for _ in range(6):
        w.ask("outbox", "collect")
    w.ask("outbox", "state")
    # the seventeenth has no room until one is collected
    for i in range(18):
        w.perform("outbox", f"C{i}", bytes([i] * (i % 17)), TOP - i)
        w.ask("outbox", "waiting")
    w.ask("outbox", "collect")
    w.ask("outbox", "state")
    w.perform("outbox", "Late", b"\xaa", 5)
    w.perform("outbox", "Later", b"\xbb", 6)
    for _ in range(17):
        w.ask("outbox", "collect")
        w.ask("outbox", "waiting")
    w.ask("outbox", "state")
    w.perform("outbox", "Again", b"", 7)
    w.new("outbox")
    w.ask("outbox", "waiting")
    w.ask("outbox", "state")


def flipped(data, bit):
    return bytes(b ^ (1 << bit % 8) if i == bit // 8 else b for i, b in enumerate(data))


def hmac_edges(w, rng):
    key, other = rng.randbytes(20), rng.randbytes(20)
    for n in (0, 1, 20, 55, 56, 63, 64, 65, 119, 120, 200):
        text = rng.randbytes(n)
        tag = hmac.new(key, text, hashlib.sha1).digest()
        w.hmac(key, text, tag)
        w.hmac(key, text, hmac.new(other, text, hashlib.sha1).digest())
        w.hmac(other, text, tag)
        w.hmac(key, text + b"\x00", tag)
        w.hmac(key, text, tag[:19])
        w.hmac(key, text, tag + b"\x00")
        w.hmac(key, text, hashlib.sha1(text).digest())
    text = b"which bit"
    tag = hmac.new(key, text, hashlib.sha1).digest()
    for bit in range(160):
        w.hmac(key, text, flipped(tag, bit))
    w.hmac(key, text, b"")
    w.hmac(key, text, tag[1:] + tag[:1])
    w.hmac(bytes(20), b"", hmac.new(b"", b"", hashlib.sha1).digest())


def list_edges(w, rng):
    texts = [b"", b"first text", b"second text", rng.randbytes(130)]
    keys = [rng.randbytes(20) for _ in texts]
    tags = [rng.randbytes(20) for _ in texts]
    w.verify(keys[0], texts[0], tags[0])
    for key, text, tag in zip(keys[:3], texts[:3], tags[:3]):
        w.add(key, hashlib.sha1(text).digest(), tag)
    # every mixture of a key, a text and a tag, those of the fourth, which is not listed, among them
    for key in keys:
        for text in texts:
            for tag in tags:
                w.verify(key, text, tag)
    for tag in (tags[1][:19], tags[1] + b"\x00", b"", flipped(tags[1], 0), flipped(tags[1], 159), tags[1] * 2):
        w.verify(keys[1], texts[1], tag)
    w.verify(flipped(keys[1], 80), texts[1], tags[1])
    w.verify(keys[1], texts[1] + b"\x00", tags[1])
    w.verify(keys[1], hashlib.sha1(texts[1]).digest(), tags[1])
    # the text's own bytes in place of its digest, and a signature that is listed twice
    w.add(keys[3], texts[3][:20], tags[3])
    w.verify(keys[3], texts[3][:20], tags[3])
    w.verify(keys[3], texts[3], tags[3])
    w.add(keys[3], hashlib.sha1(texts[3]).digest(), tags[3])
    w.add(keys[3], hashlib.sha1(texts[3]).digest(), tags[3])
    w.verify(keys[3], texts[3], tags[3])
    w.clear()
    w.verify(keys[1], texts[1], tags[1])


def at_random(w, rng):
    for _ in range(60):
        name = rng.choice(["SetTarget"] * 6 + ["SetTargets", "GetTarget"])
        w.perform("panel", name, bytes([rng.randrange(10), rng.randrange(3)]), rng.randrange(2 ** 64))
        w.ask("panel", "relays")
    for _ in range(150):
        if rng.random() < 0.35:
            w.ask("outbox", "collect")
        else:
            name = "".join(rng.choice("ABCxyz019~!") for _ in range(rng.randrange(19)))
            w.perform("outbox", name, rng.randbytes(rng.randrange(19)), rng.randrange(2 ** 64))
        if rng.random() < 0.2:
            w.ask("outbox", "waiting")


def main():
    if sys.argv[1:] not in (["statements"], ["answers"]):
        sys.exit(__doc__)
    w, rng = World(), random.Random(SEED)
    panel_edges(w)
    outbox_edges(w)
    hmac_edges(w, rng)
    list_edges(w, rng)
    at_random(w, rng)
    w.say("widths", "20 20")
    print("\n".join(w.statements if sys.argv[1] == "statements" else w.answers))


main()
