#!/usr/bin/env python3
"""A second reading of envelopes, actions and arguments, to hold the proved crates to.

    wire_model.py envelopes    one line for each case: the bytes in hex, and maybe a number of zero bytes that follow
    wire_model.py answers      one line for each case: what it is refused for, or what it says

The two modes list the same cases in the same order; the seed is fixed, so the lists never change.

The rules. Numbers are big-endian and unsigned. An envelope is a header of 46 bytes, arguments and a tag:
     0       kind: 0 unmarked, 1 session, 2 public key
     1       action code
     2-3     control number
     4-5     total length
     6-7     offset of the arguments       8-9   their length
    10-11    offset of the tag            12-13  its length
    14-21    key number
    22-25    sequence number
    26-45    hash of the signer's key
The arguments begin at 46, the tag follows them and ends at the total length, which is the number of bytes. Bytes 14
to 45 are zero for kind 0, and 22 to 25 for kind 2. The tag has no byte for kind 0, the session verifier's length
for kind 1 (20 here) and the public verifier's for kind 2 (16 here). Everything else is a malformed header.

Then the action is looked up, and its arguments are read:
    01 TakeOwnership         a proof as long as the session verifier's tag
    02 SetSessionKeys        a key of 20 bytes
    03 ExpireSessionKeys     nothing
    04 GrantOwnership        a hash as text, 119 bytes
    05 RevokeOwnership       the same
    06 AddACLEntry           an entry, 86 bytes
    07 DeleteACLEntry        the same
    08 CacheCertificate      a certificate, 126 bytes, and a tag as long as the public verifier's
    09 FactorySecurityReset  nothing
    0A Perform               a length from 1 to 16, a name of so many bytes from 21 to 7E, and up to 512 bytes of payload
An entry is the subject's hash and a scope, a certificate the issuer's, the subject's and the device's hash and a scope.
A scope has 66 bytes: a flag, 0 or 1; not-before and not-after, 8 bytes each, the first not above the second; the
length of a term; and 48 bytes, the well-formed term and zeros. Terms are those of permission_model.py.
"""
import base64
import random
import sys

import permission_model as terms

SEED = 20261118
HEADER = 46
SESSION_TAG, PUBLIC_TAG = 20, 16
KINDS = ["unmarked", "session", "public key"]
TAG_LENGTH = [0, SESSION_TAG, PUBLIC_TAG]
ACTIONS = ["TakeOwnership", "SetSessionKeys", "ExpireSessionKeys", "GrantOwnership", "RevokeOwnership", "AddACLEntry",
           "DeleteACLEntry", "CacheCertificate", "FactorySecurityReset", "Perform"]
KIND_OF = [2, 2, 1, 1, 1, 1, 1, 1, 1, 1]


class Malformed(Exception):
    pass


def demand(holds):
    if not holds:
        raise Malformed


# Reading


class Bytes:
    """Bytes that are taken from the front."""

    def __init__(self, data):
        self.data = data

    def take(self, n):
        demand(len(self.data) >= n)
        taken, self.data = self.data[:n], self.data[n:]
        return taken

    def number(self, n):
        return int.from_bytes(self.take(n), "big")

    def end(self):
        demand(not self.data)


def header(data):
    """The fields of a well-formed header, and the arguments and the tag with their places."""
    b = Bytes(data)
    kind, code, control, total = b.number(1), b.number(1), b.number(2), b.number(2)
    demand(kind < len(KINDS))
    arguments_at, arguments_length, tag_at, tag_length = (b.number(2) for _ in range(4))
    key, sequence, signer = b.take(8), b.take(4), b.take(20)
    if kind == 0:
        demand(not any(key + sequence + signer))
    if kind == 2:
        demand(not any(sequence))
    demand(arguments_at == HEADER)
    demand(tag_length == TAG_LENGTH[kind])
    arguments, tag = b.take(arguments_length), b.take(tag_length)
    demand(tag_at == arguments_at + arguments_length)
    demand(total == len(data))
    b.end()
    return {"kind": kind, "code": code, "control": control, "key": int.from_bytes(key, "big"),
            "number": int.from_bytes(sequence, "big"), "signer": signer,
            "arguments": arguments, "at": arguments_at, "tag": tag, "tag_at": tag_at}


def scope(data):
    b = Bytes(data)
    flag, begin, end, length, term = b.number(1), b.number(8), b.number(8), b.number(1), b.take(48)
    b.end()
    demand(flag < 2 and begin <= end and length <= 48)
    demand(terms.answer(term[:length], b"A") != "malformed" and not any(term[length:]))
    return f" delegate {'true' if flag else 'false'} from {begin} to {end} length {length} term {term.hex()}"


OPENING = b"&lt;hash&gt;&lt;algorithm&gt;SHA1&lt;/algorithm&gt;&lt;value&gt;"
CLOSING = b"&lt;/value&gt;&lt;/hash&gt;"


def hash_text(data):
    """The hash whose only text these bytes are."""
    demand(len(data) == len(OPENING) + 28 + len(CLOSING) and data.startswith(OPENING) and data.endswith(CLOSING))
    value = data[len(OPENING):-len(CLOSING)]
    try:
        found = base64.b64decode(value, validate=True)
    except ValueError:
        raise Malformed
    demand(len(found) == 20 and base64.b64encode(found) == value)
    return f" hash {found.hex()}"


def entry(data):
    b = Bytes(data)
    return f" subject {b.take(20).hex()}{scope(b.data)}"


def certificate(data):
    b = Bytes(data)
    signed = Bytes(b.take(126))
    issuer, subject, device = (signed.take(20).hex() for _ in range(3))
    allowed = scope(signed.data)
    demand(len(b.data) == PUBLIC_TAG)
    return f" of 126 issuer {issuer} subject {subject} device {device}{allowed} by {b.data.hex()}"


def command(data):
    b = Bytes(data)
    n = b.number(1)
    name = b.take(n)
    demand(1 <= n <= 16 and all(0x21 <= c <= 0x7E for c in name) and len(b.data) <= 512)
    return f" name {name.hex()} payload {b.data.hex()}"


def arguments(code, data):
    if code == 1:
        demand(len(data) == SESSION_TAG)
        return f" proof {data.hex()}"
    if code == 2:
        demand(len(data) == 20)
        return f" key {data.hex()}"
    if code in (3, 9):
        demand(not data)
        return ""
    return {4: hash_text, 5: hash_text, 6: entry, 7: entry, 8: certificate, 10: command}[code](data)


def answer(data):
    try:
        h = header(data)
    except Malformed:
        return "malformed header"
    if not 1 <= h["code"] <= len(ACTIONS):
        return "unknown action"
    try:
        given = arguments(h["code"], h["arguments"])
    except Malformed:
        return "malformed arguments"
    return (f"{KINDS[h['kind']]} control {h['control']} key {h['key']} number {h['number']} signer {h['signer'].hex()}"
            f" arguments {h['at']}+{len(h['arguments'])} text 0+{h['tag_at']} tag {h['tag_at']}+{len(h['tag'])}"
            f" tag {h['tag'].hex()} {ACTIONS[h['code'] - 1]}{given} written again true")


# Writing: envelopes for the cases, sound or with one thing wrong


def envelope(kind, code, given, control=0, key=0, number=0, signer=bytes(20), tag=None, **wrong):
    """Any field can be given another value by its name."""
    if tag is None:
        tag = bytes(0xA0 + i for i in range(TAG_LENGTH[kind]))
    tag_at = HEADER + len(given)
    fields = {"kind": (kind, 1), "code": (code, 1), "control": (control, 2), "total": (tag_at + len(tag), 2),
              "arguments_at": (HEADER, 2), "arguments_length": (len(given), 2), "tag_at": (tag_at, 2),
              "tag_length": (len(tag), 2), "key": (key, 8), "number": (number, 4)}
    head = b"".join(wrong.get(name, value).to_bytes(size, "big") for name, (value, size) in fields.items())
    return head + signer + given + tag


def scope_bytes(term, flag=0, begin=100, end=200, length=None, fill=None):
    rest = bytes(48 - len(term)) if fill is None else fill
    return bytes([flag]) + begin.to_bytes(8, "big") + end.to_bytes(8, "big") + bytes([len(term) if length is None else length]) + term + rest


def text_of(found):
    return OPENING + base64.b64encode(found) + CLOSING


def named(name, payload=b""):
    return bytes([len(name)]) + name + payload


def sound_arguments(rng, code):
    term = rng.choice([b"\x01", terms.elt(b"SetTarget"), terms.prefix(b"Set"), terms.rng(b"A", b"Z"),
                       terms.members(terms.elt(b"A"), b"\x01"), terms.members(*[terms.elt(b"ABCD")] * 7)])
    begin = rng.choice([0, 1, 1 << 32, rng.getrandbits(63)])
    end = rng.choice([begin, begin + 1, (1 << 64) - 1])
    allowed = scope_bytes(term, rng.getrandbits(1), begin, end)
    return {1: rng.randbytes(SESSION_TAG), 2: rng.randbytes(20), 3: b"", 4: text_of(rng.randbytes(20)),
            5: text_of(rng.randbytes(20)), 6: rng.randbytes(20) + allowed, 7: rng.randbytes(20) + allowed,
            8: rng.randbytes(60) + allowed + rng.randbytes(PUBLIC_TAG), 9: b"",
            10: named(rng.choice([b"A", b"SetTarget", b"!" * 16, b"~"]), rng.randbytes(rng.choice([0, 1, 2, 40])))}[code]


def sound_fields(rng, kind):
    fields = {"control": rng.choice([0, 1, 0x0102, 0xFFFF])}
    if kind:
        fields["key"] = rng.choice([0, 1, 0x0102030405060708, (1 << 64) - 1])
        fields["signer"] = rng.choice([bytes(20), bytes(range(1, 21)), rng.randbytes(20)])
    if kind == 1:
        fields["number"] = rng.choice([0, 1, 0x01020304, (1 << 32) - 1])
    return fields


def headers(rng):
    """One field of a header wrong."""
    for kind in range(3):
        given = sound_arguments(rng, 10)
        fields = sound_fields(rng, kind)
        good = envelope(kind, 10, given, **fields)
        yield good
        sound = {"total": len(good), "arguments_at": HEADER, "arguments_length": len(given),
                 "tag_at": HEADER + len(given), "tag_length": TAG_LENGTH[kind]}
        for name, value in sound.items():
            swapped = value >> 8 | (value & 0xFF) << 8
            for other in sorted({value - 1, value + 1, value ^ 0x0100, value ^ 0x8000, 0, 0xFFFF, swapped} - {value}):
                if 0 <= other <= 0xFFFF:
                    yield envelope(kind, 10, given, **fields, **{name: other})
        for other in (3, 4, 0x80, 0xFF):
            yield bytes([other]) + good[1:]
        for other in sorted(set(range(3)) - {kind}):
            yield bytes([other]) + good[1:]
        yield good[:-1]
        yield good + b"\x00"
        yield good + good
        # parts that fit together, with a tag of another kind's length
        for length in sorted({0, 1, SESSION_TAG, PUBLIC_TAG, SESSION_TAG + 1, PUBLIC_TAG + 1} - {TAG_LENGTH[kind]}):
            yield envelope(kind, 10, given, tag=bytes(length), **fields)
        # a gap, an overlap, and parts the other way round
        yield envelope(kind, 10, given + b"\x00", arguments_length=len(given), **fields)
        yield envelope(kind, 10, given, arguments_length=len(given) + 1, tag_at=HEADER + len(given) - 1, **fields)
        yield envelope(kind, 10, given, arguments_at=HEADER + TAG_LENGTH[kind], tag_at=HEADER, **fields)
        # nothing behind the header
        yield envelope(kind, 3, b"", **fields)
        yield envelope(kind, 3, b"", tag=b"", **fields)
    # fields that a kind has no use for, byte by byte
    for kind, places in ((0, range(14, 46)), (1, range(14, 46)), (2, range(14, 46))):
        good = envelope(kind, 9, b"")
        for place in places:
            yield good[:place] + bytes([rng.choice([1, 0x80, 0xFF])]) + good[place + 1:]
    # every length up to a header
    for n in range(HEADER + 1):
        yield envelope(0, 3, b"")[:n]


def codes(rng):
    for code in (0, 0x0B, 0x0C, 0x10, 0x7F, 0x80, 0xFF):
        for kind in range(3):
            yield envelope(kind, code, b"", **sound_fields(rng, kind))
    # the header is judged first, then the code
    yield envelope(0, 0x0B, b"", arguments_at=47)
    yield envelope(1, 0x0B, b"\x00" * 5)


def every_action(rng):
    """Sound envelopes of every action in every kind."""
    for code in range(1, 11):
        for kind in range(3):
            yield envelope(kind, code, sound_arguments(rng, code), **sound_fields(rng, kind))
        for _ in range(3):
            kind = KIND_OF[code - 1]
            yield envelope(kind, code, sound_arguments(rng, code), **sound_fields(rng, kind))


def other_arguments(rng):
    """Sound headers, with arguments that are mostly not."""
    # one byte less and one more, and the arguments of every other action
    for code in range(1, 11):
        kind = KIND_OF[code - 1]
        given = sound_arguments(rng, code)
        if given:
            yield envelope(kind, code, given[:-1])
        yield envelope(kind, code, given + b"\x00")
        yield envelope(kind, code, given + given)
        for other in range(1, 11):
            if other != code:
                yield envelope(kind, code, sound_arguments(rng, other))
    # a proof as long as the other verifier's tag, keys of other lengths
    yield envelope(2, 1, bytes(PUBLIC_TAG))
    yield envelope(2, 1, b"")
    for n in (0, 16, 19, 21):
        yield envelope(2, 2, bytes(n))
    # hash texts
    good = text_of(bytes(range(20)))
    for code in (4, 5):
        for place in (0, 1, 63, 64, 77, 90, 91, 92, 118):
            yield envelope(1, code, good[:place] + bytes([good[place] ^ 1]) + good[place + 1:])
        for last in b"9+/-=":
            yield envelope(1, code, text_of(b"\xff" * 20)[:90] + bytes([last]) + good[91:])
        yield envelope(1, code, good.replace(b"&lt;", b"<"))
        yield envelope(1, code, good[:64] + b"-" * 27 + good[91:])
        yield envelope(1, code, bytes(range(20)))
        yield envelope(1, code, text_of(b"\xff" * 20))
        yield envelope(1, code, text_of(bytes(20)))
    # scopes, in entries and in certificates
    for code, front, back in ((6, 20, 0), (7, 20, 0), (8, 60, PUBLIC_TAG)):
        def with_scope(allowed):
            return envelope(1, code, bytes(range(front)) + allowed + bytes(back))

        term = terms.elt(b"SetTarget")
        yield with_scope(scope_bytes(term))
        yield with_scope(scope_bytes(term, flag=1))
        for flag in (2, 0x80, 0xFF):
            yield with_scope(scope_bytes(term, flag=flag))
        yield with_scope(scope_bytes(term, begin=200, end=200))
        yield with_scope(scope_bytes(term, begin=201, end=200))
        yield with_scope(scope_bytes(term, begin=0x0200, end=0x0103))
        yield with_scope(scope_bytes(term, begin=1 << 63, end=(1 << 63) - 1))
        for length in (0, len(term) - 1, len(term) + 1, 48, 49, 255):
            yield with_scope(scope_bytes(term, length=length))
        yield with_scope(scope_bytes(b"\x01", fill=bytes(46) + b"\x01"))
        yield with_scope(scope_bytes(b"\x01", fill=b"\x01" + bytes(46)))
        yield with_scope(scope_bytes(b"\x06"))
        yield with_scope(scope_bytes(b""))
        yield with_scope(scope_bytes(terms.elt(b"Set Target")))
        yield with_scope(scope_bytes(terms.members(*[terms.elt(b"ABCD")] * 7 + [b"\x01"] * 1)))
    for n in (0, PUBLIC_TAG - 1, PUBLIC_TAG + 1, SESSION_TAG):
        yield envelope(1, 8, bytes(60) + scope_bytes(b"\x01") + bytes(n))
    # commands
    for n in (0, 1, 16, 17, 255):
        yield envelope(1, 10, bytes([n]) + b"A" * 16)
        yield envelope(1, 10, bytes([n]) + b"A" * 17)
    yield envelope(1, 10, b"")
    yield envelope(1, 10, b"\x00")
    yield envelope(1, 10, b"\x01")
    yield envelope(1, 10, b"\x02A")
    for b in (0x00, 0x1F, 0x20, 0x21, 0x7E, 0x7F, 0x80, 0xFF):
        yield envelope(1, 10, named(bytes([b])))
        yield envelope(1, 10, named(b"Set" + bytes([b])))
        yield envelope(1, 10, named(b"Set", bytes([b])))
    for n in (511, 512, 513, 600):
        yield envelope(1, 10, named(b"SetTarget", bytes(n)))
        yield envelope(1, 10, named(b"!" * 16, bytes(n)))


def cases():
    """Each case as bytes and a number of zero bytes behind them."""
    rng = random.Random(SEED)
    for group in (every_action, headers, codes, other_arguments):
        for data in group(rng):
            yield data, 0
    # the longest envelope that two bytes can measure, and longer ones, whose length they hold only in part
    yield envelope(0, 3, b"", total=0xFFFF, arguments_length=0xFFFF - HEADER, tag_at=0xFFFF), 0xFFFF - HEADER
    yield envelope(0, 0x0B, b"", total=0xFFFF, arguments_length=0xFFFF - HEADER, tag_at=0xFFFF), 0xFFFF - HEADER
    yield envelope(0, 3, b""), 0x10000
    yield envelope(0, 3, b"", total=0, arguments_length=0x10000 - HEADER, tag_at=0), 0x10000 - HEADER


def main():
    for data, zeros in cases():
        if sys.argv[1] == "envelopes":
            print((data.hex() or "-") + (f" {zeros}" if zeros else ""))
        else:
            print(answer(data + bytes(zeros)))


if __name__ == "__main__":
    main()
