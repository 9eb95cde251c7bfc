#!/usr/bin/env python3
"""Writes crates/guard_cases/stdin and stdout: a history of one guard, with the answer to each delivery.

The envelopes are built here from the layouts, with the tags of Python's own HMAC. Each answer is written down beside its delivery, from
the rules; nothing here runs the guard or was taken from its output.
"""
import base64
import hashlib
import hmac
import os

DEVICE, PASSWORD = bytes([0xDD]) * 20, bytes(20)
OWNER, AGENT, GUEST, PARTNER = (bytes([n]) * 20 for n in (1, 2, 3, 4))
# The key of each one's session.
KEY = {OWNER: bytes([0x11]) * 20, GUEST: bytes([0x33]) * 20, PARTNER: bytes([0x44]) * 20}
SWITCH = bytes([9]) + b"SetTarget" + bytes([0, 1])


def tag(key, text):
    return hmac.new(key, text, hashlib.sha1).digest()


def envelope(kind, action, key_number, number, signer, arguments, key, control=7, damaged=False):
    width = 20 if kind else 0
    end = 46 + len(arguments)
    text = bytes([kind, action]) + control.to_bytes(2, "big")
    for n in (end + width, 46, len(arguments), end, width):
        text += n.to_bytes(2, "big")
    text += key_number.to_bytes(8, "big") + number.to_bytes(4, "big") + signer + arguments
    mark = tag(key, text) if kind else b""
    return text + (bytes([mark[0] ^ 1]) + mark[1:] if damaged else mark)


def by_key(action, base, signer, arguments):
    return envelope(2, action, base, 0, signer, arguments, signer)


def by_session(action, session, number, signer, arguments, **others):
    return envelope(1, action, session, number, signer, arguments, KEY[signer], **others)


def take(base, signer):
    return by_key(1, base, signer, tag(PASSWORD, base.to_bytes(8, "big") + signer))


def scope(flag):
    return bytes([flag]) + bytes(8) + (100).to_bytes(8, "big") + bytes([1, 1]) + bytes(47)


def element(hash_):
    return (b"&lt;hash&gt;&lt;algorithm&gt;SHA1&lt;/algorithm&gt;&lt;value&gt;"
            + base64.b64encode(hash_) + b"&lt;/value&gt;&lt;/hash&gt;")


def stray(text):
    # The last character before '=' with a bit that belongs to no byte: 'Q' stands for 16, 'R' for 17.
    assert text[90:91] in b"AEIMQUYcgkosw048"
    return text[:90] + bytes([text[90] + 1]) + text[91:]


def cached(certificate, issuer):
    return certificate + tag(issuer, certificate)


TO_AGENT = OWNER + AGENT + DEVICE + scope(1)
TO_GUEST = AGENT + GUEST + DEVICE + scope(0)
ENTRY = AGENT + scope(0)

CASES = [
    ("0", take(5, OWNER)),
    ("6 714", take(5, OWNER)),  # the base has risen
    ("7 701", take(6, AGENT)),  # there is an owner; the base is used up all the same
    ("0", by_key(2, 7, OWNER, KEY[OWNER])),
    ("0", by_session(10, 7, 1, OWNER, SWITCH)),
    ("6 714", by_session(10, 7, 1, OWNER, SWITCH)),  # the number is used up
    ("5 711", by_session(10, 7, 2, OWNER, SWITCH, damaged=True)),
    ("5 711", by_session(10, 7, 1, OWNER, SWITCH, damaged=True)),  # a bad tag and an old number
    ("2 715", by_session(10, 7, 2, OWNER, SWITCH, control=8)),
    ("3 712", by_key(10, 8, OWNER, SWITCH)),
    ("0", by_key(2, 8, GUEST, KEY[GUEST])),
    ("7 701", by_session(10, 8, 1, GUEST, SWITCH)),
    ("0", by_session(8, 8, 2, GUEST, cached(TO_AGENT, OWNER))),
    ("0", by_session(8, 8, 3, GUEST, cached(TO_GUEST, AGENT))),
    ("9 802", by_session(8, 8, 4, GUEST, cached(TO_GUEST, AGENT))),
    ("8 711", by_session(8, 8, 5, GUEST, cached(TO_GUEST, OWNER))),
    ("0", by_session(10, 8, 6, GUEST, SWITCH)),  # by a chain of two links
    ("0", by_session(4, 7, 3, OWNER, element(PARTNER))),
    ("0", by_key(2, 9, PARTNER, KEY[PARTNER])),
    ("0", by_session(10, 9, 1, PARTNER, SWITCH)),
    ("1 402", by_session(5, 7, 4, OWNER, stray(element(PARTNER)))),
    ("9 763", by_session(5, 7, 4, OWNER, element(OWNER))),
    ("0", by_session(5, 7, 5, OWNER, element(PARTNER))),
    ("7 701", by_session(10, 9, 2, PARTNER, SWITCH)),  # revoked
    ("9 764", by_session(5, 7, 6, OWNER, element(PARTNER))),
    ("0", by_session(6, 7, 7, OWNER, ENTRY)),
    ("9 802", by_session(6, 7, 8, OWNER, ENTRY)),
    ("0", by_session(7, 7, 9, OWNER, ENTRY)),
    ("9 764", by_session(7, 7, 10, OWNER, ENTRY)),
    ("9 501", by_session(10, 7, 11, OWNER, bytes([4]) + b"None")),  # the panel does not take it
    ("0", by_session(3, 9, 3, PARTNER, b"")),
    ("4 781", by_session(10, 9, 4, PARTNER, SWITCH)),
    ("7 701", by_session(9, 8, 7, GUEST, b"")),
    ("0", by_session(9, 7, 12, OWNER, b"")),  # a reset
    ("4 781", by_session(10, 7, 13, OWNER, SWITCH)),
    ("6 714", take(5, OWNER)),  # what once worked
    ("6 714", by_key(2, 7, OWNER, KEY[OWNER])),
    ("0", take(10, OWNER)),
    ("1 402", b""),
    ("3 712", envelope(0, 1, 0, 0, bytes(20), bytes(20), b"")),
    ("1 401", by_session(11, 7, 1, OWNER, b"")),
]

FOLDER = os.path.join(os.path.dirname(os.path.abspath(__file__)), "..", "crates", "guard_cases")
with open(os.path.join(FOLDER, "stdin"), "w") as out:
    out.writelines((bytes_.hex() or "-") + "\n" for _, bytes_ in CASES)
with open(os.path.join(FOLDER, "stdout"), "w") as out:
    # The owner, the guest and the partner have each switched once.
    out.writelines(answer + "\n" for answer, _ in CASES)
    out.write("done 3\n")
