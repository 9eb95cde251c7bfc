"""Writes the input and the expected output of the program `vectors`, with Python's hashlib and hmac.

Run in the folder crates/vectors. The digests that FIPS 180-4 and RFC 2202 print are held against hashlib's.
"""

import hashlib
import hmac

cases = []


def word(data):
    return data.hex() or "-"


def sha1_case(text, printed=None):
    digest = hashlib.sha1(text).hexdigest()
    assert printed in (None, digest)
    cases.append((f"sha1 {word(text)}", f"{digest}, other at 0 cuts"))


def repeat_case(count, text, printed):
    digest = hashlib.sha1(text * count).hexdigest()
    assert printed == digest
    cases.append((f"repeat {count} {word(text)}", digest))


def hmac_case(key, text, printed=None):
    tag = hmac.new(key, text, hashlib.sha1).hexdigest()
    assert printed in (None, tag)
    cases.append((f"hmac {word(key)} {word(text)}", f"{tag}, other at 0 cuts"))


def sequence(count, step, first):
    return bytes((i * step + first) % 256 for i in range(count))


# FIPS 180-4's examples, and the longer ones of its test suite
sha1_case(b"abc", "a9993e364706816aba3e25717850c26c9cd0d89d")
sha1_case(b"abcdbcdecdefdefgefghfghighijhijkijkljklmklmnlmnomnopnopq", "84983e441c3bd26ebaae4aa1f95129e5e54670f1")
sha1_case(b"", "da39a3ee5e6b4b0d3255bfef95601890afd80709")
repeat_case(1000000, b"a", "34aa973cd4c4daa4f61eeb2bdbad27316534016f")
repeat_case(10, b"01234567" * 8, "dea356a2cddd90c7a7ecedc5ebb563934f460452")

# RFC 2202, section 3: the cases 1, 2, 3 and 5, whose keys have at most twenty bytes
hmac_case(b"\x0b" * 20, b"Hi There", "b617318655057264e28bc0b6fb378c8ef146be00")
hmac_case(b"Jefe", b"what do ya want for nothing?", "effcdf6ae5eb2fa2d27416d5f184df9c259a7c79")
hmac_case(b"\xaa" * 20, b"\xdd" * 50, "125d7342b9ac11cd91a39af48aa17b4f63f175d3")
hmac_case(b"\x0c" * 20, b"Test With Truncation", "4c1a03424b55e07fe7f27be1d58bb9324a9a5a04")

# every length around the first two blocks' ends, and keys and texts of other lengths
for n in range(131):
    sha1_case(sequence(n, 167, n * 29 + 5))
hmac_case(b"", b"")
for n in range(0, 131, 10):
    hmac_case(sequence(n % 21, 73, n * 11 + 3), sequence(n, 59, n * 7 + 1))

with open("stdin", "w") as out:
    out.writelines(f"{line}\n" for line, _ in cases)
with open("stdout", "w") as out:
    out.writelines(f"{line}: {answer}\n" for line, answer in cases)
