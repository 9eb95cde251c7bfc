#!/usr/bin/env python3
"""A second reading of permission terms, to hold the proved crate to.

    permission_model.py questions    one line for each case: the term in hex, and the name
    permission_model.py answers      one line for each case: yes, no or malformed

'-' stands for no bytes, on either side; the name is what follows the first blank. The two modes list the same cases in the
same order; the seed is fixed, so the lists never change.

The rules. A name is 1 to 16 bytes from 0x21 to 0x7E. A term is 1 to 48 bytes, and
its first byte is its form:
    01  all     every name
    02  elt     a length 1 to 16 and that many name bytes: that name
    03  prefix  a length 0 to 16 and that many name bytes: the names that begin so
    04  range   two names, each written as in elt, the first not above the second:
                the names from the one to the other, both included
    05  set     a count up to 8 and that many terms: what any of them covers
Names are ordered byte by byte, and a name comes before its own extensions. A set's
depth is one more than that of its deepest member, and 1 where it has none; another
form has depth 0. The depth is at most 4, and no byte is left over.
"""
import random
import sys

SEED = 20240617
NAME_BYTES = range(0x21, 0x7F)


class Malformed(Exception):
    pass


# Reading: a term becomes a tuple (form, parts..), checked as it is read.

class Reader:
    def __init__(self, data):
        self.data, self.at = data, 0

    def byte(self):
        if self.at == len(self.data):
            raise Malformed
        self.at += 1
        return self.data[self.at - 1]

    def text(self, least):
        n = self.byte()
        text = self.data[self.at:self.at + n]
        if not least <= n <= 16 or len(text) < n or any(b not in NAME_BYTES for b in text):
            raise Malformed
        self.at += n
        return text

    def term(self):
        form = self.byte()
        if form == 1:
            return ("all",)
        if form == 2:
            return ("elt", self.text(1))
        if form == 3:
            return ("prefix", self.text(0))
        if form == 4:
            low, high = self.text(1), self.text(1)
            if low > high:
                raise Malformed
            return ("range", low, high)
        if form == 5:
            n = self.byte()
            if n > 8:
                raise Malformed
            return ("set", [self.term() for _ in range(n)])
        raise Malformed


def depth(term):
    return 1 + max([depth(t) for t in term[1]], default=0) if term[0] == "set" else 0


def covers(term, name):
    form = term[0]
    if form == "all":
        return True
    if form == "elt":
        return name == term[1]
    if form == "prefix":
        return name[:len(term[1])] == term[1]
    if form == "range":
        return term[1] <= name <= term[2]
    return any(covers(t, name) for t in term[1])


def answer(data, name):
    try:
        if not 1 <= len(data) <= 48:
            raise Malformed
        reader = Reader(data)
        term = reader.term()
        if reader.at != len(data) or depth(term) > 4:
            raise Malformed
        if not 1 <= len(name) <= 16 or any(b not in NAME_BYTES for b in name):
            raise Malformed
        return "yes" if covers(term, name) else "no"
    except Malformed:
        return "malformed"


# Cases: the edges by hand, then random terms, well formed and damaged.

def text(t):
    return bytes([len(t)]) + t


def elt(t):
    return b"\x02" + text(t)


def prefix(t):
    return b"\x03" + text(t)


def rng(low, high):
    return b"\x04" + text(low) + text(high)


def members(*terms):
    return bytes([5, len(terms)]) + b"".join(terms)


ALL = b"\x01"


def edges():
    a16, a17 = b"A" * 16, b"A" * 17
    yield b"", b"A"
    yield ALL, b"SetTarget"
    for name in (b"", b"A", a16, a17, b"\x21", b"\x7e", b"\x7f", b"A\x7f", b"A B", b"\xc3\xa9", b"a" * 15 + b"~"):
        yield ALL, name
    for form in (0x00, 0x06, 0x07, 0x41, 0x80, 0xFF):
        yield bytes([form]), b"A"
    yield ALL + ALL, b"A"
    yield ALL + b"\x00", b"A"
    # lengths 0, 1, 16 and 17 in each place that has one
    for t in (b"", b"A", a16, a17):
        for name in (b"A", a16):
            yield elt(t), name
            yield prefix(t), name
            yield rng(t, b"B"), name
            yield rng(b"A", t), name
    yield elt(b"ABC"), b"ABC"
    yield elt(b"ABC"), b"ABCD"
    yield elt(b"ABC"), b"AB"
    yield elt(b"ABC"), b"ABD"
    yield prefix(b"AB"), b"AB"
    yield prefix(b"AB"), b"A"
    yield prefix(b"AB"), b"ABC"
    yield prefix(b"AB"), b"BAB"
    # the byte bounds
    for b in (0x00, 0x20, 0x21, 0x7E, 0x7F, 0x80, 0xFF):
        t = bytes([b])
        name = t if b in NAME_BYTES else b"A"
        yield elt(t), name
        yield prefix(t), name
        yield rng(t, b"~"), name
        yield rng(b"!", t), name
        yield elt(b"A" * 15 + t), b"A" * 15 + name
    # ranges and the order of names
    for name in (b"A", b"B", b"BA", b"C", b"CZ", b"D", b"DA", b"E", b"b"):
        yield rng(b"B", b"D"), name
    for name in (b"AA", b"AB", b"ABC", b"ABCD", b"ABD", b"AC"):
        yield rng(b"AB", b"ABC"), name
    yield rng(b"D", b"B"), b"C"
    yield rng(b"B", b"B"), b"B"
    yield rng(b"B", b"B"), b"BA"
    yield rng(b"BA", b"B"), b"B"
    yield rng(b"B", b"BA"), b"B"
    yield rng(a16, a16), a16
    yield rng(a16, b"A" * 15), a16
    # sets: none, 8 and 9 members, the one that covers first and last
    yield members(), b"A"
    yield members() + ALL, b"A"
    yield members(*[ALL] * 8), b"A"
    yield members(*[ALL] * 9), b"A"
    yield b"\x05\x09" + ALL * 8, b"A"
    yield b"\x05\x08" + ALL * 7, b"A"
    yield b"\x05\xff" + ALL * 8, b"A"
    for k in range(8):
        for name in (b"A", b"B"):
            yield members(*[elt(b"A") if i == k else elt(b"C") for i in range(8)]), name
    yield members(elt(b"A"), elt(b"")), b"A"
    yield members(elt(b"A"), rng(b"D", b"B")), b"A"
    # nesting 0 to 6, over an empty set and over a leaf, alone and as the last member
    for leaf in (members(), ALL, elt(b"A")):
        t = leaf
        for _ in range(6):
            yield t, b"A"
            yield members(prefix(b"Z"), t), b"A"
            t = members(t)
    # 47, 48 and 49 bytes
    for size in (47, 48, 49):
        t = members(prefix(a16), prefix(b"B" * 15), prefix(b"C" * (size - 2 - 18 - 17 - 2)))
        assert len(t) == size
        yield t, b"B" * 15
        yield t, b"Z"
        t = members(members(elt(a16), members(prefix(b"B" * 13)), ALL), b"\x03" + text(b"D" * (size - 2 - 2 - 18 - 2 - 15 - 1 - 2)))
        assert len(t) == size
        yield t, b"DD"


def some_text(r, least, most=6):
    return bytes(r.choice(b"ABC") for _ in range(r.randint(least, most)))


def some_term(r, deep):
    form = r.choice((1, 2, 3, 4, 5, 5) if deep else (1, 2, 3, 4))
    if form == 1:
        return ALL
    if form == 2:
        return elt(some_text(r, 1, 3))
    if form == 3:
        return prefix(some_text(r, 0, 2))
    if form == 4:
        return rng(*sorted([some_text(r, 1, 3), some_text(r, 1, 3)]))
    return members(*[some_term(r, deep - 1) for _ in range(r.randint(0, 4))])


def damaged(r, term):
    kind = r.randrange(5)
    at = r.randrange(len(term))
    if kind == 0:
        return term[:at]
    if kind == 1:
        return term + bytes([r.choice((0, 1, 5, 0x41))])
    if kind == 2:
        return term[:at] + bytes([r.randrange(256)]) + term[at + 1:]
    if kind == 3:
        return term[:at] + bytes([term[at] ^ 1 << r.randrange(8)]) + term[at + 1:]
    return term[:at] + term[at + 1:]


def cases():
    yield from edges()
    r = random.Random(SEED)
    made = 0
    while made < 160:
        term = some_term(r, 5)
        if len(term) > 52:
            continue
        made += 1
        yield term, some_text(r, 1, 3)
        yield damaged(r, term), some_text(r, 1, 3)


def main():
    if len(sys.argv) != 2 or sys.argv[1] not in ("questions", "answers"):
        sys.exit(__doc__)
    for term, name in cases():
        if sys.argv[1] == "questions":
            print(term.hex().upper() or "-", name.decode() or "-")
        else:
            print(answer(term, name))


if __name__ == "__main__":
    main()
