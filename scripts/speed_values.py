#!/usr/bin/env python3
"""Prints the octets of a value that crates/bench_speed measures, in hexadecimal.

usage: speed_values.py VALUE COUNT, for example: scripts/speed_values.py ints 1000 | crates/bench_speed/out/bench_speed ints encode 10000

VALUE is a word of VALUES, with the word of the value's type, by which bench_speed reads it:
- ints, times, colors: a list of COUNT integers (COUNT - 1 down to 0), UTCTimes, enumerated values
- intset, mixed: the same integers as a SET OF; a SET OF of COUNT integers below 1,000,003, in no order
- octets, text, bits, great: an OCTET STRING, a UTF8String, a BIT STRING, an INTEGER of COUNT octets, letters, bits, octets
- nest: COUNT lists in one another, around an empty list
- link: COUNT sequences, each but the last with a choice of the next
- linked: an INTEGER of COUNT octets within ten sequences, each in a choice of the sequence around it
- added: an OCTET STRING of COUNT octets as an extension addition
- additions: COUNT sequences of a BOOLEAN, each but the last with the next as its extension addition
- seq2, seqs, outer: a sequence of a BOOLEAN with two additions, BOOLEANs, both present; a list of COUNT of these; one as the
  addition of a sequence of a BOOLEAN
- extopt: a sequence of an INTEGER, six optional components (four present) and four additions (two present)
- foo: a set of three optional INTEGERs, two present

The octets are canonical (docs/ENCODING.md), but for the order of the elements of an unordered list, which is one that has to be
sorted where the list is written. What has one size is the same for each COUNT.
"""
import sys


def number(n):
    """The shortest octets of a number, at least one."""
    return n.to_bytes(max(1, (n.bit_length() + 7) // 8), "big")


def behind_length(octets):
    """Octets behind their length."""
    length = number(len(octets))
    return (length if len(octets) < 128 else bytes([128 + len(length)]) + length) + octets


def integer(n):
    """An integer without constraints, which isn't negative: it has a sign."""
    return behind_length(n.to_bytes(n.bit_length() // 8 + 1, "big"))


def listed(elements):
    """A list: its quantity, and its elements."""
    return behind_length(number(len(elements))) + b"".join(elements)


def extended(octets, bits, *additions):
    """A sequence's preamble without the bit that says so, with it; behind its root the bitmap, and additions as open types."""
    count = len(bits)
    bitmap = bytes([-count % 8]) + int(bits.ljust(-count % 8 + count, "0"), 2).to_bytes((count + 7) // 8, "big")
    return bytes([octets[0] | 128]) + octets[1:] + behind_length(bitmap) + b"".join(map(behind_length, additions))


FALSE, TRUE = b"\0", b"\xff"
SEQUENCE = extended(b"\0" + TRUE, "11", TRUE, FALSE)
# the choice's alternatives have the context-specific tags 0 and 1
BOOLEAN, NEXT = b"\x80", b"\x81"


def extopt():
    """0, 1, 2, 3 and the octets 4, 5, 6, of six optional components the first, the third and the last two; then 7 and 8."""
    root = b"".join(map(integer, (0, 1, 2, 3))) + behind_length(bytes([4, 5, 6]))
    return extended(bytes([0b0101_0110]) + root, "1010", integer(7), integer(8))


def integers(count):
    """The integers from `count - 1` down to 0."""
    return listed([integer(n) for n in reversed(range(count))])


def link(count, innermost):
    """Sequences without their optional component around an innermost one, `count` in all."""
    return (b"\0" + NEXT) * (count - 1) + innermost


def additions(count):
    """Sequences of a boolean, each of which but the last has the next as its addition."""
    octets = b"\0" + TRUE
    for _ in range(1, count):
        octets = extended(b"\0" + TRUE, "1", octets)
    return octets


# Values, each with the word of its type.
VALUES = {
    "ints": ("ints", integers),
    "intset": ("intset", integers),
    "mixed": ("intset", lambda count: listed([integer(n * 48_271 % 1_000_003) for n in range(count)])),
    "nest": ("nest", lambda count: b"\1\1" * count + b"\1\0"),
    "link": ("link", lambda count: link(count, b"\0" + BOOLEAN + TRUE)),
    "linked": ("link", lambda count: link(10, b"\x80" + behind_length(b"\x5a" * count) + BOOLEAN + TRUE)),
    "added": ("added", lambda count: extended(b"\0" + TRUE, "1", behind_length(b"\x5a" * count))),
    "additions": ("additions", additions),
    "octets": ("octets", lambda count: behind_length(b"\x5a" * count)),
    "text": ("utf8", lambda count: behind_length(b"z" * count)),
    "bits": ("bits", lambda count: behind_length(bytes([-count % 8]) + bytes((count + 7) // 8))),
    "great": ("int", lambda count: behind_length(b"\x5a" * count)),
    "times": ("times", lambda count: listed([behind_length(b"191009130005Z")] * count)),
    "colors": ("colors", lambda count: listed([b"\6"] * count)),
    "seq2": ("seq2", lambda count: SEQUENCE),
    "outer": ("outer", lambda count: extended(b"\0" + TRUE, "1", SEQUENCE)),
    "extopt": ("extopt", lambda count: extopt()),
    # in the order of the tags, which is that of c, b, a
    "foo": ("foo", lambda count: bytes([0b0110_0000]) + integer(2) + integer(1)),
    "seqs": ("seqs", lambda count: listed([SEQUENCE] * count)),
}


def type_of(word):
    """The word by which bench_speed reads the value of that word."""
    return VALUES[word][0]


def digits(word, count):
    """The octets of the value of that word, in hexadecimal."""
    return VALUES[word][1](count).hex()


if __name__ == "__main__":
    if len(sys.argv) != 3 or sys.argv[1] not in VALUES:
        sys.exit(f"{__doc__}\nVALUES: {' '.join(VALUES)}")
    print(digits(sys.argv[1], int(sys.argv[2])))
