#!/usr/bin/env python3
"""With ample memory nothing wants memory: values of every length up to 300, both ways, in both modes.

usage: ample.py [CRATES]

CRATES is the folder with crates/test_vectors, whose binary lies in out/ once `rt ci` or `rt run` built it: it reads each row by every
call and writes it again by every call. All inputs of at most two octets are rows of that crate.
"""
import pathlib
import subprocess
import sys

TOP = pathlib.Path(__file__).resolve().parent.parent.parent
CHARACTERS = ["a", "\u00c4", "\u20ac", "\U0001f600"]


def length(n):
    if n < 128:
        return bytes([n])
    octets = n.to_bytes((n.bit_length() + 7) // 8, "big")
    return bytes([128 + len(octets)]) + octets


def content(octets):
    return length(len(octets)) + octets


def quantity(n):
    return content(n.to_bytes(max(1, (n.bit_length() + 7) // 8), "big"))


def some(n):
    """So many octets, no two neighbours alike."""
    return bytes((37 * i + 11) % 251 for i in range(n))


def integers(n):
    """Numbers of so many octets: the first octet is no superfluous sign."""
    yield content(b"\x7f" + some(n - 1))
    yield content(b"\x80" + some(n - 1))


def number(i):
    """An integer of one to three octets."""
    n = (i * 48271) % 70001 - 35000
    return content(n.to_bytes((n if n >= 0 else ~n).bit_length() // 8 + 1, "big", signed=True))


def bits(n):
    octets = bytearray(some((n + 7) // 8))
    if n % 8:
        octets[-1] &= 0xFF << 8 - n % 8 & 0xFF
    return content(bytes([-n % 8]) + octets)


def text(n):
    """A text of so many octets, of characters of one to four octets."""
    octets = b""
    while len(octets) < n:
        one = CHARACTERS[len(octets) % 4].encode()
        octets += one if len(octets) + len(one) <= n else b"z"
    return content(octets)


def rows():
    """Each type's word with the canonical octets of a value."""
    for n in range(1, 301):
        yield from (("int", octets) for octets in integers(n))
    for n in range(301):
        yield "octets", content(some(n))
        yield "bits", bits(n)
        yield "utf8", text(n)
        yield "ints", quantity(n) + b"".join(number(i) for i in range(n))
        yield "intset", quantity(n) + b"".join(sorted(number(i) for i in range(n)))


def main():
    top = pathlib.Path(sys.argv[1]) if len(sys.argv) > 1 else TOP / "crates"
    asked = [f"read {mode} {word} {octets.hex()}" for word, octets in rows() for mode in ("oer", "coer")]
    program = str(top / "test_vectors/out/test_vectors")
    done = subprocess.run([program], input="\n".join(asked) + "\n", capture_output=True, text=True, timeout=120)
    answers = done.stdout.splitlines()
    faults = [row[:100] for row, line in zip(asked, answers) if line != f"{row} => {row.split(' ')[3]};"]
    if done.returncode or len(answers) != len(asked):
        faults.append(f"status {done.returncode} behind {len(answers)} rows")
    print("\n".join(faults[:40]), end="\n" if faults else "")
    print(f"ample memory: {len(asked)} values read and written: {len(faults)} faults")
    return 1 if faults else 0


if __name__ == "__main__":
    sys.exit(main())
