#!/usr/bin/env python3
"""Runs oertool within 64 MiB of address space on short inputs that state great lengths and quantities.

usage: limit.py [CRATES]

CRATES is the folder with crates/oertool, whose binary lies in out/ once `rt ci` or `rt run` built it. Each input is refused by its
name; no request for memory is larger than 64 KiB, also where a larger one would be had: nothing is reserved by what an input
states. The last line has the greatest resident size.
"""
import pathlib
import re
import resource
import subprocess
import sys
import tempfile

import run

LIMIT = 64 << 20
LARGEST = 64 << 10
STATED = [2**20, 2**24 - 1, 2**26, 2**28, 2**31, 2**32, 2**40, 2**56, 2**60, 2**61, 2**62, 2**63 - 1]
LACKS, EXCEEDS, MANY = "Incomplete", "LengthExceedsPlatformWidth", "TooManyEmptyElements"
# strings, identifiers and times have at most an eighth of what usize can count
MOST = (2**64 - 1) // 8


def length(n):
    octets = n.to_bytes((n.bit_length() + 7) // 8, "big")
    return bytes([128 + len(octets)]) + octets


def quantity(n):
    octets = n.to_bytes((n.bit_length() + 7) // 8, "big")
    return bytes([len(octets)]) + octets


def inputs(n):
    """Types' words, octets that state n, and the refusal."""
    of_string = EXCEEDS if n > MOST else LACKS
    for word in ("octets", "utf8", "oid", "utctime", "gentime", "date"):
        yield word, length(n) + b"1", of_string
    # a bit string's first octet isn't content
    yield "bits", length(n) + b"\0\1", EXCEEDS if n - 1 > MOST else LACKS
    yield "int", length(n) + b"\1", LACKS
    yield "posbig", length(n) + b"\1", LACKS
    for word, element in (("ints", b"\1\5"), ("intset", b"\1\5"), ("nest", b"\1\0"), ("bag1", b"\0\xff"), ("bag2", b"\0\xff"), ("bag3", b"\0\xff")):
        yield word, quantity(n), LACKS
        yield word, quantity(n) + element * 9, LACKS
    yield "nulls", quantity(n), MANY
    # a bitmap, additions known and unknown, an alternative, and an addition in one
    for word in ("seq1", "seq2", "seq3", "seq6", "seq7", "outer", "mixset", "mixset2"):
        yield word, b"\x80\xff" + length(n) + b"\0", LACKS
        yield word, b"\x80\xff\2\7\x80" + length(n) + b"\xff", LACKS
        yield word, b"\x80\xff\3\0\0\1" + length(n) + b"\xff", LACKS
    yield "emptyext", b"\x80" + length(n), LACKS
    yield "outer", b"\x80\xff\2\7\x80\x0f\x80\xff\2\6\x40" + length(n), LACKS
    yield "choice", b"\x82" + length(n) + b"\1", LACKS
    yield "dup", b"\x80\1\1\2\7\x80" + length(n), LACKS


def ask(preload, program, mode, word, octets):
    """What the program printed, its status, its largest request, and its greatest resident size in KiB."""
    env = {"LD_PRELOAD": preload, "REFUSE_FROM": "start", "LANG": "C.UTF-8"}

    def limited():
        resource.setrlimit(resource.RLIMIT_AS, (LIMIT, LIMIT))

    words = [program, mode, word, octets.hex()]
    done = subprocess.run(words, env=env, capture_output=True, text=True, timeout=60, preexec_fn=limited, check=False)
    report = re.search(r"largest (\d+) resident (\d+)\n$", done.stderr)
    return done.stdout, done.returncode, *(map(int, report.groups()) if report else (None, 0))


def main():
    top = pathlib.Path(sys.argv[1]) if len(sys.argv) > 1 else run.HERE.parent.parent / "crates"
    program = str(top / "oertool/out/oertool")
    faults, runs, largest, resident = [], 0, 0, 0
    with tempfile.TemporaryDirectory() as folder:
        preload = run.library(folder)
        for n in STATED:
            for word, octets, kind in inputs(n):
                for mode in ("oer", "coer"):
                    line, status, asked, size = ask(preload, program, mode, word, octets)
                    if (line, status) != (f"refused: {kind}\n", 1) or asked is None or asked > LARGEST:
                        faults.append(f"{mode} {word} {octets.hex()}: status {status}, largest request {asked}: {line[:200]!r}")
                    runs, largest, resident = runs + 1, max(largest, asked or 0), max(resident, size)
    print("\n".join(faults[:40]), end="\n" if faults else "")
    print(
        f"little memory: {runs} inputs within {LIMIT >> 20} MiB: {len(faults)} faults; "
        f"largest request {largest} octets, greatest resident size {resident} KiB"
    )
    return 1 if faults else 0


if __name__ == "__main__":
    sys.exit(main())
