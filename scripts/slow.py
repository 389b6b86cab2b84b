#!/usr/bin/env python3
"""Which functions of a crate's last check cost most, by the megabytes of what it kept of each: half a second of processor each.

usage: slow.py CRATE [NUMBER], behind `rt check` of a crate, with any number of jobs

Prints the megabytes of each function, the most first, and of which of its parts: `Lts` is what the borrow checker looks at, with each
local at each step, so it grows with the square of a function's calls; `Tie` joins it to the proof.
"""
import collections
import pathlib
import re
import sys

top = pathlib.Path(__file__).resolve().parent.parent
PART = re.compile(r"Rattle-\w+-proofs\.(.+)\.(\w+)\.oantt")


def parts(crate):
    """The megabytes of each part, by its function and its own name."""
    found = collections.defaultdict(collections.Counter)
    for file in (top / "crates" / crate / "out/incremental").rglob("*.oantt"):
        part = PART.fullmatch(file.name.replace(".decls.oantt", ".oantt"))
        if part:
            found[part[1]][part[2]] += file.stat().st_size / 1e6
    return {function: sizes for function, sizes in found.items() if "Lts" in sizes}


def main(crate, number="20"):
    found = parts(crate)
    if not found:
        raise SystemExit(f"slow: {crate} has no kept check: run rt check in crates/{crate}")
    print(f"{sum(sum(it.values()) for it in found.values()):7.1f} MB, {len(found)} functions")
    for function, sizes in sorted(found.items(), key=lambda it: -sum(it[1].values()))[: int(number)]:
        most = ", ".join(f"{part} {size:.1f}" for part, size in sizes.most_common(3))
        print(f"{sum(sizes.values()):7.1f} MB {function}: {most}")


if __name__ == "__main__":
    main(*sys.argv[1:])
