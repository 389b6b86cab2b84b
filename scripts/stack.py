#!/usr/bin/env python3
"""Prints the table of docs/PERFORMANCE.md on depth and stack anew: the least stack on which a program ends in order.

usage: stack.py [CRATES [NAME..]]

CRATES is the folder with test_vectors and bench_speed, whose binaries lie in out/ once `rt run` or `rt ci` built them; NAME is a row of
TYPES, all if unset. A figure is the least KiB of `ulimit -s`, to STEP, with which the program ends with status 0 and answers.
"Decoded" is the octets less their last, which are refused at the innermost level; "both ways" the octets decoded and encoded. A
program that `rt try` made takes several times as much.
"""
import pathlib
import re
import subprocess
import sys

sys.dont_write_bytecode = True
sys.path.insert(0, str(pathlib.Path(__file__).resolve().parent))
from speed_values import digits  # noqa: E402

STEP, MOST = 4, 1 << 16
# of each type its word, its levels each time that it contains itself, and the octets of a value of so many of itself
TYPES = {
    # (lists of two, since lists of one take no stack)
    "Nest": ("nest", 1, lambda n: "01020100" * (n - 1) + "0100"),
    "Link": ("Link", 2, lambda n: digits("link", n)),
    "TopLevel": ("toplevel", 2, lambda n: "0182" * (n - 1) + "0280"),
    "Bush": ("Bush", 2, lambda n: "01050101" * (n - 1) + "01050100"),
}
DEEP = ("nest", "link", "additions")


def ends(words, octets, size):
    """What the program prints on a stack of so many KiB; nothing where it doesn't end in order."""
    limited = ["sh", "-c", 'ulimit -s "$0" && exec "$@"', str(size), *words]
    ran = subprocess.run(limited, input=octets, capture_output=True, text=True, env={}, check=False)
    return "" if ran.returncode else ran.stdout


def least(words, octets, answer):
    """The least stack, in KiB, on which it prints what is wanted."""
    if not re.search(answer, ends(words, octets, MOST)):
        sys.exit(f"stack.py: {words} doesn't answer {answer}: {ends(words, octets, MOST)[-300:]!r}")
    low, high = 0, MOST
    while high - low > STEP:
        middle = (low + high) // 2
        low, high = (low, middle) if re.search(answer, ends(words, octets, middle)) else (middle, high)
    return high


def row(program, name):
    """A row of the table."""
    word, levels, octets = TYPES[name]
    line = f"depth 1024 coer {word} "
    cut = [least([program], f"{line}{octets(n // levels)[:-2]}\n", " => Coer Incomplete") for n in (2, 128, 1024)]
    whole = octets(1024 // levels)
    both = least([program], f"{line}{whole}\n", f" => {whole}")
    return f"| `{name}` | {cut[0]} | {cut[1]} | {cut[2]} | {both} | {round((cut[2] - cut[1]) * 1024 / 896, -1):.0f} |"


def main(words):
    crates = pathlib.Path(words[0]) if words else pathlib.Path(__file__).resolve().parent.parent / "crates"
    vectors, speed = (str(crates / it / "out" / it) for it in ("test_vectors", "bench_speed"))
    print("| type | decoded, 2 levels | 128 | 1,024 | both ways, 1,024 | octets a level, decoded |\n|---|---|---|---|---|---|")
    for name in words[1:] or TYPES:
        print(row(vectors, name), flush=True)
    print("\n| value | encoded, 1,024 | 8,000 | octets a level |\n|---|---|---|---|")
    for word in DEEP:
        few, many = (least([speed, "deep", word, str(n), "1"], "", r"\d+ octets") for n in (1024, 8000))
        print(f"| `{word}` | {few} | {many} | {round((many - few) * 1024 / 6976, -1):.0f} |", flush=True)


if __name__ == "__main__":
    main(sys.argv[1:])
