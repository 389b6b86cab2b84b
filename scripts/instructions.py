#!/usr/bin/env python3
"""Counts the instructions that encoding and decoding some values take, and compares them with scripts/instructions.txt.

usage: instructions.py [--write] [CRATES]

CRATES is the folder with crates/bench_speed, whose binary lies in out/ once `rt run` or `rt ci` built it. Each row is run by
`valgrind --tool=callgrind`, which counts what the processor does, not how long it takes: so the figures are the same on every
machine, up to how its C library copies. A figure is a two-hundredth of what 202 runs take more than two. It may be at most 3 %
and one instruction above the one in the file: what makes a row dearer is seen. One that is more than 3 % below is named, so that the file is made anew by
`--write`. Where valgrind isn't installed a line says so, and the status is 0.
"""
import concurrent.futures
import os
import pathlib
import re
import shutil
import subprocess
import sys

HERE = pathlib.Path(__file__).resolve().parent
FILE = HERE / "instructions.txt"
MOST = 1.03
sys.dont_write_bytecode = True
sys.path.insert(0, str(HERE))
from speed_values import digits, type_of  # noqa: E402

# the word of a type, and a value's canonical octets
ROWS = {
    "int": ("int", "0200ff"),
    "octets": ("octets", "040badc0de"),
    "ints": ("ints", digits("ints", 100)),
    "seq1": ("seq1", "00ff"),
    "seq2": ("seq2", "80ff0206c001ff01ff"),
    "extopt": ("extopt", "4401010811121314151617180101"),
    "extopt_additions": ("extopt", "d60100010101020103030405060204a0020107020108"),
    "manyopt": ("manyopt", "8880010108111213141516171801010101"),
    "defint": ("defint", "800101"),
    "choice": ("choice", "8002014d"),
    "foo": ("foo", "e0010701060105"),
    "nest": ("nest", digits("nest", 20)),
    "nest_of_two": ("nest", "01020100" * 10 + "0100"),
    "link": (type_of("link"), digits("link", 10)),
    "times": (type_of("times"), digits("times", 10)),
    "colors": (type_of("colors"), digits("colors", 10)),
    "intset": ("intset", digits("intset", 10)),
    "utf8": ("utf8", "0568656c6c6f"),
    "bits": ("bits", "0304a1b0"),
    "oid": ("oid", "062a864886f70d"),
}


def collected(program, word, way, times, octets):
    """The instructions of one run of the program."""
    words = ["valgrind", "--tool=callgrind", "--callgrind-out-file=/dev/null", program, word, way, str(times)]
    ran = subprocess.run(words, input=octets, capture_output=True, text=True, env={"PATH": os.environ["PATH"], "LANG": "C"}, check=False)
    found = re.search(r"Collected : (\d+)", ran.stderr)
    if ran.returncode or not found:
        sys.exit(f"instructions.py: {word} {way}: status {ran.returncode}\n{ran.stdout}{ran.stderr[-500:]}")
    return int(found[1])


def count(program, row, way):
    """The instructions of one encoding or decoding of that row's value."""
    word, octets = ROWS[row]
    few, many = (collected(program, word, way, times, octets) for times in (2, 202))
    return round((many - few) / 200)


def stated():
    """The figures of the file."""
    lines = FILE.read_text(encoding="utf-8").splitlines() if FILE.is_file() else []
    return {(row, way): int(figure) for row, way, figure in (line.split() for line in lines if line and line[0] != "#")}


def write(figures):
    head = "# Instructions of one encoding or decoding, as scripts/instructions.py counts them: written by its --write.\n"
    FILE.write_text(head + "".join(f"{row} {way} {n}\n" for (row, way), n in figures.items()), encoding="utf-8")


def main(words):
    folders = [it for it in words if it != "--write"]
    program = pathlib.Path(folders[0] if folders else HERE.parent / "crates") / "bench_speed/out/bench_speed"
    if not shutil.which("valgrind"):
        print("instructions: valgrind isn't installed, so no instructions were counted")
        return 0
    if not program.is_file():
        print(f"instructions: there is no {program}: run `rt run` in its folder, or the gate")
        return 1
    tasks = [(row, way) for row in ROWS for way in ("encode", "decode")]
    with concurrent.futures.ThreadPoolExecutor(os.cpu_count()) as pool:
        figures = dict(zip(tasks, pool.map(lambda it: count(str(program), *it), tasks)))
    if "--write" in words:
        write(figures)
        print(f"instructions: {len(figures)} figures written into {FILE.relative_to(HERE.parent)}")
        return 0
    before, dearer = stated(), 0
    for task, n in figures.items():
        was = before.get(task)
        if was is None or n > was * MOST + 1:
            dearer += 1
            print(f"instructions: {' '.join(task)} takes {n}, and {'has no figure' if was is None else was} in {FILE.name}")
        elif n * MOST + 1 < was:
            print(f"instructions: {' '.join(task)} takes {n}, less than the {was} in {FILE.name}: write it anew")
    print(f"instructions: {len(figures) - dearer} of {len(figures)} figures are at most 3 % above those in {FILE.name}")
    return 1 if dearer else 0


if __name__ == "__main__":
    sys.exit(main(sys.argv[1:]))
