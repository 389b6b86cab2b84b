#!/usr/bin/env python3
"""Prints the table of docs/PERFORMANCE.md anew: the time that writing and reading a value take, and their requests for memory.

usage: speed.py [CRATES [RUNS [WORD..]]]

CRATES is the folder with crates/bench_speed, whose binary lies in out/ once `rt run` or `rt ci` built it. The octets of each value are
those of speed_values.py. A figure is the least of RUNS runs (15 if unset) of about SECONDS of user time each, less that of a run
that only reads the value, or makes it where it is too deep. Requests are those of one run more, counted by the library of
scripts/memory/refuse.c. Run it on a machine that does nothing else.
"""
import os
import pathlib
import re
import resource
import subprocess
import sys
import tempfile

HERE = pathlib.Path(__file__).resolve().parent
sys.dont_write_bytecode = True
sys.path[:0] = [str(HERE), str(HERE / "memory")]
import run  # noqa: E402  the library that counts
from speed_values import digits, type_of  # noqa: E402

SECONDS = 0.5
ROWS = [("ints", 1000), ("ints", 10000), ("ints", 100000), ("octets", 1048576), ("nest", 32), ("nest", 64), ("nest", 127)]
ROWS += [("link", 16), ("link", 64), ("link", 1000), ("link", 8000), ("linked", 1048576), ("added", 1048576)]
ROWS += [("additions", 10), ("additions", 30), ("additions", 100), ("additions", 1000)]
ROWS += [("seq2", 1), ("outer", 1), ("extopt", 1), ("foo", 1), ("seqs", 1000), ("seqs", 100000)]
ROWS += [("intset", 1000), ("intset", 10000), ("intset", 100000), ("mixed", 1000), ("mixed", 10000), ("mixed", 100000)]
ROWS += [("text", 1048576), ("bits", 8388608), ("great", 1048576), ("times", 1000), ("colors", 1000)]
# past the levels that are read
WRITTEN_ONLY = {("link", 1000), ("link", 8000), ("additions", 1000)}


def spent(words, octets):
    """The user time of a run on that file, in seconds."""
    with open(octets, "rb") as file:
        child = subprocess.Popen(words, stdin=file, stdout=subprocess.DEVNULL)
    _, status, used = os.wait4(child.pid, 0)
    if status:
        sys.exit(f"{words}: status {status}")
    return used.ru_utime


def requests(preload, words, octets):
    """How many requests for memory a run on that file makes."""
    env = {"LD_PRELOAD": preload, "REFUSE_FROM": "start", "LANG": "C.UTF-8"}
    with open(octets, "rb") as file:
        done = subprocess.run(words, env=env, stdin=file, capture_output=True, text=True, check=True)
    return int(re.search(r"requests (\d+)", done.stderr)[1])


def measured(words, preload, octets, runs):
    """The octets of the value, the microseconds of one run, and its requests."""
    with open(octets, "rb") as file:
        line = subprocess.run([*words, "100"], stdin=file, capture_output=True, text=True, check=True).stdout
    length, nanoseconds = map(int, re.findall(r"\d+", line)[-2:])
    times = max(1, int(SECONDS * 1e9 / max(1, nanoseconds)))
    least = min(spent([*words, str(times)], octets) - spent([*words, "0"], octets) for _ in range(runs))
    return length, least / times * 1e6, requests(preload, [*words, "2"], octets) - requests(preload, [*words, "1"], octets)


def main():
    top = pathlib.Path(sys.argv[1]) if len(sys.argv) > 1 else HERE.parent / "crates"
    runs = int(sys.argv[2]) if len(sys.argv) > 2 else 15
    program = str(top / "bench_speed/out/bench_speed")
    # 8,000 links outgrow 8 MiB
    resource.setrlimit(resource.RLIMIT_STACK, (1 << 26, resource.getrlimit(resource.RLIMIT_STACK)[1]))
    print("| value | octets | write, µs | MB/s | requests | read, µs | MB/s | requests | read leniently, µs |\n|---|---|---|---|---|---|---|---|---|")
    with tempfile.TemporaryDirectory() as folder:
        preload, octets = run.library(folder), pathlib.Path(folder) / "octets"
        for word, count in ROWS:
            if sys.argv[3:] and word not in sys.argv[3:]:
                continue
            cells = []
            octets.write_text(digits(word, count))
            ways = [[type_of(word), "encode"], [type_of(word), "decode"], [type_of(word), "lenient"]]
            for way in [["deep", word, str(count)]] if (word, count) in WRITTEN_ONLY else ways:
                length, micros, asked = measured([program, *way], preload, octets, runs)
                cells.append(f"{micros:,.3g}" if micros < 1000 else f"{micros:,.0f}")
                if way[-1] != "lenient":
                    cells += [f"{length / micros:,.0f}", str(asked)]
            cells += [""] * (7 - len(cells))
            name = f"`{word}` {count:,}" if count > 1 else f"`{word}`"
            print(f"| {name} | {length:,} | " + " | ".join(cells) + " |", flush=True)


if __name__ == "__main__":
    main()
