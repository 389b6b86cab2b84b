#!/usr/bin/env python3
"""Has AFL++ make up octets for the calls of the library for C, by bindings/tests/hostile.c, which aborts where an answer breaks a promise.

usage: afl.py FOLDER [MINUTES [JOBS]]           (60 minutes and one job, if unset)
       afl.py --inputs COUNT SEED               writes damaged octets of the rows to standard output, as hostile.c reads them

FOLDER is made, and keeps what was found. The archive is built with nothing proved, with checks of bounds, overflows and unwraps, and with
the calls by which AFL++ (Debian's package afl++) counts branches; the inputs to begin with are the rows of test_vectors. The last job lays
each block against a page that can't be accessed (libdislocator), the others don't, or one job alone. Prints a line a job, and exits
with 1 if anything aborted or hung.
"""
import os
import pathlib
import random
import re
import subprocess
import sys

top = pathlib.Path(__file__).resolve().parent.parent
sys.path[:0] = [str(top / "scripts"), str(top / "scripts/fuzz")]
sys.dont_write_bytecode = True

import fuzz  # noqa: E402

DISLOCATOR = "/usr/lib/afl/libdislocator.so"
# In milliseconds, for a machine with other work: AFL++ leaves an input after one second, and calls it a hang after these.
HANGS_AFTER = "20000"
# SEQUENCE { a BOOLEAN, ..., b SEQUENCE OF OCTET STRING OPTIONAL }, and octets of it
TABLE = [4, 5, 15, 16, 19, 11, 1, 1, 1, 0, 0, 1, 1, 1, 2, 0, 10, 0, 3, 8, 0]
WALKED = "80ff02078005010102aabb"


def words():
    """The words that docs/TYPES.md has, in its order."""
    block = re.search(r"```text\n(.*?)```", (top / "docs/TYPES.md").read_text(encoding="utf-8"), re.S)[1]
    return [word for names in re.findall(r"^  (\S+(?:, \S+)*)  ", block, re.M) for word in names.split(", ")]


def header():
    return f"static const char *const WORDS[] = {{{', '.join(f'{chr(34)}{it}{chr(34)}' for it in words())}}};\n"


def seeds():
    """An input for each octets in the rows, canonical and lenient, as another type than the one before; and a walk."""
    place = {word: number for number, word in enumerate(words())}
    known = {word: octets for word, octets in fuzz.seeds().items() if word in place}
    made = [bytes([place[word], number % 2, (place[word] + number) % len(place), 128]) + it for word, octets in known.items() for number, it in enumerate(octets)]
    return known, place, [*made, bytes([255, len(TABLE), 0, *TABLE]) + bytes.fromhex(WALKED)]


def inputs(count, seed):
    """The seeds, and so many damaged octets of the rows."""
    known, place, made = seeds()
    rng = random.Random(seed)
    yield from made
    for _ in range(count):
        it = fuzz.made(rng, known)
        yield bytes([place[it.word], rng.randrange(2), rng.randrange(len(place)), rng.choice([1, 2, 128, 0])]) + it.octets


def records(count, seed):
    """The same, as hostile.c reads them."""
    return b"".join(len(it).to_bytes(2, "big") + it for it in inputs(count, seed))


def build(folder):
    (folder / "words.h").write_text(header(), encoding="utf-8")
    (folder / "seeds").mkdir()
    for number, it in enumerate(seeds()[2]):
        (folder / f"seeds/{number}").write_bytes(it)
    archive = folder / "libjilgomt.a"
    if not archive.is_file():
        subprocess.run([sys.executable, top / "scripts/archive.py", "--coverage", archive], check=True)
    words = ["afl-clang-fast", "-O1", "-g", f"-I{top}/include", f"-I{folder}", top / "bindings/tests/hostile.c", archive, "-o", folder / "hostile"]
    subprocess.run([str(it) for it in words], check=True, env={**os.environ, "AFL_QUIET": "1"})


def started(folder, number, seconds, is_guarded):
    """A job of AFL++, the first of which is its main one."""
    quiet = "AFL_NO_UI AFL_NO_AFFINITY AFL_SKIP_CPUFREQ AFL_I_DONT_CARE_ABOUT_MISSING_CRASHES AFL_IGNORE_PROBLEMS"
    env = {**os.environ, **dict.fromkeys(quiet.split(), "1"), "AFL_HANG_TMOUT": HANGS_AFTER}
    if is_guarded:
        env["AFL_PRELOAD"] = DISLOCATOR
    words = ["afl-fuzz", "-i", "seeds", "-o", "found", "-M" if number == 0 else "-S", f"job{number}", "-t", "1000", "-V", str(seconds), "--", "./hostile"]
    with open(folder / f"job{number}.log", "w", encoding="utf-8") as log:
        return subprocess.Popen(words, cwd=folder, env=env, stdin=subprocess.DEVNULL, stdout=log, stderr=subprocess.STDOUT)


def counted(folder, number):
    """Says what a job did, and answers how much it found."""
    file = folder / f"found/job{number}/fuzzer_stats"
    if not file.is_file():
        print(f"afl.py: job {number} didn't run: {(folder / f'job{number}.log').read_text(errors='replace')[-2000:]}")
        return 1
    stats = dict(re.findall(r"^(\w+) *: (.*)$", file.read_text(), re.M))
    faults = int(stats["saved_crashes"]) + int(stats["saved_hangs"])
    print(f"afl.py: job {number}: {stats['execs_done']} inputs in {stats['run_time']} s, {stats['corpus_count']} kept, {stats['edges_found']} of {stats['total_edges']} branches; {stats['saved_crashes']} aborts, {stats['saved_hangs']} hangs")
    return faults


def main(given):
    if given[:1] == ["--inputs"] and len(given) == 3:
        sys.stdout.buffer.write(records(int(given[1]), int(given[2])))
        return 0
    if not 1 <= len(given) <= 3 or given[0].startswith("--"):
        print(__doc__, file=sys.stderr)
        return 2
    folder = pathlib.Path(given[0]).resolve()
    minutes, jobs = (int(it) for it in [*given[1:], *["60", "1"][len(given) - 1:]])
    folder.mkdir(parents=True, exist_ok=True)
    build(folder)
    running = [started(folder, it, 60 * minutes, it == jobs - 1) for it in range(jobs)]
    for it in running:
        it.wait()
    return 1 if sum(counted(folder, it) for it in range(jobs)) else 0


if __name__ == "__main__":
    sys.exit(main(sys.argv[1:]))
