#!/usr/bin/env python3
"""Compares what types that oergen prints read of random octets with what oershow shows of the same octets by a table.

usage: random_octets.py OERGEN OERSHOW [--seed NUMBER] [--rounds COUNT], for example:
       random_octets.py crates/oergen/out/oergen crates/oershow/out/oershow --seed 7

The modules are those of second_reader.py. Their types are printed with --c and built with nothing proved, which takes some minutes. In
each round a type's function canonicalises 300 random octet strings, of those that were read or not, damaged. Of those that it read
leniently, `oershow --json` has to show a value, which `--from-json` writes as the function does; additions that the table doesn't have
are taken out. The same seed gives the same modules and octets.
"""
import json
import pathlib
import random
import subprocess
import sys
import tempfile

sys.dont_write_bytecode = True
sys.path.insert(0, str(pathlib.Path(__file__).resolve().parent))

import random_modules  # noqa: E402
from random_defaults import build, told, words_of  # noqa: E402

# Octets that lengths, tags, quantities and preambles often are.
LIKELY = (0, 0, 0, 1, 1, 1, 2, 2, 3, 4, 5, 8, 0x10, 0x20, 0x30, 0x40, 0x41, 0x7F, 0x80, 0x80, 0x81, 0x82, 0x83, 0x84, 0x85, 0xA0, 0xC0, 0xE0, 0xFF)
STRINGS, LENGTH, COMPARED = 300, 200, 60


def damaged(rng, octets):
    """Octets with up to four changes."""
    out = bytearray(octets)
    for _ in range(rng.randint(1, 4)):
        at = rng.randrange(len(out)) if out else 0
        sort = rng.randrange(5) if out else 3
        if sort == 0:
            out.insert(at, rng.choice(LIKELY))
        elif sort == 1:
            del out[at]
        elif sort == 2:
            out[at] = rng.choice(LIKELY)
        elif sort == 3:
            out += bytes(rng.choice(LIKELY) for _ in range(rng.randint(1, 6)))
        else:
            out[at] ^= 1 << rng.randrange(8)
    return bytes(out[:LENGTH])


def known(value):
    """A value in JSON without additions that the table doesn't have."""
    if isinstance(value, dict):
        return {name: known(of) for name, of in value.items() if name != "?"}
    return [known(of) for of in value] if isinstance(value, list) else value


def lines_of(words, lines):
    """What a program writes of lines."""
    ran = subprocess.run([str(it) for it in words], input="".join(f"{it}\n" for it in lines), capture_output=True, text=True, check=False)
    return ran.stdout.splitlines()


def read_by(tree, of, strings):
    """Of octet strings that a type's function reads leniently, each with what it writes."""
    answers = lines_of([tree / "m"], (f"{of} {it.hex()}" for it in strings))
    if len(answers) != len(strings):
        raise ValueError(f"{of}: the driver ends after {len(answers)} of {len(strings)} strings")
    return {octets: written for octets, (written, status, _) in zip(strings, (it.split(" ") for it in answers)) if status == "0"}


def found(rng, tree, of, rounds):
    """Octet strings that a type's function reads, with what it writes."""
    others, read, seen = [b""], {}, set()
    for _ in range(rounds):
        near = list(read)[-50:]
        strings = list(dict.fromkeys(it for it in (damaged(rng, rng.choice(others + near + near)) for _ in range(STRINGS)) if it and it not in seen))
        seen.update(strings)
        more = read_by(tree, of, strings) if strings else {}
        read.update(more)
        others = (others + [it for it in strings if it not in more])[:900]
    return read


def faults_of(oershow, tree, of, read):
    """Where the table shows another value than the type's function read."""
    table = tree / "m.table"
    shown = lines_of([oershow, "--json", table, of], (it.hex() for it in read))
    values = [json.dumps(known(json.loads(it)), ensure_ascii=False) for it in shown]
    again = lines_of([oershow, "--from-json", table, of], values)
    if not len(shown) == len(again) == len(read):
        return [f"{of}: {len(shown)} values and {len(again)} encodings of {len(read)} strings"]
    rows = [row for row in zip(read.items(), shown, again) if row[2] != row[0][1]]
    return [f"{of} of {octets.hex()}: {it}, written as {by_table}, and not {written}" for (octets, written), it, by_table in rows]


def main():
    words = words_of(__doc__, "--rounds", 12)
    rng, faults, compared = random.Random(words.seed), [], 0
    with tempfile.TemporaryDirectory(prefix="octets-") as name:
        tree = pathlib.Path(name)
        (tree / "m.asn").write_text(random_modules.text(random.Random(f"{words.seed} 0")), encoding="utf-8")
        types = build(words.oergen, tree)
        for of in types:
            read = found(rng, tree, of, words.rounds)
            some = dict(rng.sample(sorted(read.items()), min(COMPARED, len(read))))
            compared += len(some)
            faults += faults_of(words.oershow, tree, of, some) if some else []
    return told("random_octets", f"{compared} values of {len(types)} types", faults, "shown as they are read")


if __name__ == "__main__":
    sys.exit(main())
