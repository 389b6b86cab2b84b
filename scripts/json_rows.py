#!/usr/bin/env python3
"""Turns the canonical octets of the rows of test_vectors into JSON and back: `oershow --json`, then `oershow --from-json`.

usage: json_rows.py OERSHOW OERGEN

OERSHOW and OERGEN are the built programs; the table is that of crates/oergen/data/words.asn and types.asn. The exit status is 0 if the octets that come
back are the same for each row whose type the modules have, but for those that JSON can't give back, of which it says how many there are:
values deeper than the 127 levels that the JSON reader takes, and groups of additions that are there without any component, which JSON
doesn't show.
"""
import collections
import json
import pathlib
import re
import subprocess
import sys
import tempfile

top = pathlib.Path(__file__).resolve().parent.parent
sys.path.insert(0, str(top / "scripts"))
sys.dont_write_bytecode = True

import words  # noqa: E402

ROWS = top / "crates/test_vectors/stdout"
# What is read of octets: its canonical octets.
ROW = re.compile(r"(?:run|read) (?:oer|coer) (\S+) [0-9a-f]* => ([0-9a-f]*)(?:\|[0-9a-f]*\|;0|;[0-9a-f]*)")
DEEPEST = 127
# Groups without any component.
EMPTY_GROUPS = {("Sequence6", "80ff0207800100"), ("Sequence7", "80ff0204100100")}


def run(program, table, lines):
    """What the program writes of each line."""
    words = [program, str(table), "-"]
    return subprocess.run(words, input="\n".join(lines) + "\n", stdout=subprocess.PIPE, text=True, check=False).stdout.splitlines()


def depth(value):
    """How deep a JSON value is nested."""
    parts = value.values() if isinstance(value, dict) else value if isinstance(value, list) else None
    return 0 if parts is None else 1 + max(map(depth, parts), default=0)


def main(given):
    if len(given) != 2:
        print(__doc__, file=sys.stderr)
        return 2
    sys.setrecursionlimit(20000)
    show, compiler = (str(pathlib.Path(it).resolve()) for it in given)
    rows = dict.fromkeys((row[1], row[2]) for row in map(ROW.fullmatch, ROWS.read_text(encoding="utf-8").splitlines()) if row)
    known = [(words.NAMES[word], octets) for word, octets in rows if word in words.NAMES]
    left_out = collections.Counter(word for word, _ in rows if word not in words.NAMES)
    with tempfile.TemporaryDirectory() as folder:
        table = pathlib.Path(folder) / "words.table"
        with table.open("wb") as file:
            subprocess.run([compiler, "--table", *(top / it for it in words.MODULES)], check=True, stdout=file)
        shown = run(show, table, [f"--json {name} {octets}" for name, octets in known])
        back = run(show, table, [f"--from-json {name} {line}" for (name, _), line in zip(known, shown)])
    if not len(known) == len(shown) == len(back):
        print(f"json_rows: {len(known)} rows, {len(shown)} lines of JSON, {len(back)} lines of octets")
        return 1
    deep = empty = faults = 0
    for (name, octets), line, again in zip(known, shown, back):
        if again == octets:
            continue
        if (name, octets) in EMPTY_GROUPS:
            empty += 1
            continue
        if again.startswith("refused: NotJson") and depth(json.loads(line)) > DEEPEST:
            deep += 1
            continue
        faults += 1
        print(f"json_rows: {name} {octets}: {line}: {again}")
    same = len(known) - deep - empty - faults
    print(f"json_rows: {same} of {len(known)} rows came back the same, {deep} are deeper than {DEEPEST}, {empty} have an empty group, {faults} faults; "
          f"of types that the module hasn't: {', '.join(f'{number} {word}' for word, number in left_out.items())}")
    return 1 if faults or not same else 0


if __name__ == "__main__":
    sys.exit(main(sys.argv[1:]))
