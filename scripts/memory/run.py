#!/usr/bin/env python3
"""Refuses each request for memory of each call in turn, and compares what the proved programs answer.

usage: run.py [--table] [CRATES]

CRATES is the folder with crates/test_memory and crates/oertool, whose binaries lie in out/ once `rt ci` or `rt run` built them.
Of each call of cases.py: a run for N from 1, whose Nth request is refused, until a run meets no refusal. A run whose request was
refused answers `OutOfMemory`, with what has to be unchanged, or exactly what is answered with ample memory; any other run exactly
that. With --table the counts of requests are printed as a table.
"""
import concurrent.futures
import os
import pathlib
import re
import subprocess
import sys
import tempfile

import cases

HERE = pathlib.Path(__file__).resolve().parent
REPORT = re.compile(r"requests (\d+) refused (\d+) marks (\d+) largest \d+ resident \d+\n$")
MOST = 2000


def library(folder):
    """Builds refuse.c."""
    to = os.path.join(folder, "refuse.so")
    subprocess.run(["cc", "-O2", "-Wall", "-shared", "-fPIC", "-o", to, str(HERE / "refuse.c"), "-ldl"], check=True)
    return to


def run(preload, source, program, words, nth):
    """What the program printed, its status, how many requests it made, whether one was refused, and the marks."""
    env = {"LD_PRELOAD": preload, "REFUSE_FROM": source, "REFUSE_NTH": str(nth), "LANG": "C.UTF-8"}
    done = subprocess.run([program, *words], env=env, capture_output=True, text=True, timeout=60)
    report = REPORT.search(done.stderr)
    if not report:
        sys.exit(f"{program} {' '.join(words)}: request {nth}: no report; status {done.returncode}: {done.stderr[-300:]}")
    made, refused, marks = map(int, report.groups())
    return done.stdout, done.returncode, made, refused, marks


def fault(words, nth, why, line):
    return f"{' '.join(words)}: request {nth}: {why}: {line[:300]!r}"


def count(preload, program, case):
    """How many requests the call makes, after a run for each; or what is wrong."""
    for nth in range(1, MOST):
        line, status, made, refused, marks = run(preload, "mark", program, case.words, nth)
        if status != 0 or marks < 2 or not line.endswith("\n"):
            return fault(case.words, nth, f"status {status}, {marks} marks", line)
        line = line[:-1]
        out_of_memory = line == case.refused if case.is_whole else re.fullmatch(re.escape(case.refused) + "[0-9a-f]*", line)
        if line != case.answer and not (refused and out_of_memory):
            return fault(case.words, nth, "another answer than " + case.answer[:100], line)
        if not refused:
            if made != nth - 1:
                return fault(case.words, nth, f"{made} requests", line)
            if case.takes_none and made:
                return fault(case.words, nth, f"{made} requests of a call that makes none", line)
            return made
    return fault(case.words, MOST, "no end", "")


TOOL = [
    (("oer", "seq1", "80ff0206c001ff01ff"), "00ff\n\n"),
    (("oer", "int", "818000" + "ff" * 127), "818000" + "ff" * 127 + "\n\n"),
    (("oer", "octets", "820002AABBCC"), "02aabb\ncc\n"),
    (("coer", "intset", "01020101010203"), "010201010102\n03\n"),
    (("coer", "depth", "1", "nest", "0100"), "0100\n\n"),
    (("coer", "empty", ""), "\n\n"),
    (("coer", "bool", "33"), "refused: InvalidBool\n"),
    (("oer", "nosuch", "00"), "usage: oertool oer|coer [depth N] TYPE HEX\n"),
]


def tool(preload, program, words, answer):
    """The same of oertool, where each request counts from the program's start."""
    status_of = 2 if answer.startswith("usage") else 1 if answer.startswith("refused") else 0
    for nth in range(1, MOST):
        line, status, made, refused, _ = run(preload, "start", program, words, nth)
        if (line, status) != (answer, status_of) and not (refused and (line, status) == ("refused: OutOfMemory\n", 1)):
            return fault(words, nth, f"status {status}, {made} requests", line)
        if not refused:
            return made
    return fault(words, MOST, "no end", "")


def name_of(case):
    """The call of a case without its type."""
    return case.words[1].split("::<")[0]


def public(top, *crates):
    """The public functions of crates: name, arguments and answer."""
    files = [file for crate in crates for file in sorted((top / crate / "src").glob("*.rt"))]
    function = re.compile(r"^ *pub (?:const )?fn (\w+)(?:<.*)?(?:\(([^)]*)\)\s*->\s*([^\n{]*))?", re.M)
    return [row for file in files for row in function.findall(file.read_text())]


def calls(top):
    """The public functions of the codec's crates, and those of the values' crates that take memory, by name."""
    codec = {name for name, _, _ in public(top, "oer_write", "oer_read", "rasn_oer")}
    values = public(top, "asn1_core", "asn1_ints", "asn1_strings", "asn1_times")
    return codec | {name for name, words, answer in values if "Global" in words or "AllocError" in answer} - cases.INNER


def through(counted, call):
    """How many requests a decoder makes for the row that goes through a call, in a case of its own."""
    word, octets = cases.THROUGH[call]
    words = ("coer", "Decode::decode", word, "ff" + octets.replace(" ", ""))
    return next((n for case, n in counted if case.words == words), 0)


def untried(top, counted):
    """Public calls without a case, and those of which no request was refused though they may make one."""
    most = {call: through(counted, call) for call in cases.THROUGH}
    for case, n in counted:
        most[name_of(case)] = max(n, most.get(name_of(case), 0))
    without = {name_of(case) for case, _ in counted if case.takes_none}
    named = {name.split("::")[-1] for name in most}
    faults = [f"{name}: no case calls it" for name in sorted(calls(top) - named - cases.WITHOUT)]
    return faults + [f"{name}: no request was refused" for name, n in sorted(most.items()) if n == 0 and name not in without]


def table(counts):
    """The counts by row and call: one number where both modes and all calls of a column make as many requests."""
    columns = [
        ("written", cases.WRITES), ("appended", ("encode_buf",)), ("read", cases.READS + cases.READS_FIRST),
        ("read on a decoder", cases.ON_DECODER), ("`canonicalise`", ("canonicalise",)), ("`==`", ("==",)),
    ]  # fmt: skip
    print("| octets | " + " | ".join(name for name, _ in columns) + " |\n|---|" + "---|" * len(columns))
    for row in cases.ROWS:
        cells = []
        for _, calls in columns:
            found = [n for words, n in counts if words[1] in calls and words[2] == row.word and words[3] in (row.octets, "ff" + row.octets)]
            cells.append(" to ".join(map(str, sorted({min(found), max(found)}))) if found else "")
        print(f"| `{row.word}` {short(row.octets)} | " + " | ".join(cells) + " |")
    print("\n| of | requests | calls |\n|---|---|---|")
    told, groups = {call for _, calls in columns for call in calls}, {}
    for words, n in counts:
        mode, call, _, octets = words
        if call in told:
            continue
        of = {"encoder": "`Encoder`", "value": "values"}.get(mode, "the modules" if call.startswith("as_") else "`Decoder`")
        octets = octets[2:] if of == "`Decoder`" else octets
        name = f"`{call}` {short(octets)}".strip()
        known = groups.setdefault((of, n), [])
        if name not in known:
            known.append(name)
    for (of, n), names in sorted(groups.items()):
        print(f"| {of} | {n} | {', '.join(names)} |")
    print("\n| goes through | row |\n|---|---|")
    for call, (word, octets) in cases.THROUGH.items():
        print(f"| `{call}` | `{word}` {short(octets.replace(' ', ''))} |")


def short(octets):
    return octets if len(octets) < 50 else octets[:12] + ".."


def main():
    words = [word for word in sys.argv[1:] if word != "--table"]
    top = pathlib.Path(words[0]) if words else HERE.parent.parent / "crates"
    memory, oertool = (str(top / name / "out" / name) for name in ("test_memory", "oertool"))
    with tempfile.TemporaryDirectory() as folder, concurrent.futures.ThreadPoolExecutor(os.cpu_count()) as pool:
        preload = library(folder)
        known = list(cases.all_cases())
        made = list(pool.map(lambda case: count(preload, memory, case), known))
        told = list(pool.map(lambda it: tool(preload, oertool, *it), TOOL))
    faults = [it for it in made + told if isinstance(it, str)]
    counted = [(case, n) for case, n in zip(known, made) if isinstance(n, int)]
    faults += untried(HERE.parent.parent / "crates", counted)
    print("\n".join(faults[:40]), end="\n" if faults else "")
    if "--table" in sys.argv:
        table([(case.words, n) for case, n in counted])
    runs = sum(n + 1 for n in made + told if isinstance(n, int))
    print(f"memory refused: {len(known)} calls and {len(TOOL)} runs of oertool, {runs} runs: {len(faults)} faults")
    return 1 if faults else 0


if __name__ == "__main__":
    sys.exit(main())
