#!/usr/bin/env python3
"""Counts the vectors of rasn's OER and COER tests that are rows of crates/test_vectors, each under its test's name.

usage: rasn_rows.py [FILE..]

rasn_rows.txt, beside this script, has a line for each test: its name, and the octets that it reads or writes. The exit status is 1
where one of them stands in no row `vector` of the crate's stdin, or a row without an answer in its stdout. FILEs are the sources of
these tests: each literal of two octets and more has to stand in the list too, one that isn't read here behind a '#', or be a part
of what the test's rows have.
"""
import pathlib
import re
import sys

top = pathlib.Path(__file__).resolve().parent.parent
crate = top / "crates/test_vectors"


def lines(path):
    return path.read_text(encoding="utf-8").splitlines()


def literals(text):
    """Each literal of two octets and more in a test: the test's name, and the octets in hexadecimal."""
    for test in re.split(r"#\[test\]", re.sub(r"//[^\n]*", "", text))[1:]:
        name = re.search(r"fn (\w+)", test)[1]
        for it in re.findall(r"\[([^][]*)\]", test):
            words = [word.strip().replace("_", "").removesuffix("u8") for word in it.split(",") if word.strip()]
            if len(words) > 1 and all(re.fullmatch(r"0x[0-9a-fA-F]+|0b[01]+|\d+", word) for word in words):
                numbers = [int(word, 0) for word in words]
                if all(number < 256 for number in numbers):
                    yield name, bytes(numbers).hex()


text = lines(pathlib.Path(__file__).with_suffix(".txt"))
listed = {(name, it) for name, *octets in map(str.split, text) if name != "#" for it in octets}
left_out = {(name, it) for mark, name, *octets in map(str.split, text) if mark == "#" for it in octets}
rows = [line.split(" ") for line in lines(crate / "stdin") if line.startswith(("vector ", "outside "))]
answered = {line.split(" => ")[0].rstrip() for line in lines(crate / "stdout") if " => fault" not in line}
read = {(row[1], row[3]) for row in rows if row[0] == "vector" and " ".join(row).rstrip() in answered}
missing = listed - read
faults = [f"in no row: {name} {octets}" for name, octets in sorted(missing)]
for file in sys.argv[1:]:
    for name, octets in literals(pathlib.Path(file).read_text(encoding="utf-8")):
        if (name, octets) not in left_out and not any(octets in row[3] for row in rows if row[1] == name):
            faults.append(f"not in the list: {name} {octets}")


def count(pairs):
    return len({octets for _, octets in pairs if len(octets) >= 4})


there = count(listed) - count(missing)
print("\n".join([*faults, f"rasn's tests: {there} of {count(listed)} different vectors of two octets and more are rows"]))
sys.exit(bool(faults))
