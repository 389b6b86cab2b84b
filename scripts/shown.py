#!/usr/bin/env python3
"""Says where `oergen --table` doesn't print the tables that were typed by hand of made modules, or crates/oershow/data/letters.table, and
where oershow, given modules in place of a table, shows messages otherwise, or refuses modules with other words than oergen.

usage: shown.py OERGEN OERSHOW, for example: shown.py crates/oergen/out/oergen crates/oershow/out/oershow

The messages are those of crates/oershow/stdin, and one of a type of several files; the modules that are refused those of refused.py.
"""
import concurrent.futures
import os
import pathlib
import subprocess
import sys
import tempfile

sys.dont_write_bytecode = True
top = pathlib.Path(__file__).resolve().parent.parent
sys.path.insert(0, str(top / "scripts"))

import refused  # noqa: E402

CRATE = top / "crates/oershow"
LETTERS = CRATE / "data/letters.asn"
PUBLISHED = sorted(str(it) for it in (top / "scripts/v2x.d").glob("*.asn"))
ABSENT = "oershow: NoModule: absent.asn: No such file or directory (os error 2)\n"

# modules, and their tables: an addition in a group of a CHOICE; a choice without a tag in another; a SET, whose root is in the order of
# tags, with a group, and an addition, which may always be absent; lists; names of numbers that a type has from the one that it is a name
# of; defaults, with words in them that stand in lists of layouts too; ones with parts, which go by their names in the table, also where
# two names are one in Rust; named bits of a fixed size and of others, with as many 0 bits in defaults as the least size wants
TABLES = (
    (
        "A ::= CHOICE { a NULL, ..., [[ b BOOLEAN ]] }",
        "words 3 4 16 17 12 1 1 1 0 2 0 1 1 2 1 2 1 0",
        "ab",
        ("A", "NULL", "BOOLEAN"),
        (),
    ),
    (
        "A ::= CHOICE { a [0] NULL, b CHOICE { c [1] BOOLEAN, ..., d [2] NULL } }",
        "words 4 5 21 22 23 12 1 2 1 0 2 0 1 1 2 1 2 2 2 2 3 1 0 1",
        ("a", "b_c", "b_d"),
        ("A", "NULL", "BOOLEAN", "NULL"),
        (),
    ),
    (
        "A ::= SET { a [1] NULL, b [APPLICATION 0] BOOLEAN, ..., [[ c NULL, d NULL OPTIONAL ]], e NULL }",
        "words 7 8 24 25 26 27 28 29 11 1 2 2 1 0 2 0 0 1 5 1 6 4 1 5 1 0 1 1 1 11 0 2 0 2 0 3 3 1 4",
        (*"abcde", "[[1]]"),
        ("A", "NULL", "BOOLEAN", "NULL", "NULL", "NULL", "group"),
        (),
    ),
    ("A ::= SEQUENCE OF SET OF INTEGER (0..255, ...)", "words 3 4 7 10 10 0 1 10 1 2 3 1", "", ("A", "SET OF", "INTEGER"), ()),
    (
        "A ::= INTEGER { low(-1), high(n) } (-1..9) B ::= A (0..MAX) n INTEGER ::= 9",
        "words 2 3 6 2 1 1 2 1 0",
        "",
        "AB",
        ("value 0 -1 low", "value 0 9 high", "value 1 -1 low", "value 1 9 high", "range 0 -1 9", "range 1 0 9"),
    ),
    (
        "A ::= SEQUENCE { a E DEFAULT in-addition, b IA5String DEFAULT \"group 1 \"\"x\"\"\", c R DEFAULT {x}, d R DEFAULT '1'B, "
        "e BIT STRING DEFAULT '0 1'B, f OCTET STRING DEFAULT 'ABC'H, g BOOLEAN DEFAULT TRUE, h SEQUENCE OF A DEFAULT {}, ... } "
        "E ::= ENUMERATED { in-addition } R ::= BIT STRING { x(9) } (SIZE(12)) B ::= A",
        "words 11 12 13 15 15 43 45 47 49 50 52 53 4 5 12 11 1 8 0 0 1 0 1 1 4 2 1 5 3 1 6 4 1 7 5 1 8 6 1 9 7 1 10 8 5 5 12 5 12 6 8 0 0 10 0 2",
        "abcdefgh",
        ("E", "R", "A", "B", "IA5String", "R", "R", "BIT STRING", "OCTET STRING", "BOOLEAN", "SEQUENCE OF"),
        (
            *("value 0 0 in-addition", "value 1 9 x", "value 5 9 x", "value 6 9 x", "size 1 12 12", "size 5 12 12", "size 6 12 12"),
            *(
                f"default {of} {it}"
                for of in (2, 3)
                for it in (
                    *('0 "in-addition"', '1 "group 1 \\"x\\""', '2 "0040"', '3 "8000"', '4 {"value": "40", "length": 2}'),
                    *('5 "ABC0"', "6 true", "7 []"),
                )
            ),
        ),
    ),
    (
        "A ::= SEQUENCE { a-b B DEFAULT { type c-d : NULL } } B ::= SEQUENCE { type C } C ::= CHOICE { c-d NULL }",
        "words 4 5 13 20 27 12 0 1 0 0 2 0 3 11 0 1 0 1 0 0 11 0 1 0 2 1 1 1",
        ("c_d", "r_type", "a_b"),
        ("C", "B", "A", "NULL"),
        ('default 2 0 {"r_type": {"c_d": null}}',),
    ),
    (
        "A ::= SEQUENCE { x B DEFAULT { a-b 1, aB 2 } } B ::= SEQUENCE { a-b INTEGER (0..9), aB INTEGER (0..9) }",
        "words 4 5 15 22 25 11 0 2 0 0 0 2 1 0 3 11 0 1 0 2 1 0 2 1 0 2 1 0",
        ("a_b", "a_b_", "x"),
        ("B", "A", "INTEGER", "INTEGER"),
        ("range 2 0 9", "range 3 0 9", 'default 1 0 {"a_b": 1, "a_b_": 2}'),
    ),
    (
        "B ::= BIT STRING { x(1), y(9) } A ::= SEQUENCE { a B DEFAULT '1000'B, b B (SIZE(4..12)) DEFAULT {x}, c B (SIZE(8)) }",
        "words 5 6 7 20 21 22 9 11 0 3 0 0 1 2 1 1 3 2 0 4 9 9 5 8",
        "abc",
        "BABBB",
        (
            *(f"value {of} {it}" for of in (0, 2, 3, 4) for it in ("1 x", "9 y")),
            *("size 3 4 12", "size 4 8 8", 'default 1 0 {"value": "80", "length": 1}', 'default 1 1 {"value": "40", "length": 4}'),
        ),
    ),
)


def ran(words, folder=None, given=""):
    """What a program writes, what it says, and its status."""
    it = subprocess.run([str(word) for word in words], input=given, cwd=folder, capture_output=True, text=True, timeout=60, check=False)
    return it.stdout, it.stderr, it.returncode


def differing(what, found, wanted):
    """A fault, where what comes of a run isn't what should."""
    return [] if found == wanted else [f"{what}: {found}, and not {wanted}"]


def mistabled(oergen):
    """The modules of which another table is printed."""
    faults = differing("letters.asn", ran([oergen, "--table", LETTERS]), ((CRATE / "data/letters.table").read_text(encoding="utf-8"), "", 0))
    for body, first, names, types, others in TABLES:
        lines = [first, *(f"name {it}" for it in names), *(f"type {it}" for it in types), *others]
        with tempfile.TemporaryDirectory() as folder:
            (pathlib.Path(folder) / "m.asn").write_text(refused.module_of(body), encoding="utf-8")
            found = ran([oergen, "--table", "m.asn"], folder)
        faults += differing(body, found, ("".join(f"{it}\n" for it in lines), "", 0))
    return faults


def misshown(oergen, oershow):
    """Where messages are shown otherwise by modules than by their table: as words in front and behind, and of several files."""
    rows, shown = ((CRATE / it).read_text(encoding="utf-8") for it in ("stdin", "stdout"))
    status = int((CRATE / "status").read_text()) if (CRATE / "status").is_file() else 0
    faults = differing("oershow MODULE -", ran([oershow, LETTERS, "-"], given=rows), (shown, "", status))
    faults += differing("oershow - MODULE", ran([oershow, "-", LETTERS], given=rows), (shown, "", status))
    with tempfile.TemporaryDirectory() as folder:
        table = pathlib.Path(folder) / "published"
        table.write_text(ran([oergen, "--table", *PUBLISHED])[0], encoding="utf-8")
        words = ["EtsiTs103097Data", "0380030102ff"]
        found, wanted = ran([oershow, "--json", *words, *PUBLISHED]), ran([oershow, "--json", table, *words])
        faults += differing("oershow TYPE OCTETS MODULE..", found, wanted)
        faults += [] if found[0].startswith('{"octets":6,') else [f"oershow TYPE OCTETS MODULE..: {found}"]
        faults += differing("absent.asn", ran([oershow, "A", "00", "absent.asn"], folder), ("", ABSENT, 1))
    return faults


def unrefused(oershow):
    """The modules that oershow doesn't refuse as oergen does; and how many there are."""
    cases = refused.rows("refused.txt")

    def faults_of(case):
        body, message = case
        with tempfile.TemporaryDirectory() as folder:
            (pathlib.Path(folder) / "m.asn").write_text(refused.module_of(body), encoding="utf-8")
            return differing(body, ran([oershow, "A", "00", "m.asn"], folder), ("", f"m.asn:{message}\n", 1))

    with concurrent.futures.ThreadPoolExecutor(len(os.sched_getaffinity(0))) as pool:
        return [it for some in pool.map(faults_of, cases) for it in some], len(cases)


def main(oergen, oershow):
    oergen, oershow = (str(pathlib.Path(it).resolve()) for it in (oergen, oershow))
    faults, count = unrefused(oershow)
    faults += mistabled(oergen) + misshown(oergen, oershow)
    for fault in faults:
        print(f"shown: {fault}")
    print(f"shown: {len(TABLES) + 1} tables, messages by modules, {count} modules that are refused, {'as they should be' if not faults else f'{len(faults)} faults'}")
    return 1 if faults else 0


if __name__ == "__main__":
    sys.exit(main(*sys.argv[1:]))
