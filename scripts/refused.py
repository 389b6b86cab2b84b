#!/usr/bin/env python3
"""Says where oergen refuses a made module otherwise than it should, or prints what it should refuse.

usage: refused.py PROGRAM, for example: refused.py crates/oergen/out/oergen

scripts/refused.d/refused.txt has modules that are neither listed nor printed nor have a table, for one reason, unprinted.txt those that are listed and
not printed: a row each, what stands between BEGIN and END, which is line 2, and its message; listed.txt has some whose table is
typed there; untabled.txt those that are listed and have no table. Types in one another and components side
by side are printed up to a bound, and refused one past it. Of left_out.asn all that can't be printed is left out, with the lines of
left_out.txt, and of unread.asn all that can't be read or resolved, with those of unread.txt. Files that aren't there or aren't UTF-8
are refused by name, and crates are written into no folder but their own. What is said was typed from the place of what is met and from
what can be read there, never from the program.
"""
import concurrent.futures
import os
import pathlib
import subprocess
import sys
import tempfile
from typing import NamedTuple

DATA = pathlib.Path(__file__).resolve().parent / "refused.d"
LIST = ("--list",)
TABLE = ("--table",)
PRINT = ("--out", "crates", "--name", "m")
# what comes of a module, and of one whose types are all printed: the line for crates.txt, and any number of files
PARTS = ("standard output", "standard error", "exit status", "number of files")
PRINTED = ("m: rasn_oer\n", "", 0, None)
KEPT = (*PRINT, "--keep-unknown")
KEPT_PRINTED = ("m: rasn_oer oer_kept\n", "", 0, None)

DEEP_SEQUENCE = (
    "2:7: met 'SEQUENCE'; can read a type that is at most 64 deep in Rust, as docs/COMPILER.md counts it: "
    "what a list holds is counted anew"
)
DEEP_CHOICE = (
    "2:7: met 'CHOICE'; can read a type that is at most 64 deep in Rust, as docs/COMPILER.md counts it: "
    "what a list holds is counted anew"
)
DEEP_LISTS = "2:7: met 'SEQUENCE'; can read at most 40 lists directly inside one another"
WIDE = "2:7: met 'SEQUENCE'; can read at most 50 components, and in a group as many: others aren't printed yet"
WIDE_CYCLE = (
    "2:7: met 'SEQUENCE'; can read at most 30 components of a type that contains itself, and in a group as many: "
    "others aren't printed yet"
)
CYCLE_PRINTED = ("m: rasn_oer oer_write asn1_core\n", "", 0, None)

# types with a size that is no word of a table, and what is said of each
SIZES = (("OCTET STRING", 4294967295), ("BMPString", 2147483648), ("UniversalString", 1073741824), ("BIT STRING", 4294967295))
WORD = "2:7: met '{}'; can read a size of fewer than 4294967295 octets or bits"

# how many rows the files have: one that was cut short would pass
ROWS = (104, 30, 26, 6)

# what stands in front of a type and behind it, how often at most, and what is said of once more
DEPTHS = (
    ("SEQUENCE { a ", " }", 31, DEEP_SEQUENCE),
    ("SEQUENCE { a ", " OPTIONAL }", 20, DEEP_SEQUENCE),
    ("CHOICE { a ", " }", 31, DEEP_CHOICE),
    ("SEQUENCE OF ", "", 40, DEEP_LISTS),
)
# a default of a CHOICE that keeps what newer versions have
KEPT_DEFAULT = (
    "A ::= SEQUENCE { a B DEFAULT b:NULL } B ::= CHOICE { b NULL, ... }",
    "2:30: met 'b'; can read a default with parts of a type of no cycle that keeps nothing unknown, without an empty SET OF: others aren't printed yet",
)
# the same as DEPTHS of choices that keep what is newer: the octets of an unknown alternative are deeper than NULL
KEPT_DEPTH = ("CHOICE { a ", ", ... }", 27, DEEP_CHOICE)


class Case(NamedTuple):
    """A module, the words that it is handed in with, and what should come of it."""

    words: tuple
    module: str | bytes
    wanted: tuple  # by PARTS; None where any will do
    before: tuple = ()  # files that lie in the folder, by path and text
    names: tuple = ("m.asn",)  # the files that are handed in


def module_of(body):
    """The module of a row."""
    return f"M DEFINITIONS AUTOMATIC TAGS ::= BEGIN\n{body}\nEND\n"


def refusal(words, body, message):
    """A module that is refused: one line on standard error, and nothing is written."""
    return Case(words, module_of(body), ("", f"m.asn:{message}\n", 1, 0))


def rows(name):
    """The modules of a file, each with its message."""
    lines = (DATA / name).read_text(encoding="utf-8").split("\n")
    return [(body, message) for body, _, message in (row.partition(" => ") for row in lines if row)]


def unlisted():
    """Modules that are refused for one reason, whatever is to be printed of them; and sizes that are no word of a table."""
    found = [refusal(words, *row) for row in rows("refused.txt") for words in (LIST, TABLE, PRINT)]
    return found + [refusal(TABLE, f"A ::= {of} (SIZE ({size}))", WORD.format(of.split()[0])) for of, size in SIZES]


def unprinted():
    """Modules that are listed, and refused where they are to be printed."""
    found = rows("unprinted.txt")
    listed = [Case(LIST, module_of(body), (None, "", 0, 0)) for body, _ in found]
    return [refusal(PRINT, *row) for row in found] + listed + [refusal(KEPT, *KEPT_DEFAULT)]


def untabled():
    """Modules that are listed, and of which no table is made."""
    return [refusal(TABLE, *row) for row in rows("untabled.txt")]


def listed():
    """Modules that are listed, with their table: its lines with ` / ` between them."""
    found = [(body, table.replace(" / ", "\n")) for body, table in rows("listed.txt")]
    return [Case(LIST, module_of(body), (f"{table}\n", "", 0, 0)) for body, table in found]


def bound(body_of, most, message, words=PRINT, printed=PRINTED):
    """At a bound all is printed, and one past it refused."""
    return [Case(words, module_of(body_of(most)), printed), refusal(words, body_of(most + 1), message)]


def nested(front, behind):
    """A type around NULL, so many times."""
    return lambda levels: f"A ::= {front * levels}NULL{behind * levels}"


def wide(count, first="c NULL"):
    """A SEQUENCE of so many components."""
    components = "".join(f", c{number} NULL" for number in range(1, count))
    return f"A ::= SEQUENCE {{ {first}{components} }}"


def wide_cycle(count):
    """A SEQUENCE of so many components, of which one is itself."""
    return wide(count, "c A OPTIONAL")


def bounds():
    """How deep types may stand in one another, and how many components side by side."""
    cases = bound(wide, 50, WIDE) + bound(wide_cycle, 30, WIDE_CYCLE, printed=CYCLE_PRINTED)
    for front, behind, most, message in DEPTHS:
        cases += bound(nested(front, behind), most, message)
    front, behind, most, message = KEPT_DEPTH
    return cases + bound(nested(front, behind), most, message, KEPT, KEPT_PRINTED)


def left_out():
    """A type that contains itself in a form that isn't printed, one that stands on it, one that is printed, and two that contain
    each other, of which one stands on a type that isn't printed; and assignments of each sort that isn't read, names that aren't
    assigned, clashes, and what is printed between them: the one crate has a root and a file of types, that of unread.asn a file of constants too."""
    texts = [[(DATA / f"{name}.{end}").read_text(encoding="utf-8") for end in ("asn", "txt")] for name in ("left_out", "unread")]
    return [Case((*PRINT, "--leave-out"), module, (lines, "", 0, files)) for (module, lines), files in zip(texts, (2, 3))]


NULL_LISTED = ("A of M: NULL, no octets\n", "", 0, 0)
NOT_UTF8 = "m.asn:2:39: met a string with octets that aren't UTF-8; can read UTF-8: other octets only in comments\n"


def lines_ended():
    """Each end of a line ends a comment, and begins a new line: a carriage return with the line feed behind it one."""
    table = "A of M: NULL, no octets\nB of M: A, NULL, no octets\n"
    cases = []
    for end in ("\n", "\r", "\v", "\f", "\r\n"):
        body = f"A ::= NULL -- x{end}B ::= A -- y"
        cases.append(Case(LIST, module_of(body).replace("\n", end).encode(), (table, "", 0, 0)))
        body = f"A ::= NULL /* x{end}{end} */ B ::= C"
        absent = "m.asn:4:11: met 'C'; can read the name of a type that is assigned or imported, without parameters\n"
        cases.append(Case(LIST, module_of(body).encode(), ("", absent, 1, 0)))
    return cases


def odd_files():
    """Ends of lines, a byte order mark, octets that aren't UTF-8 in a comment and in a string, and a file that isn't there."""
    absent = (None, "absent.asn: can't be read: No such file or directory (os error 2)\n", 1, 0)
    latin = module_of('A ::= SEQUENCE { a UTF8String DEFAULT "caf@" }').encode().replace(b"@", b"\xe9")
    cases = [
        Case(LIST, b"\xef\xbb\xbf" + module_of("A ::= NULL").encode(), NULL_LISTED),
        Case(LIST, module_of("A ::= NULL -- caf@").encode().replace(b"@", b"\xe9"), NULL_LISTED),
    ]
    for words in (LIST, TABLE, PRINT):
        cases.append(Case(words, latin, ("", NOT_UTF8, 1, 0)))
        cases.append(Case(words, module_of("A ::= NULL"), absent, names=("m.asn", "absent.asn")))
    return cases + lines_ended()


HEAD = "//! Types of ASN.1 modules, as oergen printed them.\n"
FOREIGN = "crates/m: met a folder that oergen didn't write; can write a new one, or a crate that it printed before\n"
LEFT = "met a file that isn't printed now; can write where it is removed\n"
EARLIER = "met a crate of an earlier print; can write where it is removed\n"
NAMELESS = (
    "oergen: give --list, --table, or --out FOLDER and --name NAME, of small letters, digits and _, no library's; see --help\n"
)


FOR_C = "m: rasn_oer\nm_c staticlib: m oer_calls rasn_oer oer_read oer_spec asn1_core\n"


def folders():
    """What lies where a crate is to be written: of another's making, of an earlier print, or nothing that matters."""
    root, types = ("crates/m/src/lib.rt", HEAD), "crates/m/src/types_02.rt"
    weights = "crates/m/specs/AWeights.antt"
    lie = (
        ((("crates/m/src/lib.rt", "//! Mine.\n"),), FOREIGN),
        ((("crates/m/notes.txt", ""),), FOREIGN),
        ((root, (types, HEAD)), f"{types}: {LEFT}"),
        ((root, (weights, "")), f"{weights}: {LEFT}"),
        ((("crates/m_1/src/lib.rt", HEAD),), f"crates/m_1: {EARLIER}"),
    )
    header, of_c = "crates/m_c/include/n_c.h", ("crates/m_c/src/lib.rt", HEAD)
    lie_for_c = (((("crates/m_c/notes.txt", ""),), FOREIGN.replace("m:", "m_c:")), ((of_c, (header, "")), f"{header}: {LEFT}"))
    null = module_of("A ::= NULL")
    cases = [Case(PRINT, null, ("", message, 1, len(files)), before=files) for files, message in (*lie, ((of_c,), f"crates/m_c: {EARLIER}"))]
    cases += [Case((*PRINT, "--c"), null, ("", message, 1, len(files)), before=files) for files, message in lie_for_c]
    cases.append(Case((*PRINT, "--c"), null, (FOR_C, "", 0, 5), before=(root, of_c)))
    cases.append(Case(PRINT, null, ("m: rasn_oer\n", "", 0, 4), before=(root, ("crates/m/out/x", ""), ("crates/m_1/src/lib.rt", ""))))
    for name in ("std", "core", "rasn_oer", "oer_write", "asn1_core", "oer_calls", "oer_read", "oer_spec", "M", "1m", ""):
        cases.append(Case(("--out", "crates", "--name", name), null, ("", NAMELESS, 2, 0)))
    cases += [Case(words, null, ("", NAMELESS, 2, 0)) for words in ((*LIST, *PRINT), (*TABLE, *PRINT), (*LIST, *TABLE))]
    return cases


def unhelpful(program):
    """What is wrong with the help: each word of the program's with some words on it, on standard output, status 0."""
    ran = subprocess.run([program, "--help"], capture_output=True, text=True, timeout=60, check=False)
    lines = [line.split() for line in ran.stdout.splitlines()]
    told = {line[0] for line in lines if line and len(line) > 4}
    faults = [f"--help says nothing of {it}" for it in ("--list", "--table", "--out", "--name", "--leave-out", "--c", "<MODULE.asn>...") if it not in told]
    return faults + ([] if (ran.returncode, ran.stderr) == (0, "") else [f"--help: status {ran.returncode}, {ran.stderr!r}"])


def faults_of(program, case):
    """What comes of a module that shouldn't."""
    with tempfile.TemporaryDirectory() as folder:
        root = pathlib.Path(folder)
        (root / "m.asn").write_bytes(case.module if isinstance(case.module, bytes) else case.module.encode())
        for path, text in case.before:
            (root / path).parent.mkdir(parents=True, exist_ok=True)
            (root / path).write_text(text)
        ran = subprocess.run([program, *case.words, *case.names], cwd=root, capture_output=True, timeout=60, check=False)
        files = sum(it.is_file() for it in root.rglob("*")) - 1
    found = (ran.stdout.decode(errors="replace"), ran.stderr.decode(errors="replace"), ran.returncode, files)
    differing = [it for it in zip(PARTS, found, case.wanted) if it[2] not in (None, it[1])]
    return [f"{case.module[:300]!r}: {part} {it!r}, and not {wanted!r}" for part, it, wanted in differing]


def main(program):
    program = str(pathlib.Path(program).resolve())
    sorts = {
        "not listed and not printed": unlisted(),
        "listed and not printed": unprinted(),
        "listed and without a table": untabled(),
        "listed": listed(),
        "at bounds": bounds(),
        "with types left out": left_out(),
        "in odd files": odd_files(),
        "beside folders": folders(),
    }
    cases = [case for some in sorts.values() for case in some]
    with concurrent.futures.ThreadPoolExecutor(len(os.sched_getaffinity(0))) as pool:
        found = list(pool.map(lambda case: faults_of(program, case), cases))
    faults = [fault for some in found for fault in some] + unhelpful(program)
    faults += [] if tuple(len(rows(f"{it}.txt")) for it in ("refused", "unprinted", "listed", "untabled")) == ROWS else [f"rows are not {ROWS}"]
    for fault in faults:
        print(f"refused: {fault}")
    counts = ", ".join(f"{len(some)} {sort}" for sort, some in sorts.items())
    print(f"refused: runs of modules {counts}, {'as they should be' if not faults else f'{len(faults)} faults'}")
    return 1 if faults else 0


if __name__ == "__main__":
    sys.exit(main(*sys.argv[1:]))
