#!/usr/bin/env python3
"""Tries what `oergen --c` prints: the crates of crates/oergen/data/recursive.asn, in a tree beside links to the repository's crates. The
header has to declare what the crate exports, and the C of docs/COMPILER.md, over the static library, built with nothing proved, has to
print what is said there.

usage: exported.py PROGRAM, for example: exported.py crates/oergen/out/oergen
"""
import pathlib
import re
import shutil
import subprocess
import sys
import tempfile

top = pathlib.Path(__file__).resolve().parent.parent
sys.path.insert(0, str(top / "scripts"))
sys.dont_write_bytecode = True

import header  # noqa: E402

NAME = "example_recursive"
CRATE = f"{NAME}_c"
SCRIPTS = ("archive.py", "unproved.py")
CFLAGS = ["-std=c11", "-O1", "-Wall", "-Wextra", "-Werror"]


def shown():
    """The C of docs/COMPILER.md, and what it prints."""
    text = (top / "docs/COMPILER.md").read_text(encoding="utf-8")
    return re.search(r"^```c\n(.*?)^```$", text, re.M | re.S)[1], re.search(r"^This prints `([^`]*)`", text, re.M)[1]


def print_types(program, tree):
    """Prints the crates into a tree with the repository's others."""
    (tree / "crates").mkdir()
    (tree / "scripts").mkdir()
    for it in SCRIPTS:
        shutil.copy(top / "scripts" / it, tree / "scripts")
    for it in (top / "crates").iterdir():
        if it.name not in (NAME, CRATE):
            (tree / "crates" / it.name).symlink_to(it)
    words = [program, "--out", tree / "crates", "--name", NAME, "--keep-unknown", "--c", top / "crates/oergen/data/recursive.asn"]
    lines = subprocess.run(words, check=True, capture_output=True, text=True, timeout=60).stdout.splitlines()
    listed = (top / "crates.txt").read_text(encoding="utf-8").splitlines()
    (tree / "crates.txt").write_text("\n".join([*listed, *[it for it in lines if it not in listed]]) + "\n", encoding="utf-8")


def undeclared(crate):
    """The functions that the header declares otherwise than the crate exports them, and how many there are."""
    ours = header.exported_by(crate / "src")
    theirs = header.declared_by((crate / f"include/{CRATE}.h").read_text(encoding="utf-8"))
    return [f"{it}: exported {ours.get(it)}, declared {theirs.get(it)}" for it in sorted(ours | theirs) if ours.get(it) != theirs.get(it)], len(ours)


def run(words, **how):
    return subprocess.run([str(it) for it in words], stdout=subprocess.PIPE, stderr=subprocess.STDOUT, text=True, errors="replace", check=False, **how)


def misbuilt(tree):
    """What fails of the library's build, or of the C over it."""
    code, wanted = shown()
    (tree / "example.c").write_text(code, encoding="utf-8")
    archive = tree / f"lib{CRATE}.a"
    headers = [f"-I{top}/include", f"-I{tree}/crates/{CRATE}/include"]
    for words in (
        [sys.executable, tree / "scripts/archive.py", "--crate", CRATE, "--unproved", archive],
        ["cc", *CFLAGS, *headers, tree / "example.c", archive, "-o", tree / "example"],
    ):
        ran = run(words)
        if ran.returncode:
            return [ran.stdout[-3000:]]
    ran = run([tree / "example"], timeout=60)
    return [] if (ran.stdout, ran.returncode) == (wanted + "\n", 0) else [f"the C of docs/COMPILER.md prints {ran.stdout!r}, status {ran.returncode}"]


def main(program):
    program = str(pathlib.Path(program).resolve())
    with tempfile.TemporaryDirectory(prefix="exported-") as name:
        tree = pathlib.Path(name)
        print_types(program, tree)
        faults, count = undeclared(tree / "crates" / CRATE)
        faults += misbuilt(tree)
    for fault in faults:
        print(f"exported: {fault}")
    print(f"exported: {count} functions of {CRATE}, {'as they should be' if not faults and count else f'{len(faults)} faults'}")
    return 1 if faults or not count else 0


if __name__ == "__main__":
    sys.exit(main(*sys.argv[1:]))
