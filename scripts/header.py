#!/usr/bin/env python3
"""Compares include/jilgomt.h with what crates/jilgomt exports: each function's parameters and result, each field of the two structs, by type
and name, in order. Prints what differs; the exit status is 0 if nothing does.

usage: header.py
"""
import pathlib
import re
import sys

top = pathlib.Path(__file__).resolve().parent.parent
EXPORT = re.compile(r'#\[unsafe\(no_mangle\)\]\npub extern "C" fn (\w+)\((.*?)\) -> (\w+)\s', re.S)
PROTOTYPE = re.compile(r"^(\w+) (\w+)\(([^;]*?)\);", re.M | re.S)
# A type of Rattle, as the types that C has for it: behind a slice's pointer comes its length.
TYPES = {"Global": (), "u32": ("uint32_t ",), "usize": ("size_t ",), "isize": ("intptr_t ",), "&[u8]": ("const uint8_t *", "size_t "), "&[u32]": ("const uint32_t *", "size_t "),
         "&mut [u8]": ("uint8_t *", "size_t "), "&mut [Node]": ("jilgomt_node *", "size_t "), "&mut Answer": ("jilgomt_answer *",)}
NAMES = {"input": "in"}
STRUCTS = {"jilgomt_answer": ("crates/oer_calls/src/answer.rt", "Answer"), "jilgomt_node": ("crates/oer_walk/src/nodes.rt", "Node")}


def read(file):
    return (top / file).read_text(encoding="utf-8")


def in_c(declared):
    """Names and types of Rattle as C has them."""
    found = []
    for name, _, kind in (it.strip().partition(": ") for it in declared if it.strip()):
        name = NAMES.get(name, name)
        found += [f"{it}{name}{'_len' if place else ''}" for place, it in enumerate(TYPES[kind])]
    return found


def exported_by(source):
    """Each function that a crate's files export: its parameters, and its result."""
    text = "".join(it.read_text(encoding="utf-8") for it in sorted(source.rglob("*.rt")))
    return {name: (in_c(parameters.split(",")), TYPES[result][0].strip()) for name, parameters, result in EXPORT.findall(text)}


def declared_by(text):
    """The same of a header's text."""
    text = re.sub(r"/\*.*?\*/", "", text, flags=re.S).replace("\\\n", " ").replace("JILGOMT_RESTRICT ", "")
    return {name: ([" ".join(it.split()) for it in parameters.split(",")], result) for result, name, parameters in PROTOTYPE.findall(text)}


def exported():
    """Each exported function and each struct."""
    found = exported_by(top / "crates/jilgomt/src")
    return found | {c: (in_c(re.findall(r"pub (\w+: \w+),", re.search(f"pub struct {name} {{(.*?)^}}", read(file), re.M | re.S)[1])), "struct") for c, (file, name) in STRUCTS.items()}


def declared():
    """The same of the header, with what its list of types stands for."""
    text = re.sub(r"/\*.*?\*/", "", read("include/jilgomt.h"), flags=re.S).replace("\\\n", " ").replace("JILGOMT_RESTRICT ", "")
    of_one = re.search(r"#define JILGOMT_TYPE\(word\)(.*)", text)[1].replace(";", ";\n")
    words = re.findall(r"X\((\w+)\)", re.search(r"#define JILGOMT_TYPES\(X\)(.*)", text)[1])
    text += "\n" + "".join(re.sub(r"(?m)^ +", "", of_one.replace("##word##", it)) for it in words)
    return declared_by(text) | {name: ([" ".join(it.split()) for it in fields.split(";") if it.strip()], "struct") for fields, name in re.findall(r"typedef struct \w+ {(.*?)} (\w+);", text, re.S)}


def main():
    ours, theirs = exported(), declared()
    differ = [it for it in sorted(ours | theirs) if ours.get(it) != theirs.get(it)]
    for it in differ:
        print(f"header.py: {it}: exported {ours.get(it)}, declared {theirs.get(it)}")
    print(f"header.py: {len(ours)} functions and structs, {len(differ)} differ")
    return 1 if differ or not ours else 0


if __name__ == "__main__":
    if len(sys.argv) > 1:
        print(__doc__, file=sys.stderr)
        sys.exit(2)
    sys.exit(main())
