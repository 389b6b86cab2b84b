#!/usr/bin/env python3
"""Writes the functions of single types that the library for C exports: crates/jilgomt/src/types/*.rt, of the words of crates/oertool_words.

usage: exports.py            says which of these files, or the list of include/jilgomt.h, aren't as it would write them
       exports.py --write    writes the files

A macro can't write a function with a contract, so the text of each stands in the crate.
"""
import pathlib
import re
import sys

top = pathlib.Path(__file__).resolve().parent.parent
KNOWN = top / "crates/oertool_words/src/known"
TYPES = top / "crates/jilgomt/src/types"
HEADER = top / "include/jilgomt.h"
WORD = re.compile(r'"(\w+)" => Ok\(work\.on::<(.+)>\(\)\),')
USE = re.compile(r"^use (\w+)::(?:\{([^}]*)\}|(\w+));", re.M)
# The files, by what holds the words: what they are, and the words' functions in it.
FILES = {
    "leaves": ("Types without parts.", "leaves", r"fn \w+"),
    "sequences": ("Sequences.", "scopes", r"fn with_(sequence|additions|groups|long_sequence|many_components|many_optional)\b"),
    "sets": ("Sequences with defaults, and sets.", "scopes", r"fn with_(default|holder|set)\b"),
    "lists": ("Choices and lists.", "scopes", r"fn with_(list_or_choice|list|unordered_list|further_bag)\b"),
}
HEAD = """//! {what} This file is written by scripts/exports.py.
ghost use Rattle.std.specs.Prelude.{{◌≡◌}};
ghost use Rattle.oer_calls.specs.Answers.{{IsCanonicalisedBy, IsCheckedBy, options_for}};

{uses}
"""
BOTH = """
/// The canonical octets of {a} `{word}`.
#[unsafe(no_mangle)]
pub extern "C" fn jilgomt_{word}_canonicalise(
    alloc: Global,
    mode: u32,
    levels: usize,
    input: &[u8],
    out: &mut [u8],
    answer: &mut Answer,
) -> u32
    ensures status {{ result ≡ answer.new.status }}
    ensures answered {{ IsCanonicalisedBy (⟦<{kind} as Spelled>⟧.tree ⟦<{kind} as AsnType>⟧.CONSTRAINTS) ⟦<{kind} as Spelled>⟧.IsValue (⟦<{kind} as Decode>⟧.Answered ⟦<{kind} as AsnType>⟧.CONSTRAINTS) (options_for mode levels) input.now out.old answer.new out.new }}
{{
{made}
    answer.status
}}

/// Whether octets begin with {a} `{word}`, and a canonical one.
#[unsafe(no_mangle)]
pub extern "C" fn jilgomt_{word}_check(
    alloc: Global,
    mode: u32,
    levels: usize,
    input: &[u8],
    answer: &mut Answer,
) -> u32
    ensures status {{ result ≡ answer.new.status }}
    ensures answered {{ IsCheckedBy (⟦<{kind} as Spelled>⟧.tree ⟦<{kind} as AsnType>⟧.CONSTRAINTS) ⟦<{kind} as Spelled>⟧.IsValue (⟦<{kind} as Decode>⟧.Answered ⟦<{kind} as AsnType>⟧.CONSTRAINTS) (options_for mode levels) input.now answer.new }}
{{
    *answer = check_by_numbers::<{kind}>(alloc, mode, levels, input);
    answer.status
}}
"""


def read(path):
    return path.read_text(encoding="utf-8")


def words(held, pattern):
    """Words with their types, in the order of the functions whose names match the pattern."""
    functions = re.split(r"(?m)^(?=(?:pub\(super\) )?fn )", read(KNOWN / f"{held}.rt"))[1:]
    return [it for one in functions if re.search(pattern, one.split("<")[0]) for it in WORD.findall(one)]


def places(held):
    """From which crate each name of a type is."""
    found = {}
    for crate, several, one in USE.findall(read(KNOWN / f"{held}.rt")):
        found |= {it.strip(): crate for it in (several or one).split(",") if it.strip()}
    return found


def uses(kinds, held):
    """The `use` lines of a file with these types. The prelude of rasn_oer has the names that aren't oer_types'."""
    names = sorted({it for kind in kinds for it in re.findall(r"\w+", kind) if places(held).get(it) == "oer_types"})
    lines = ["use oer_calls::answer::Answer;", "use oer_calls::numbers::{canonicalise_by_numbers, check_by_numbers};"]
    if len(names) == 1:
        lines.append(f"use oer_types::{names[0]};")
    elif names:
        lines.append(wrapped(names))
    return "\n".join([*lines, "use rasn_oer::prelude::*;", "use std::alloc::Global;"])


def wrapped(names):
    one = f"use oer_types::{{{', '.join(names)}}};"
    if len(one) <= 100:
        return one
    lines, line = [], "   "
    for it in names:
        if len(line) + len(it) + 2 > 100:
            lines, line = [*lines, line], "   "
        line += f" {it},"
    return "\n".join(["use oer_types::{", *lines, line, "};"])


def made(kind):
    """The call, in the layout of `rt fmt`."""
    call = f"    *answer = canonicalise_by_numbers::<{kind}>("
    one = f"{call}alloc, mode, levels, input, out);"
    return one if len(one) <= 100 else f"{call}\n        alloc, mode, levels, input, out,\n    );"


def written():
    """Each file with its text, and the list of words of the header."""
    files, listed = {}, []
    for name, (what, held, pattern) in FILES.items():
        found = words(held, pattern)
        listed += [word for word, _ in found]
        text = HEAD.format(what=what, uses=uses([kind for _, kind in found], held))
        text += "".join(BOTH.format(word=word, kind=kind, made=made(kind), a="an" if word[0] in "aeiou" else "a") for word, kind in found)
        files[TYPES / f"{name}.rt"] = text
    lines, line = [], "#define JILGOMT_TYPES(X)"
    for it in listed:
        if len(line) + len(it) > 110:
            lines, line = [*lines, line + " \\"], "   "
        line += f" X({it})"
    return files, "\n".join([*lines, line]) + "\n"


def main(words):
    files, listed = written()
    header = read(HEADER)
    anew = re.sub(r"#define JILGOMT_TYPES\(X\)(?:[^\n]*\\\n)*[^\n]*\n", lambda _: listed, header)
    files[HEADER] = anew
    differ = [path for path, text in files.items() if not path.is_file() or read(path) != text]
    if words == ["--write"]:
        TYPES.mkdir(exist_ok=True)
        for path in differ:
            path.write_text(files[path], encoding="utf-8")
        return 0
    if words:
        sys.exit(__doc__)
    for path in differ:
        print(f"exports.py: {path.relative_to(top)} isn't what scripts/exports.py --write writes")
    return 1 if differ else 0


if __name__ == "__main__":
    sys.exit(main(sys.argv[1:]))
