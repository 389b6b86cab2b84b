#!/usr/bin/env python3
"""Says which types and traits of rasn_oer's prelude are named in the text that oergen prints, but not in the list of names that it gives
no type of a module: such a type would stand in the place of the prelude's.

usage: taken.py
"""
import pathlib
import re
import sys

CRATES = pathlib.Path(__file__).resolve().parent.parent / "crates"


def main():
    prelude = (CRATES / "rasn_oer/src/prelude.rt").read_text(encoding="utf-8")
    texts = [it.read_text(encoding="utf-8") for it in sorted((CRATES / "oergen_print/src").glob("*.rt"))]
    taken = re.search(r'const TAKEN: &str =\s*"([^"]*)"', "\n".join(texts))[1].replace("\\\n", "").split()
    literals = (it for text in texts for it in re.findall(r'r#"(.*?)"#|"((?:[^"\\]|\\.)*)"', text, re.S))
    words = {word for it in literals for word in re.findall(r"\w+", "".join(it))}
    free = [name for name in re.findall(r"::([A-Z]\w+);", prelude) if name in words and name.lower() not in taken]
    for name in free:
        print(f"taken.py: a type of a module may be named {name}, as the prelude's that printed text takes")
    return 1 if free else 0


if __name__ == "__main__":
    sys.exit(main())
