#!/usr/bin/env python3
"""Says which code of README.md isn't that of crates/test_calls/src/readme.rt, and which of docs/OWN_TYPE.md
isn't in the files that it names. The gate proves these crates and runs their tests."""
import pathlib
import re
import sys

top = pathlib.Path(__file__).resolve().parent.parent


def pieces(text):
    """The pieces of code between blank lines, without the head of a file."""
    parts = [it.strip("\n") for it in text.split("\n\n")]
    return [it for it in parts if it and not it.startswith("//!")]


def code_of(page):
    """The code of a page: what is between fences, and what is indented by four."""
    lines, fenced = [], False
    for line in page.split("\n"):
        if line.lstrip().startswith("```"):
            lines, fenced = [*lines, ""], not fenced
        else:
            lines.append(line if fenced else line[4:] if line.startswith("    ") else "")
    return "\n".join(lines)


def with_named(shown, code, page):
    """What a page shows, and in between, as the crate has them, the functions that the page only names."""
    names, said = set(re.findall(r"`(\w+)`", page)), []
    for it in [*shown, None]:
        for other in code[len(said):]:
            function = re.search(r"^pub fn (\w+)", other, re.M)
            if other == it or not function or function[1] not in names:
                break
            said.append(other)
        said += [it] if it else []
    return said


# All code of README from here on is the crate's, to the letter and in its order, and each function is shown or named.
page = (top / "README.md").read_text().split("\n## The library by example\n")[1]
code = pieces((top / "crates/test_calls/src/readme.rt").read_text())
said = with_named(pieces(code_of(page)), code, page)
for it in said:
    if it not in code:
        print("README.md has what crates/test_calls has not:\n" + it)
for it in code:
    if it not in said:
        print("crates/test_calls has what README.md neither shows nor names:\n" + it)
if said != code and set(said) == set(code):
    print("README.md shows the code of crates/test_calls in another order, or twice")

differs = said != code
for page in ["docs/OWN_TYPE.md"]:
    # A page shows pieces of files: a line with the file's name alone, an empty line, and in a fence whole lines of the file.
    text = (top / page).read_text().split("\n")
    fences = [i for i, it in enumerate(text) if it.lstrip().startswith(("```", "~~~"))]
    wrong = [] if fences else ["1: no code"]
    for start, end in zip(fences[::2], fences[1::2] + [len(text)]):
        named = re.fullmatch(r"`(crates/\S+)`", text[start - 2]) if text[start - 1] == "" else None
        file = top / named[1] if named else None
        if file is None or not file.is_file():
            wrong.append(f"{start + 1}: code of no file")
            continue
        piece, code = text[start + 1:end], file.read_text().split("\n")
        alike = 0  # the first lines of the piece that follow one another in the file
        for i in range(len(code)):
            k = 0
            while k < len(piece) and code[i + k:i + k + 1] == [piece[k]]:
                k += 1
            alike = max(alike, k)
        if alike < max(len(piece), 1):
            line = start + 2 + alike
            wrong.append(f"{line}: not in {named[1]}: {text[line - 1]}")
    print("".join(f"{page}:{it}\n" for it in wrong), end="")
    differs = differs or bool(wrong)
sys.exit(differs)
