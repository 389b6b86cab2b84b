"""Says which edits of edits/NAME/ can't be applied: each old text stands exactly once in its file."""

import os
import re
import sys


def pairs(edit):
    """The (path, old, new) of each pair of lines."""
    path = old = None
    for line in edit.split("\n"):
        if line.startswith("file: "):
            path = line[len("file: "):].strip()
        elif line.startswith("old: "):
            old = line[len("old: "):]
        elif line.startswith("new:"):
            yield path, old, line[len("new:"):].removeprefix(" ")
            old = None


def faults(folder, edit):
    """What hinders the edit, applied to the files below the folder."""
    found, texts = list(pairs(edit)), {}
    if not found:
        yield "it has no 'old:' and 'new:' pair"
    for path, old, new in found:
        if not path or not old:
            yield "a 'new:' line stands before any 'file:' or 'old:' line"
            return
        if os.path.normpath(path) != path or not path.startswith(("src/", "specs/", "proofs/")):
            yield f"{path} is no file below src/, specs/ or proofs/"
            return
        if not os.path.isfile(f"{folder}/{path}"):
            yield f"there is no file {path}"
            return
        if path not in texts:
            with open(f"{folder}/{path}", encoding="utf-8") as it:
                texts[path] = it.read()
        count = texts[path].count(old)
        if count != 1:
            yield f"an 'old:' text is in {path} {count} times, and not once"
        texts[path] = texts[path].replace(old, new)


def main(names):
    bad = 0
    for name in names:
        for edit in sorted(os.listdir(f"edits/{name}")):
            if not re.fullmatch(r"[A-Za-z0-9_-][A-Za-z0-9_.-]*\.edit", edit):
                print(f"edits/{name}/{edit}: no name of an edit")
                bad += 1
                continue
            with open(f"edits/{name}/{edit}", encoding="utf-8") as it:
                for fault in faults(f"crates/{name}", it.read()):
                    print(f"edits/{name}/{edit}: {fault}")
                    bad += 1
    return 1 if bad else 0


if __name__ == "__main__":
    sys.exit(main(sys.argv[1:]))
