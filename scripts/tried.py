"""Reads, compares and writes edits/TRIED: a line a crate, with its name, how many edits it has, and the sum of its text on which each
of them was last refused."""

import fcntl
import hashlib
import os
import re

PARTS = ("src", "specs", "proofs")
LINE = re.compile(r"(\w+) (\d+) ([0-9a-f]{64})")
HEAD = "# Written by scripts/edits: of each crate, how many edits, and the sum of its text on which each was last refused."


def crates_with_edits(top):
    """The crates that have edits outside the gate, in the order of crates.txt."""
    lines = (top / "crates.txt").read_text(encoding="utf-8").splitlines()
    listed = [line.partition(":")[0].split()[0] for line in lines if ":" in line and not line.startswith("#")]
    found = {it.name for it in (top / "edits").iterdir() if it.is_dir()}
    return [it for it in listed if it in found] + sorted(found - set(listed))


def edits_of(top, crate):
    return sorted(it.name for it in (top / "edits" / crate).iterdir())


def files_of(top, crate):
    """The files of the crate that a check reads."""
    for part in PARTS:
        for folder, folders, names in os.walk(top / "crates" / crate / part):
            folders.sort()
            for name in sorted(names):
                yield os.path.join(folder, name)


def body(octets):
    """A file without the comment at its head, which no check reads."""
    lines = octets.splitlines(keepends=True)
    first = next((n for n, it in enumerate(lines) if it.strip() and not it.startswith((b"//!", b"--"))), len(lines))
    return b"".join(lines[first:])


def sum_of(top, files, root):
    """The sum of files' paths below a folder and their octets."""
    found = hashlib.sha256()
    for file in files:
        with open(file, "rb") as it:
            octets = body(it.read())
        found.update(f"{os.path.relpath(file, root)} {len(octets)}\n".encode() + octets)
    return found.hexdigest()


def text_sum(top, crate):
    """The sum of what a check of the crate reads of its own."""
    return sum_of(top, files_of(top, crate), top / "crates" / crate)


def line_of(top, crate):
    """The line that the crate should have."""
    folder = top / "edits" / crate
    edits = edits_of(top, crate)
    of_edits = sum_of(top, [folder / it for it in edits], folder)
    whole = hashlib.sha256(f"{text_sum(top, crate)} {of_edits}".encode()).hexdigest()
    return f"{crate} {len(edits)} {whole}"


def lines(top):
    """The lines that the file has, by crate."""
    file = top / "edits/TRIED"
    text = file.read_text(encoding="utf-8") if file.is_file() else ""
    rows = [line for line in text.splitlines() if line and not line.startswith("#")]
    return {line.split(" ")[0]: line for line in rows}


def stale(top):
    """The crates whose edits weren't tried on the text that stands there."""
    have = lines(top)
    return [it for it in crates_with_edits(top) if have.get(it) != line_of(top, it)]


def compare(top):
    """Says which lines aren't as they should be, with the command to run."""
    wrong = stale(top)
    extra = sorted(set(lines(top)) - set(crates_with_edits(top)))
    for it in extra:
        print(f"edits/TRIED has a line of {it}, which has no edits: remove it")
    if wrong:
        print(f"the text or the edits of {', '.join(wrong)} changed since each edit was last seen refused: run\n    scripts/edits {' '.join(wrong)}")
        print("and commit edits/TRIED, which it writes")
    return 1 if wrong or extra else 0


def write(top, crate, line):
    """Puts the crate's line into the file, in the order of crates.txt, whoever else writes another."""
    with open(top / "crates.txt", encoding="utf-8") as lock:
        fcntl.flock(lock, fcntl.LOCK_EX)
        have = {**lines(top), crate: line}
        rows = [HEAD, *(have[it] for it in crates_with_edits(top) if it in have)]
        part = top / "edits/TRIED.new"
        part.write_text("\n".join(rows) + "\n", encoding="utf-8")
        os.replace(part, top / "edits/TRIED")
