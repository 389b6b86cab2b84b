#!/usr/bin/env python3
"""Applies each patch of this folder to a copy of the repository, builds crates there without proof, and sees their tests fail.

usage: try.py [NAME..]
       try.py --read     says which patches can't be applied any more; nothing is built

Few contracts rule out a body that wants memory where there is plenty, so tests have to. First the copy without a patch has
to pass. A line a patch says how many rows of crates/test_vectors are answered otherwise, and the first of them; a second one
which tests of crates/test_calls fail. It takes some minutes; run by hand.
"""
import pathlib
import re
import resource
import shutil
import subprocess
import sys
import tempfile

HERE = pathlib.Path(__file__).resolve().parent
TOP = HERE.parent.parent


def pieces(patch):
    """The (path, old, new) of each piece of a patch, with the lines around it."""
    path, old, new = None, [], []
    for line in [*patch.read_text().splitlines(), "@@"]:
        if line.startswith(("@@", "--- ")):
            if old or new:
                yield path, "\n".join(old) + "\n", "\n".join(new) + "\n"
            old, new = [], []
        elif line.startswith("+++ "):
            path = line.removeprefix("+++ b/")
        else:
            old += [line[1:]] * line.startswith((" ", "-"))
            new += [line[1:]] * line.startswith((" ", "+"))


def faults(patch):
    """What hinders a patch: each old text stands once in its file, and in whole lines."""
    found = list(pieces(patch))
    if not found:
        yield "it changes nothing"
    for path, old, _ in found:
        file = TOP / path
        count = ("\n" + file.read_text()).count("\n" + old) if file.is_file() else 0
        if count != 1:
            yield f"an old text is in {path} {count} times, and not once"


def apply(patch, folder):
    for path, old, new in pieces(patch):
        file = folder / path
        file.write_text(("\n" + file.read_text()).replace("\n" + old, "\n" + new)[1:])


def copied(folder):
    """The crates without what was made of them."""
    shutil.copytree(TOP / "crates", folder / "crates", ignore=shutil.ignore_patterns("out", "must-fail"))
    for name in ("crates.txt", "HANDLES"):
        shutil.copy(TOP / name, folder / name)
    (folder / ".git").mkdir()


def rows_of(folder):
    """The rows that are answered otherwise than they have to be, and how many there are; no rows where nothing was built. Those of
    all short inputs (`tally`) are left out: an unproved program takes minutes for them."""
    crate = folder / "crates/test_vectors"
    wanted = [row for row in (crate / "stdout").read_text().splitlines() if not row.startswith("tally ")]
    asked = "".join(row.split(" => ")[0] + "\n" for row in wanted)
    done = subprocess.run(["rt", "try", "--seconds", "900"], cwd=crate, input=asked, capture_output=True, text=True, check=False)
    if "checked: ended" not in done.stderr:
        return None, done.stderr[-2000:]
    found = done.stdout.splitlines()
    found += [""] * (len(wanted) - len(found))
    return [line for line, want in zip(found, wanted) if line != want], len(wanted)


def tests_of(folder):
    """The tests that fail, and how many there are; no tests where nothing was built."""
    crate = folder / "crates/test_calls"
    done = subprocess.run(["rt", "try", "--test"], cwd=crate, capture_output=True, text=True, check=False)
    said = done.stdout + done.stderr
    named = re.findall(r"^test (\S+) \.\.\. (\w+)", said, re.M)
    return ([name for name, how in named if how != "ok"], len(named)) if named else (None, said[-2000:])


def tried(patch):
    """What became of the rows and of the tests under a patch, or under none."""
    with tempfile.TemporaryDirectory(prefix="patch-") as room:
        folder = pathlib.Path(room)
        copied(folder)
        if patch:
            apply(patch, folder)
        return rows_of(folder), tests_of(folder)


def line_of(failed, count, what):
    """What is said of rows or tests."""
    if failed is None:
        return f"not built: {count}"
    first = f", the first: {failed[0][:160]}" if failed else ""
    return f"{len(failed)} of {count} {what}{first}"


def read():
    """Says which patches can't be applied."""
    found = [(patch.name, fault) for patch in sorted(HERE.glob("*.patch")) for fault in faults(patch)]
    for name, fault in found:
        print(f"scripts/patches/{name}: {fault}")
    return 1 if found else 0


def main():
    if sys.argv[1:] == ["--read"]:
        return read()
    # rows of a thousand levels take more of the stack in a program that is built with checks
    most = resource.getrlimit(resource.RLIMIT_STACK)[1]
    resource.setrlimit(resource.RLIMIT_STACK, (1 << 30 if most == resource.RLIM_INFINITY else most, most))
    patches = [HERE / f"{name}.patch" for name in sys.argv[1:]] or sorted(HERE.glob("*.patch"))
    status = 0
    for patch in [None, *patches]:
        rows, tests = tried(patch)
        name = patch.stem if patch else "no patch"
        print(f"{name}: {line_of(*rows, 'rows are answered otherwise')}", flush=True)
        print(f"{name}: {line_of(*tests, 'tests fail')}", flush=True)
        is_built = rows[0] is not None and tests[0] is not None
        if not is_built or bool(rows[0] or tests[0]) != bool(patch):
            status = 1
    return status


if __name__ == "__main__":
    sys.exit(main())
