"""Tries must-fail edits: those that change the bodies of functions of different names some at a time, the others each alone.

A function is proved from its own body and the contracts of what it calls, so a body that another edit changes doesn't bear on
it. An edit counts as refused where the check, over a text with all edits of its group, says of a function that it changes that
this isn't proved, and names what fails there: a goal at a line of the function, or an answer in its own proof that doesn't fit.
That a function isn't proved since what it calls isn't, doesn't count. Each edit that isn't refused so, and each that changes
something else than a body, is tried in a check of its own, and counts as refused where the crate isn't proved with it. Each
check runs over a copy of what the check of the crate as it stands kept, so that only what an edit bears on is checked.
"""
import collections
import concurrent.futures
import hashlib
import os
import pathlib
import re
import shutil
import signal
import subprocess
import sys
import tempfile
import threading
from typing import NamedTuple

import tried
from read_edits import pairs

MOST = 16
HEAD = re.compile(r"^\s*(?:pub(?:\([^)]*\))? )?(?:const )?(?:unsafe )?fn (\w+)")
UNPROVED = re.compile(r"^fn \w+::(\S+): (no proof|not proved)(.*)$", re.M)
GOAL = re.compile(r"^note: (src/\S+?):(\d+):\d+: (it is not proved that .*)$", re.M)
ANSWER = re.compile(r"^\./proofs/(\S+)/(?:Answers|Invariants|Proof)\.antt:\d+:\d+: error: .*$", re.M)
PLACE = re.compile(r"(?:\./)?(\S+?):\d+:\d+: error: (?:(`[^`]*`): )?(.*)")
UNREAD = re.compile(r"is not in scope|has no field|is no name|operand is missing|expected the end|cannot continue")
TAKEN_AWAY = re.compile(r"(\./)?proofs/.*(has no field|is not in scope|has no `|was not admitted)")


class Function(NamedTuple):
    """A function: its file, its name, and the lines on which it begins and ends."""

    path: str
    name: str
    first: int
    last: int

    def is_named(self, path):
        """Whether a path below the crate ends in this name."""
        return path.split("::")[-1].lstrip("+") == self.name

    def is_at(self, path):
        """Whether a path below the crate, of a function or a type's method, is of this name and of this file's module: the type may
        stand in a module within the file."""
        module = [it for it in self.path.removesuffix(".rt").split("/")[1:] if it not in ("lib", "main", "mod")]
        words = path.split("::")
        return words[: len(module)] == module and len(words) - len(module) in (1, 2, 3) and self.is_named(path)


class Edit:
    """An edit: its pairs, and the functions whose bodies it changes, or none where it changes something else too."""

    def __init__(self, top, crate, name):
        self.crate, self.name = crate, name
        text = (top / "edits" / crate / name).read_text(encoding="utf-8")
        self.sum = hashlib.sha256(text.encode()).hexdigest()
        self.pairs = list(pairs(text))
        self.functions = changed_in(top / "crates" / crate, self.pairs)
        self.names = {it[:2] for it in self.functions}

    def __str__(self):
        return f"{self.crate}/{self.name}"


def changed_in(folder, changes):
    """The functions in whose bodies the changed texts stand, each as the changes before it left it; none where one stands elsewhere."""
    texts, found = {}, set()
    for path, old, new in changes:
        if not path.startswith("src/"):
            return set()
        text = texts.get(path) or (folder / path).read_text(encoding="utf-8")
        function = function_at(path, text.split("\n"), text[: text.index(old)].count("\n"))
        if not function:
            return set()
        found.add(function)
        texts[path] = text.replace(old, new)
    return found


def function_at(path, lines, at):
    """The function in whose body a line stands, if it stands in one."""
    for i in range(at, -1, -1):
        head = HEAD.match(lines[i])
        if head and indent(lines[i]) < indent(lines[at]):
            begins = body_begins(lines, i)
            if begins is None or begins >= at:
                return None
            ends = (j for j in range(at, len(lines)) if lines[j].startswith(" " * indent(lines[i]) + "}"))
            return Function(path, head[1], i + 1, next(ends, len(lines)) + 1)
    return None


def names_in(folder):
    """How many functions of a crate have each name."""
    texts = (it.read_text(encoding="utf-8") for it in sorted((folder / "src").rglob("*.rt")))
    return collections.Counter(head[1] for text in texts for head in map(HEAD.match, text.split("\n")) if head)


def indent(line):
    return len(line) - len(line.lstrip())


def body_begins(lines, head):
    """The line on which the body of the function with that head begins, `{` at the end of its signature or behind its clauses."""
    for i in range(head, len(lines)):
        text, is_level = lines[i].strip(), indent(lines[i]) == indent(lines[head])
        if is_level and (text == "{" or text.endswith(" {") and (i == head or text.startswith(")")) and "ensures" not in text):
            return i
        if is_level and i > head and text and not text.startswith((")", "where")):
            return None
    return None


def groups(edits):
    """The edits that may stand together: functions of different names in a file, since what the check prints names no impl."""
    found = []
    for edit in edits:
        fits = (it for it in found if len(it) < MOST and all(not other.names & edit.names for other in it))
        group = next(fits, None)
        if group is None:
            found.append([edit])
        else:
            group.append(edit)
    return found


def below(top, crate):
    """The crate's line in crates.txt and those of the crates below it, lowest first."""
    lines = {}
    for line in (top / "crates.txt").read_text(encoding="utf-8").splitlines():
        if ":" in line and not line.startswith("#"):
            lines[line.partition(":")[0].split()[0]] = line
    wanted = [crate]
    for it in wanted:
        wanted += [use for use in lines[it].partition(":")[2].split() if use in lines and use not in wanted]
    return {it: line for it, line in lines.items() if it in wanted}


def link(one, other):
    """Links a file that a check replaces and never changes, and copies any other."""
    if one.endswith(".oantt") or "/out/rlib/" in one:
        try:
            os.link(one, other)
            return
        except OSError:
            pass
    shutil.copy2(one, other)


class Runs:
    """The commands that run and the folder that they run in, to be ended and removed with this program."""

    def __init__(self):
        self.running, self.lock = set(), threading.Lock()
        self.folder = tempfile.mkdtemp(prefix="edits-")

    def run(self, words, folder):
        with self.lock:
            process = subprocess.Popen(words, cwd=folder, stdin=subprocess.DEVNULL, stdout=subprocess.PIPE, stderr=subprocess.STDOUT, errors="replace", start_new_session=True)
            self.running.add(process)
        said = process.communicate()[0]
        with self.lock:
            self.running.discard(process)
        return process.returncode, said

    def end(self, number, _):
        """Ends at a signal. What was refused so far is remembered."""
        self.lock.acquire()  # nothing more is begun
        for it in self.running:
            try:
                os.killpg(it.pid, signal.SIGTERM)
            except OSError:
                pass
        shutil.rmtree(self.folder, ignore_errors=True)
        os._exit(128 + number)


class Room:
    """A copy of a crate, with what was built below it and what its check kept, in which edits are applied."""

    def __init__(self, top, crate, text, folder):
        self.crate, self.folder = crate, tempfile.TemporaryDirectory(prefix=f"{crate}-", dir=folder)
        root = pathlib.Path(self.folder.name)
        lines = below(top, crate)
        (root / "crates.txt").write_text("".join(f"{it}\n" for it in lines.values()), encoding="utf-8")
        shutil.copyfile(top / "HANDLES", root / "HANDLES")
        for it in lines:
            shutil.copytree(top / "crates" / it, root / "crates" / it, ignore=shutil.ignore_patterns("out", "must-fail"))
            kept = "out/incremental" if it == crate else "out/rlib"
            shutil.copytree(top / "crates" / it / kept, root / "crates" / it / kept, copy_function=link, symlinks=True)
        self.at = root / "crates" / crate
        if tried.text_sum(root, crate) != text:
            raise OSError(f"{crate} was changed while its edits were tried")

    def apply(self, edits):
        """Applies the edits, and answers the paths that they change."""
        paths = set()
        for edit in edits:
            for path, old, new in edit.pairs:
                file = self.at / path
                file.write_text(file.read_text(encoding="utf-8").replace(old, new), encoding="utf-8")
                paths.add(path)
        return paths


def check(runs, top, text, edits):
    """What the check says of a crate with these edits: its status, its lines, and the paths that they change."""
    room = Room(top, edits[0].crate, text, runs.folder)
    with room.folder:
        paths = room.apply(edits)
        return (*runs.run(["rt", "check", "--jobs", "1"], room.at), paths)


def together(runs, top, text, edits):
    """Of each edit of a group why it is refused, if a function that it changes fails by itself; nothing where there is no verdict."""
    _, said, _ = check(runs, top, text, edits)
    if re.search(r"^logic=not-proved", said, re.M):
        names = names_in(top / "crates" / edits[0].crate)
        return {edit: next(filter(None, (own_fault(said, it, names[it.name] == 1) for it in edit.functions)), None) for edit in edits}
    return dict.fromkeys(edits) if re.search(r"^logic=proved", said, re.M) else None


def own_fault(said, function, is_only):
    """What the check names that fails in the function itself, where it isn't proved. A method's path is that of its type, which may
    stand in another file: so it is known by the lines of a goal, or by its name if it is the only one of the crate."""
    named = [(path, how + why) for path, how, why in UNPROVED.findall(said) if function.is_named(path)]
    if not named:
        return None
    for path, line, why in GOAL.findall(said):
        if path == function.path and function.first <= int(line) <= function.last:
            return f"{path}:{line}: {why}"
    unproved = [it for it in named if is_only or function.is_at(it[0])]
    files = {path.replace("::", "/") for path, _ in unproved}
    for found in ANSWER.finditer(said):
        if found[1] in files and not TAKEN_AWAY.match(found[0].removeprefix("./")):
            return found[0]
    return next((f"{path}: {why}" for path, why in unproved if why.startswith("no proof: expected answers")), None)


def alone(runs, top, text, edits):
    """Whether the one edit is refused, and why or why not."""
    status, said, paths = check(runs, top, text, edits)
    return {edits[0]: judge(status, said, paths)}


def judge(status, said, paths):
    """Why the text isn't proved, as a pair with whether the edit is refused."""
    lines = said.rstrip("\n").split("\n")
    unread = next((it for it in lines if is_unread(it, paths)), None)
    if unread:
        return False, f"BAD EDIT: the prover can't read the edited text: {unread[:200]}"
    if status == 1 and re.search(r"^logic=not-proved", said, re.M):
        told = [it for it in lines if re.match(r"(note: )?\S+:\d+:\d+:", it) and (": error" in it or it.startswith("note: "))]
        first = next((it for it in told if not TAKEN_AWAY.match(it)), None)
        if told and not first:
            return True, f"only because a proof names what the edit took away, so change a value and keep the names: {told[0][:160]}"
        return True, (first or "not proved")[:160]
    if re.search(r"^logic=proved", said, re.M):
        return False, "NOT REFUSED: the crate is still proved with this edit"
    return False, "BAD EDIT: it did not reach the prover: " + " / ".join(lines[-6:])[:600]


def is_unread(line, paths):
    """Whether the prover could not read a text, where an edit that only makes a statement false reads well."""
    at = PLACE.match(line)
    if not at or at[1] not in paths and not at[1].startswith(("src/", "specs/")):
        return False
    return not at[2] or bool(UNREAD.search(re.sub(r"`[^`]*`", "", at[3])))


class Crate:
    """A crate whose edits are tried: which are left, and which weren't refused."""

    def __init__(self, top, name, is_anew):
        self.top, self.name, self.text, self.line = top, name, tried.text_sum(top, name), tried.line_of(top, name)
        self.edits = [Edit(top, name, it) for it in tried.edits_of(top, name)]
        self.log = top / "crates" / name / "out/refused"
        self.refused, self.bad = set() if is_anew else self.remembered(), []

    def remembered(self):
        """The sums of the edits that a run before this one saw refused on this text."""
        rows = self.log.read_text(encoding="utf-8").split("\n") if self.log.is_file() else [""]
        return set(rows[1:]) if rows[0] == self.text else set()

    def left(self):
        return [it for it in self.edits if it.sum not in self.refused]

    def remember(self, edit):
        is_new = not self.refused or not self.log.is_file() or not self.log.read_text(encoding="utf-8").startswith(self.text)
        self.refused.add(edit.sum)
        rows = [self.text, *sorted(self.refused)] if is_new else [edit.sum]
        with open(self.log, "w" if is_new else "a", encoding="utf-8") as it:
            it.write("\n".join(rows) + "\n")

    def tasks(self, is_alone):
        """The groups to be tried, each with the way."""
        left = self.left()
        single = [it for it in left if is_alone or not it.functions]
        made = groups([it for it in left if it not in single])
        single += [it[0] for it in made if len(it) == 1]
        return [(together, it) for it in made if len(it) > 1] + [(alone, [it]) for it in single]


def prove(runs, top, crate, is_tried, is_used):
    """Proves the crate as it stands, over what was kept; what was said, if it isn't proved. Only what is tried needs its check kept,
    and only what a crate above uses its library."""
    folder = top / "crates" / crate
    verb = "lib" if is_used else "check"
    status, said = runs.run(["rt", verb], folder)
    if status == 0 and is_tried and not (folder / "out/incremental").is_dir():
        status, said = runs.run(["rt", "check"], folder)
    return said if status else None


def finish(crate):
    """Says what came of a crate's edits, and writes its line if each was refused and the text is still the same."""
    total, left = len(crate.edits), crate.left()
    if left:
        print(f"{crate.name}: {total - len(left)} of {total} edits refused", flush=True)
        return
    if tried.line_of(crate.top, crate.name) != crate.line:
        crate.bad.append(f"{crate.name}: its text or its edits were changed meanwhile, so edits/TRIED has no new line")
        print(crate.bad[-1], flush=True)
        return
    tried.write(crate.top, crate.name, crate.line)
    print(f"{crate.name}: all {total} edits refused", flush=True)


class Work:
    """The checks that run side by side."""

    def __init__(self, top, is_alone, jobs):
        self.top, self.is_alone, self.runs = top, is_alone, Runs()
        self.pool, self.prover = concurrent.futures.ThreadPoolExecutor(jobs), concurrent.futures.ThreadPoolExecutor(1)
        self.pending, self.counts = {}, {}

    def submit(self, crate, way, edits):
        self.counts[crate] = self.counts.get(crate, 0) + 1
        self.pending[self.pool.submit(way, self.runs, self.top, crate.text, edits)] = (crate, way, edits)

    def ended(self, future):
        """Takes what came of one check, and hands in what follows from it."""
        crate, way, edits = self.pending.pop(future)
        self.counts[crate] -= 1
        result = future.result()
        if result is None:  # one of them hinders the others
            for part in (edits[: len(edits) // 2], edits[len(edits) // 2 :]):
                self.submit(crate, together if len(part) > 1 else alone, part)
            return
        for edit, found in result.items():
            if way is together and found is None:
                self.submit(crate, alone, [edit])
                continue
            is_refused, why = (True, found) if way is together else found
            print(f"{'together' if way is together else 'alone'} {edit}: {'refused: ' if is_refused else ''}{why[:200]}", flush=True)
            if is_refused:
                crate.remember(edit)
            else:
                crate.bad.append(f"{edit}: {why}")
        if not self.counts[crate]:
            finish(crate)

    def run(self, names, is_anew):
        """Tries the edits of these crates; what is wrong."""
        crates = {it: Crate(self.top, it, is_anew) for it in names}
        wanted = dict.fromkeys(it for name in names if crates[name].left() for it in below(self.top, name))
        order = [it for it in tried_order(self.top) if it in wanted]
        used = {it for name in names if crates[name].left() for it in below(self.top, name) if it != name}
        proofs = {self.prover.submit(prove, self.runs, self.top, it, it in crates, it in used): it for it in order}
        for it in names:
            if not crates[it].left():
                finish(crates[it])
        unproved = []
        while proofs or self.pending:
            done, _ = concurrent.futures.wait([*proofs, *self.pending], return_when=concurrent.futures.FIRST_COMPLETED)
            for future in done:
                if future in self.pending:
                    self.ended(future)
                    continue
                name, said = proofs.pop(future), future.result()
                if said is not None:
                    print(f"{name} isn't proved as it stands:\n{said[-2000:]}", flush=True)
                    unproved.append(f"{name}: the crate isn't proved as it stands, so no edit of it or above it was tried")
                    for other in proofs:
                        other.cancel()
                    proofs = {}
                elif name in crates:
                    for task in crates[name].tasks(self.is_alone):
                        self.submit(crates[name], *task)
        return unproved + [line for it in crates.values() for line in it.bad], crates


def tried_order(top):
    """All crates, lowest first."""
    lines = (top / "crates.txt").read_text(encoding="utf-8").splitlines()
    return [line.partition(":")[0].split()[0] for line in lines if ":" in line and not line.startswith("#")]


def main(top, names, is_alone, is_anew, jobs):
    work = Work(top, is_alone, jobs)
    for number in (signal.SIGHUP, signal.SIGINT, signal.SIGTERM):
        signal.signal(number, work.runs.end)
    try:
        wrong, crates = work.run(names, is_anew)
    finally:
        shutil.rmtree(work.runs.folder, ignore_errors=True)
    for line in wrong:
        print(line)
    edits = [len(it.edits) for it in crates.values()]
    refused = sum(len(it.edits) - len(it.left()) for it in crates.values())
    print(f"edits: {refused} of {sum(edits)} refused, in {len(crates)} crates{'' if not wrong else f'; {len(wrong)} faults'}")
    return 1 if wrong or refused < sum(edits) else 0
