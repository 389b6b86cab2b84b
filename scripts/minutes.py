#!/usr/bin/env python3
"""Runs a command, hands its lines on, and prints before its last line the processor minutes of each crate and, with
what runs behind it, the minutes by the clock.

usage: minutes.py COMMAND... [--then COMMAND...]..., for example: minutes.py rt ci --then scripts/memory/run.py

A look each second at the processes below the command says which crate a prover works for, and whether it proves, proves
tests, or tries an edit. Where the command passes, those behind a `--then` run after it, and print before its last line. The
exit status is the first that isn't 0. The last line is the command's own; where one behind a `--then` failed, it counts that as
one more that failed.
"""
import os
import re
import resource
import subprocess
import sys
import threading
import time

PARTS = ("proof", "tests", "edits")
TICKS = os.sysconf("SC_CLK_TCK")


def read(path):
    try:
        with open(path, "rb") as file:
            return file.read().decode(errors="replace")
    except OSError:
        return ""


def label(pid):
    """The crate and the part that a prover works for, or nothing."""
    words = read(f"/proc/{pid}/cmdline").split("\0")
    if "--crate-name" not in words:
        return None
    crate = words[words.index("--crate-name") + 1]
    try:
        folder = os.readlink(f"/proc/{pid}/cwd")
    except OSError:
        folder = ""
    if "rt-edit-" in folder:
        return crate, "edits"
    return crate, "tests" if "--test" in words else "proof"


def processes():
    """Each process: its parent, and the seconds of processor that it took, with those of its children that ended."""
    found = {}
    for name in os.listdir("/proc"):
        if name.isdigit():
            fields = read(f"/proc/{name}/stat").rpartition(")")[2].split()
            if fields:
                found[int(name)] = (int(fields[1]), sum(map(int, fields[11:15])) / TICKS)
    return found


class Watch(threading.Thread):
    """Looks each second at the processes below one."""

    def __init__(self, root):
        super().__init__(daemon=True)
        self.root, self.over, self.taken, self.labels = root, threading.Event(), {}, {}

    def is_below(self, pid, found):
        while pid in found and pid != self.root:
            pid = found[pid][0]
        return pid == self.root

    def look(self):
        found = processes()
        for pid in found:
            if self.is_below(pid, found):
                self.labels[pid] = self.labels.get(pid) or label(pid)
        # A prover has a child for each function, which may end between two looks: what the child took is its parent's then.
        taken = {}
        for pid, (parent, seconds) in found.items():
            while self.labels.get(parent):
                pid, parent = parent, found.get(parent, (0,))[0]
            if self.labels.get(pid):
                taken[pid] = taken.get(pid, 0.0) + seconds
        self.taken.update(taken)

    def run(self):
        while not self.over.wait(1):
            self.look()

    def rows(self):
        """The seconds of each crate by part."""
        rows = {}
        for pid, seconds in self.taken.items():
            if self.labels.get(pid):
                crate, part = self.labels[pid]
                rows.setdefault(crate, dict.fromkeys(PARTS, 0.0))[part] += seconds
        return rows


def table(rows, whole):
    """The minutes as text, and what no crate took."""
    lines = [f"{'processor minutes':24}" + "".join(f"{part:>8}" for part in PARTS)]
    sums = dict.fromkeys(PARTS, 0.0)
    for crate, parts in rows.items():
        lines.append(f"{crate:24}" + "".join(f"{parts[part] / 60:8.1f}" for part in PARTS))
        for part in PARTS:
            sums[part] += parts[part]
    lines.append(f"{'all':24}" + "".join(f"{sums[part] / 60:8.1f}" for part in PARTS))
    lines.append(f"{'besides':24}{(whole - sum(sums.values())) / 60:8.1f}")
    return "\n".join(lines)


def commands(words):
    """The command, and those behind it."""
    found = [[]]
    for word in words:
        if word == "--then":
            found.append([])
        else:
            found[-1].append(word)
    return found


def counting(line, failed):
    """The last line, with so many more that failed."""
    def more(found):
        return b"%d failed" % (int(found[1]) + failed)

    return re.sub(rb"(\d+) failed", more, line) if failed else line


def main():
    first, *others = commands(sys.argv[1:])
    began = time.monotonic()
    command = subprocess.Popen(first, stdout=subprocess.PIPE, stderr=subprocess.STDOUT)
    watch = Watch(command.pid)
    watch.start()
    held = b""
    for line in command.stdout:
        sys.stdout.buffer.write(held)
        sys.stdout.buffer.flush()
        held = line
    statuses = [command.wait()]
    watch.over.set()
    used = resource.getrusage(resource.RUSAGE_CHILDREN)
    print(table(watch.rows(), used.ru_utime + used.ru_stime), flush=True)
    if statuses[0] == 0:
        statuses += [subprocess.run(other, check=False).returncode for other in others]
    took = (time.monotonic() - began) / 60
    print(f"{took:.1f} minutes by the clock, on {len(os.sched_getaffinity(0))} processors", flush=True)
    sys.stdout.buffer.write(counting(held, sum(status != 0 for status in statuses[1:])))
    sys.stdout.buffer.flush()
    status = next((status for status in statuses if status), 0)
    return status if status >= 0 else 128 - status


if __name__ == "__main__":
    sys.exit(main())
