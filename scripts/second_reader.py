#!/usr/bin/env python3
"""Reads ASN.1 modules a second time, written from X.680, X.681, X.683 and X.696 alone, and says where oergen lists or prints a type
otherwise.

usage: second_reader.py PROGRAM [--seed NUMBER] [--modules COUNT]     modules of random types
       second_reader.py PROGRAM MODULE.asn..                         modules of files, together

For example: second_reader.py crates/oergen/out/oergen. Each type is compared with its lines of `--list`, and with what is printed: the
cells of its row in turn, each with its tag, its need and the type and limits that it has in the end, in a box or not. Types that contain
one another are compared with the list alone. So are constants of numbers with what is assigned. The same seed gives the same modules.
"""
import argparse
import concurrent.futures
import os
import pathlib
import random
import re
import subprocess
import sys
import tempfile

sys.dont_write_bytecode = True
sys.path.insert(0, str(pathlib.Path(__file__).resolve().parent))

import random_modules  # noqa: E402
from second_reading import HELD, PARTS, SIMPLE, Limits, Listing, Parser, World, classes_of  # noqa: E402

RUST = {
    "BOOLEAN": "bool", "NULL": "()", "OCTET STRING": "Octets", "OBJECT IDENTIFIER": "ObjectIdentifier", "UTF8String": "Utf8Text",
    "NumericString": "NumericText", "PrintableString": "PrintableText", "VisibleString": "VisibleText", "IA5String": "Ia5Text",
    "GeneralString": "GeneralText", "GraphicString": "GraphicText", "TeletexString": "TeletexText", "BMPString": "BmpText",
    "UniversalString": "UniversalText", "UTCTime": "UtcTime", "GeneralizedTime": "GeneralizedTime", "DATE": "Date", "ANY": "OpenOctets", "BIT STRING": "BitString",
}  # fmt: skip


class Printed:
    """What is printed, as far as octets depend on it."""

    def __init__(self, text):
        self.text = text
        self.aliases = {name: self.parse(of) for name, of in re.findall(r"^(?:pub )?type (\w+)(?:<K>)? =\s+(.*?);$", text, re.M | re.S)}
        self.aliases.update((name, (of, [])) for name, of in re.findall(r"^pub struct (\w+)\(pub (\w+)<", text, re.M))
        self.limits = {}
        for name, body in re.findall(r"^impl Limits for (\w+) \{\n(.*?)^\}", text, re.M | re.S):
            found = re.search(r"start: (?:Some\((-?\d+)\)|None),\s+end: (?:Some\((-?\d+)\)|None)", body).groups()
            self.limits[name] = (False, *(None if it is None else int(it) for it in found))

    def name(self, rust):
        """A type's name where it is printed: with `_` behind it where another thing has that name."""
        found = [rust + it for it in ("", "_", "__", "___") if re.search(rf"^pub (type|struct) {rust}{it}\b", self.text, re.M)]
        return found[0] if found else rust

    @staticmethod
    def parse(text):
        """A type's name with its parameters, each in turn."""
        words = re.findall(r"\(\)|-?[A-Za-z0-9_]+|[<>,()]", text)

        def one():
            name, inside = words.pop(0), []
            if words and words[0] == "<":
                words.pop(0)
                while words[0] != ">":
                    inside.append(one())
                    if words[0] == ",":
                        words.pop(0)
                words.pop(0)
            return name, inside

        return one()

    def range(self, of):
        """Whether limits are of sizes, and their numbers."""
        name, inside = of
        if not inside:
            return self.limits[name]
        first, last = (int(inside[at][0]) for at in (0, -1))
        ends = (None, last) if name == "AtMost" else (first, None) if name.endswith("AtLeast") else (first, last)
        return ("Size" in name, *ends)

    def shape(self, of):
        """A type past names, with its limits by number."""
        name, inside = of
        if name == "Limited":
            return (name, self.shape(inside[0]), self.range(inside[1]))
        if name in ("ListOf", "SetOf"):
            return (name, self.shape(inside[0]))
        if name == "Held":
            return self.shape(inside[0])
        if name in ("Sequence", "SetSequence", "Set", "OneOf", "Enumeration"):
            return (inside[0][0],)
        return self.shape(self.aliases[name]) if name in self.aliases else (name,)

    def cells(self, name):
        """The cells of a row, and those of its additions; none where it has no mark. A piece is a struct or an alias."""
        found, (cell, inside) = [], self.aliases.get(name, (name, []))
        while cell not in ("End", "Extensible"):
            piece = next((it for it in (cell, f"{cell}Row") if it in self.aliases), None)
            if piece:
                cell, inside = self.aliases[piece]
                continue
            at = 2 if cell in ("AdditionGroup",) else 0
            tag = inside[at][0] + "".join(number for number, _ in inside[at][1])
            found.append((cell, tag, inside))
            cell, inside = inside[-1]
        return found, self.cells(inside[0][0]) if cell == "Extensible" else None


# the cells of components in the root, and of additions
CELLS = {
    ("required", 0): "Required", ("optional", 0): "Optional", ("default", 0): "Defaulted",
    ("required", 1): "OptionalAddition", ("optional", 1): "OptionalAddition", ("default", 1): "DefaultedAddition",
}  # fmt: skip


class Comparison:
    """The types of a reading beside what is printed of them."""

    def __init__(self, listing, printed):
        self.listing, self.printed, self.faults = listing, printed, []

    def shape(self, lists, target, of):
        """The Rust type of a type, with its limits by number."""
        world = self.listing.world
        inner, around = of
        found = []
        for sort in lists:
            inner, around = world.base(inner, around)
            inner = inner.inside
            found.append("ListOf" if sort == "SEQUENCE OF" else "SetOf")
        base, _ = world.base(inner, around)
        shape = self.leaf(base, inner, around) if target is None or base.sort not in HELD else self.place(target)
        for it in reversed(found):
            shape = (it, shape)
        return shape

    def place(self, target):
        """The Rust type of the one at a place among all."""
        rust = self.listing.pending[target][0]
        sort, *said = self.listing.printed[rust]
        if sort == "alias":
            return self.shape(*said)
        return (self.printed.name(rust) + {"CHOICE": "Alternatives", "ENUMERATED": "Values"}.get(sort, "Components"),)

    def leaf(self, base, inner, around):
        world = self.listing.world
        is_size = base.sort != "INTEGER"
        unit = SIMPLE.get(base.sort, (0, 1))[1]
        limits = world.limits(inner, around, is_size) if unit else Limits()
        rust, own = RUST.get(base.sort), (None, None)
        if base.sort == "INTEGER":
            width, is_signed = limits.width()
            rust = f"{'i' if is_signed else 'u'}{8 * width}" if width else "Integer"
            bits = 8 * (width or 0)
            own = (None, None) if not width else (-(2 ** (bits - 1)), 2 ** (bits - 1) - 1) if is_signed else (0, 2**bits - 1)
        if base.sort == "BIT STRING" and base.inside and limits.fixed() is None:
            rust = "NamedBits"
        if limits.mark or (limits.low, limits.high) == own:
            return (rust,)
        return ("Limited", (rust,), (is_size, 0 if is_size and limits.low is None else limits.low, limits.high))

    @staticmethod
    def tag(tag):
        """A tag as it is printed: a choice in a sequence may have none."""
        kind, number = tag or ("UNIVERSAL", 0)
        return {"": "Context", "UNIVERSAL": "Universal", "APPLICATION": "Application", "PRIVATE": "Private"}[kind] + str(number)

    def says(self, rust, found, wanted):
        if found != wanted:
            self.faults.append(f"{rust}: printed {found!r}, and not {wanted!r}")

    def compare(self, own):
        sort, *said = self.listing.printed[own]
        rust = self.printed.name(own)
        if sort == "alias":
            if said[1] is None:
                self.says(rust, self.printed.shape((rust, [])), self.shape(said[0], None, said[2]))
        elif sort == "ENUMERATED":
            body = re.search(rf"^pub enum {rust}Values \{{\n(.*?)^\}}", self.printed.text, re.M | re.S)[1]
            self.says(rust, [int(it) for it in re.findall(r" = (-?\d+),", body)], [it[1] for it in said[0]])
        else:
            self.row(rust, sort, *said)

    def row(self, rust, sort, cells, has_mark):
        found, more = self.printed.cells(f"{rust}Row") if cells or has_mark else ([], None)
        root = [it for it in cells if it[0].place != 1]
        if sort == "SET":
            classes = ("UNIVERSAL", "APPLICATION", "", "PRIVATE")
            root.sort(key=lambda it: (classes.index(it[3][0]), it[3][1]))
        self.says(rust, more is not None, has_mark)
        self.cells(rust, sort, found, root, 0)
        additions = []
        for it in cells:
            if it[0].place == 1 and (it[0].group is None or not additions or additions[-1] != it[0].group):
                additions.append(it if it[0].group is None else it[0].group)
        if more:
            self.cells(rust, sort, more[0], additions, 1)
        for number in [it for it in additions if isinstance(it, int)]:
            own = [it for it in cells if it[0].group == number]
            self.cells(rust, sort, self.printed.cells(f"{rust}Group{number}Row")[0], own, 0)

    def cells(self, rust, sort, found, wanted, addition):
        self.says(rust, len(found), len(wanted))
        for (cell, tag, inside), it in zip(found, wanted):
            if isinstance(it, int):
                self.says(rust, (cell, tag), ("AdditionGroup", f"{rust}Group{it}"))
                continue
            member, (lists, target, _), of, own = it
            need = member.need if isinstance(member.need, str) else "default"
            name = "Alternative" if sort == "CHOICE" else CELLS[need, addition]
            self.says(f"{rust}.{member.name}", (cell, tag), (name, self.tag(own)))
            self.says(f"{rust}.{member.name}", self.printed.shape(inside[1]), self.shape(lists, target, of))


def constants(listing):
    """The numbers that are assigned to names: each with its module, and the name, the type and the number of its constant."""
    world, found = listing.world, []
    for module in world.modules.values():
        for name, (of, value) in module.values.items():
            if of.sort == "NAME" and of.inside[1] not in world.home(module, *of.inside[:2]).types:
                continue  # an object of a class
            base, _ = world.base(of, {})
            if base.sort != "INTEGER":
                continue
            number = world.number(value, {}, base.inside)
            width, is_signed = world.limits(of, {}, False).width()
            low, high = (0, 0) if not width else (-(2 ** (8 * width - 1)), 2 ** (8 * width - 1)) if is_signed else (0, 2 ** (8 * width))
            rust = f"{'i' if is_signed else 'u'}{8 * width}" if low <= number < high else "i128"
            constant = re.sub(r"(?<=[a-z0-9])(?=[A-Z])", "_", name).replace("-", "_").upper()
            found.append((name, module.name, constant, rust, str(number)))
    return sorted(found)


def ran(program, words, folder):
    found = subprocess.run([program, *words], cwd=folder, capture_output=True, text=True, timeout=120, check=False)
    if found.returncode:
        raise ValueError(found.stderr.strip())
    return found.stdout


def blocks(table):
    """The table's types, each by its name."""
    found = {}
    for line in table.replace(": boxed ", ": ").splitlines():
        if not line.startswith(" "):
            name = line.partition(" ")[0]
            found[name] = []
        found[name].append(line)
    return found


def faults_of(program, texts):
    """What oergen lists or prints otherwise of the modules of texts, and how many types were compared with both."""
    classes = classes_of(texts)
    listing = Listing(World([module for text in texts for module in Parser(text, classes).modules()]))
    with tempfile.TemporaryDirectory() as folder:
        names = []
        for number, text in enumerate(texts):
            names.append(f"m{number}.asn")
            (pathlib.Path(folder) / names[-1]).write_text(text, encoding="utf-8")
        try:
            table = blocks(ran(program, ["--list", *names], folder))
            ran(program, ["--out", "crates", "--name", "m", *names], folder)
        except ValueError as fault:
            return [str(fault)], 0, 0
        text = "\n".join(it.read_text() for it in sorted(pathlib.Path(folder).rglob("*.rt")))
    own = {rust: listing.block(rust) for rust in listing.lines}
    faults = [f"listed {table.get(it)!r}, and not {own.get(it)!r}" for it in sorted(own.keys() | table.keys()) if own.get(it) != table.get(it)]
    printed = re.findall(r"^/// The value `(\S+)` of `(\S+)`\.\npub const (\w+?)_*: (\w+) = (-?\d+);", text, re.M)
    if sorted(printed) != constants(listing):
        faults.append(f"constants {sorted(printed)!r}, and not {constants(listing)!r}")
    comparison = Comparison(listing, Printed(text))
    plain = [rust for rust in listing.printed if f"{comparison.printed.name(rust)}Content<K>" not in text]
    for rust in plain if not faults else []:
        comparison.compare(rust)
    return faults + comparison.faults, len(own), len(plain)


def main():
    parser = argparse.ArgumentParser(usage=__doc__)
    parser.add_argument("program")
    parser.add_argument("modules_of", nargs="*")
    parser.add_argument("--seed", type=int, default=1)
    parser.add_argument("--modules", type=int, default=60)
    words = parser.parse_args()
    program = str(pathlib.Path(words.program).resolve())
    if words.modules_of:
        runs = [[pathlib.Path(it).read_text(encoding="utf-8", errors="replace") for it in words.modules_of]]
    else:
        runs = [[random_modules.text(random.Random(f"{words.seed} {number}"))] for number in range(words.modules)]
    with concurrent.futures.ThreadPoolExecutor(len(os.sched_getaffinity(0))) as pool:
        found = list(pool.map(lambda texts: faults_of(program, texts), runs))
    faults = [(number, fault) for number, (some, _, _) in enumerate(found) for fault in some]
    for number, fault in faults[:40]:
        print(f"second_reader: modules {number}: {fault}")
    listed, printed = sum(it[1] for it in found), sum(it[2] for it in found)
    how = "read the same" if not faults else f"{len(faults)} faults"
    print(f"second_reader: {listed} types as they are listed, {printed} as they are printed, of {len(runs)} sets of modules: {how}")
    return 1 if faults else 0


if __name__ == "__main__":
    sys.exit(main())
