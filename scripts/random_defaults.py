#!/usr/bin/env python3
"""Compares what oergen prints of random defaults with parts with what its tables say of the same module.

usage: random_defaults.py OERGEN OERSHOW [--seed NUMBER] [--defaults COUNT], for example:
       random_defaults.py crates/oergen/out/oergen crates/oershow/out/oershow --seed 7

A module has random types, and of each default two: one with it, and one with OPTIONAL in its place. By the second, `oershow --from-json`
spells the default out. The types are printed with --c and built with nothing proved, which takes some minutes. By each type's functions
octets without the component are canonical; spelled out, the default is read leniently alone, and written without it; any other value is
canonical, and comes back the same. By tables a default is never written. The same seed gives the same module.
"""
import argparse
import json
import pathlib
import random
import re
import shutil
import subprocess
import sys
import tempfile
from typing import Callable, NamedTuple

top = pathlib.Path(__file__).resolve().parent.parent
sys.dont_write_bytecode = True

LIMITS = ((None, None), (0, 255), (-5, 10), (0, 65535), (0, None), (-(2**31), 2**31 - 1), (3, 9), (0, 2**64 - 1), (-(2**63), 2**63 - 1))
BITS = (0, 3, 9)
LETTERS = "abXY z09"
OTHERS = 40  # values of a type that are tried beside its default

DRIVER = """#include <m_c.h>
#include <stdio.h>
#include <string.h>

static uint8_t in[65536], out[65536];

/* canonicalises a line's octets, TYPE HEX, leniently read; and says whether they are read canonically */
int main(void) {
    char type[100], hex[131072];
    while (scanf("%99s %131071s", type, hex) == 2) {
        size_t len = 0;
        for (const char *at = hex; *at; at += 2, len++) sscanf(at, "%2hhx", &in[len]);
        jilgomt_answer answer, read;
CALLS
        for (size_t i = 0; i < answer.written; i++) printf("%02x", out[i]);
        printf(" %u %u\\n", (unsigned)answer.status, (unsigned)read.status);
        fflush(stdout);
    }
    return 0;
}
"""
CALL = """        if (!strcmp(type, "{0}")) {{
            m_{0}_canonicalise(JILGOMT_OER, JILGOMT_LEVELS, in, len, out, sizeof out, &answer);
            m_{0}_check(JILGOMT_COER, JILGOMT_LEVELS, in, len, &read);
        }}"""


class Type(NamedTuple):
    """A type's text, and what makes a value of it: its text and its JSON. A default is made without what isn't printed."""

    text: str
    value: Callable


class Component(NamedTuple):
    name: str
    member: str
    of: Type
    need: str


class Default(NamedTuple):
    """A type with a default, the same with OPTIONAL, the type of that component, and the default in JSON."""

    own: str
    optional: str
    of: Type
    json: object


def hexadecimal(bits):
    return "".join(f"{int(bits[at:at + 8].ljust(8, '0'), 2):02X}" for at in range(0, len(bits), 8))


class Maker:
    def __init__(self, seed):
        self.rng, self.count, self.lines = random.Random(seed), 0, []

    def name(self, front):
        self.count += 1
        return f"{front}{self.count}"

    def part(self, front):
        """The name of a component or an alternative, and the one that it has in Rust and in JSON."""
        name = self.name(front)
        count = name.removeprefix(front)
        return self.rng.choice(((name, name), (f"{front}-{count}", f"{front}_{count}"), (f"{front}X{count}", f"{front}_x{count}")))

    def assign(self, text):
        name = self.name("T")
        self.lines.append(f"{name} ::= {text}")
        return name

    def integer(self):
        low, high = self.rng.choice(LIMITS)
        least = low if low is not None else -(2**66)
        most = high if high is not None else 2**66

        def value(_):
            near = max(least, min(most, self.rng.randint(-3, 5)))
            number = self.rng.choice((least, most, self.rng.randint(least, most), near))
            return str(number), number

        limits = "" if low is high is None else f" ({low}..{'MAX' if high is None else high})"
        return Type(f"INTEGER{limits}", value)

    def enumerated(self):
        names = [self.name("e") for _ in range(self.rng.randint(1, 4))]
        numbers = self.rng.sample(range(-300, 70000), len(names))
        items = [f"{name}({number})" if self.rng.random() < 0.5 else name for name, number in zip(names, numbers)]
        mark = ["..."] if self.rng.random() < 0.3 else []
        return Type(f"ENUMERATED {{ {', '.join(items + mark)} }}", lambda _: (self.rng.choice(names),) * 2)

    def string(self):
        """One of octets, bits or characters, within a size or not."""
        sort = self.rng.choice(("OCTET STRING", "BIT STRING", "IA5String", "UTF8String"))
        least, most = self.rng.choice(((0, 5), (2, 2), (12, 12), (1, 9)))
        is_sized = sort != "UTF8String" and self.rng.random() < 0.6

        def value(_):
            count = self.rng.randint(least, most)
            if sort == "OCTET STRING":
                octets = "".join(f"{self.rng.randrange(256):02X}" for _ in range(count))
                return f"'{octets}'H", octets
            if sort == "BIT STRING":
                bits = "".join(self.rng.choice("01") for _ in range(count))
                own = hexadecimal(bits)
                return f"'{bits}'B", own if is_sized and least == most else {"value": own, "length": count}
            text = "".join(self.rng.choice(LETTERS) for _ in range(count))
            return f'"{text}"', text

        return Type(sort + (f" (SIZE ({least}..{most}))" if is_sized else ""), value)

    def named_bits(self):
        def value(_):
            held = [it for it in BITS if self.rng.random() < 0.4]
            bits = "".join("1" if it in held else "0" for it in range(max(held, default=-1) + 1))
            return f"{{{', '.join(f'b{it}' for it in held)}}}", {"value": hexadecimal(bits), "length": len(bits)}

        return Type(f"BIT STRING {{ {', '.join(f'b{it}({it})' for it in BITS)} }}", value)

    def list(self):
        def value(is_default):
            return "{}", [] if is_default else [self.rng.randrange(256) for _ in range(self.rng.randint(0, 2))]

        return Type("SEQUENCE OF INTEGER (0..255)", value)

    def leaf(self):
        plain = (lambda: Type("BOOLEAN", self.boolean), lambda: Type("NULL", lambda _: ("NULL", None)))
        return self.rng.choice((self.integer, self.integer, self.string, self.string, self.enumerated, self.named_bits, self.list, *plain))()

    def boolean(self, _):
        is_set = self.rng.random() < 0.5
        return str(is_set).upper(), is_set

    def type(self, levels):
        roll = self.rng.random()
        made = self.leaf() if levels == 0 or roll < 0.5 else self.structure(levels - 1) if roll < 0.8 else self.choice(levels - 1)
        return Type(self.assign(made.text), made.value) if self.rng.random() < 0.5 else made

    def component(self, levels):
        (name, member), of, need = self.part("c"), self.type(levels), self.rng.choice(("", "", " OPTIONAL", " DEFAULT "))
        text = of.value(True)[0] if need == " DEFAULT " else ""
        return Component(name, member, of, need), f"{name} {of.text}{need}{text}"

    def structure(self, levels):
        """A SEQUENCE or a SET, with additions or without."""
        made = [self.component(levels) for _ in range(self.rng.randint(0, 4))]
        more = [self.component(levels) for _ in range(self.rng.randint(0, 2))] if self.rng.random() < 0.4 else None
        texts = [text for _, text in made] + (["...", *(text for _, text in more)] if more is not None else [])
        components = [it for it, _ in made + (more or [])]

        def value(is_default):
            found, members = [], {}
            for it in components:
                is_left_out = it.need == " DEFAULT " and is_default or it.need and self.rng.random() < 0.5
                if not is_left_out:
                    text, members[it.member] = it.of.value(is_default)
                    found.append(f"{it.name} {text}")
            return f"{{ {', '.join(found)} }}" if found else "{}", members

        return Type(f"{self.rng.choice(('SEQUENCE', 'SEQUENCE', 'SET'))} {{ {', '.join(texts)} }}", value)

    def choice(self, levels):
        made = [(*self.part("a"), self.type(levels)) for _ in range(self.rng.randint(1, 4))]
        texts = [f"{name} {of.text}" for name, _, of in made]
        if self.rng.random() < 0.4:
            texts.insert(self.rng.randint(1, len(texts)), "...")

        def value(is_default):
            name, member, of = self.rng.choice(made)
            text, inside = of.value(is_default)
            return f"{name} : {text}", {member: inside}

        return Type(f"CHOICE {{ {', '.join(texts)} }}", value)

    def default(self):
        made = self.rng.choice((self.structure, self.structure, self.choice))(2)
        name = self.assign(made.text)
        text, own = made.value(True)
        sort, mark = self.rng.choice(("SEQUENCE", "SET")), self.rng.choice(("", "", "..., "))
        of = [self.assign(f"{sort} {{ {mark}x {name} {need} }}") for need in (f"DEFAULT {text}", "OPTIONAL")]
        return Default(*of, made, own)


def run(words, folder):
    ran = subprocess.run([str(it) for it in words], cwd=folder, stdout=subprocess.PIPE, stderr=subprocess.STDOUT, text=True, errors="replace", check=False)
    if ran.returncode:
        raise ValueError(f"{' '.join(map(str, words[:3]))}..: {ran.stdout[-3000:]}")
    return ran.stdout.strip()


def build(oergen, tree):
    """Prints the types of the tree's m.asn beside the repository's crates, and builds what calls their functions, m. Answers their names."""
    (tree / "crates").mkdir()
    (tree / "scripts").mkdir()
    for it in ("archive.py", "unproved.py"):
        shutil.copy(top / "scripts" / it, tree / "scripts")
    for it in (top / "crates").iterdir():
        (tree / "crates" / it.name).symlink_to(it)
    lines = run([oergen, "--out", "crates", "--name", "m", "--c", "m.asn"], tree)
    (tree / "crates.txt").write_text((top / "crates.txt").read_text(encoding="utf-8") + lines + "\n", encoding="utf-8")
    (tree / "m.table").write_text(run([oergen, "--table", "m.asn"], tree) + "\n", encoding="utf-8")
    run([sys.executable, "scripts/archive.py", "--crate", "m_c", "--unproved", "libm_c.a"], tree)
    types = re.findall(r"m_(\w+)_canonicalise\(", (tree / "crates/m_c/include/m_c.h").read_text(encoding="utf-8"))
    (tree / "m.c").write_text(DRIVER.replace("CALLS", "\n".join(map(CALL.format, types))), encoding="utf-8")
    run(["cc", "-O1", "-Wall", f"-I{top}/include", "-Icrates/m_c/include", "m.c", "libm_c.a", "-o", "m"], tree)
    return types


class Comparison:
    def __init__(self, oershow, tree):
        self.oershow, self.tree, self.faults, self.tried = oershow, tree, [], 0
        self.driver = subprocess.Popen([tree / "m"], stdin=subprocess.PIPE, stdout=subprocess.PIPE, text=True)

    def octets(self, of, members):
        """By the table, the octets of a value in JSON."""
        return run([self.oershow, "--from-json", "m.table", of, json.dumps(members)], self.tree)

    def says(self, of, octets, wanted, is_canonical):
        """Compares what a type's functions say of octets."""
        self.driver.stdin.write(f"{of} {octets}\n")
        self.driver.stdin.flush()
        written, status, read = self.driver.stdout.readline().rpartition("\n")[0].split(" ")
        if (written, status, read == "0") != (wanted, "0", is_canonical):
            self.faults.append(f"{of} of {octets}: written {written}, status {status}, canonically {read}; and not {wanted}")

    def compare(self, it):
        absent, spelled = self.octets(it.own, {}), self.octets(it.optional, {"x": it.json})
        if self.octets(it.own, {"x": it.json}) != absent:
            self.faults.append(f"{it.own}: its default is written by the table")
        self.says(it.own, absent, absent, True)
        self.says(it.own, spelled, absent, False)
        for _ in range(OTHERS):
            value = {"x": it.of.value(False)[1]}
            octets = self.octets(it.optional, value)
            if octets != spelled:
                self.tried += 1
                self.says(it.own, octets, octets, True)
                if self.octets(it.own, value) != octets:
                    self.faults.append(f"{it.own}: {value} is written otherwise by the table")


def words_of(usage, count, usual):
    """The words of a run: the paths of both programs, the seed, and how many of that."""
    parser = argparse.ArgumentParser(usage=usage)
    for program in ("oergen", "oershow"):
        parser.add_argument(program, type=lambda it: pathlib.Path(it).resolve())
    parser.add_argument("--seed", type=int, default=1)
    parser.add_argument(count, type=int, default=usual)
    return parser.parse_args()


def told(name, what, faults, otherwise):
    """Prints the first faults, and what was compared: the exit status."""
    for fault in faults[:40]:
        print(f"{name}: {fault}")
    how = f"{len(faults)} faults" if faults else otherwise
    print(f"{name}: {what}, {how}")
    return 1 if faults else 0


def main():
    words = words_of(__doc__, "--defaults", 8)
    maker = Maker(words.seed)
    defaults = [maker.default() for _ in range(words.defaults)]
    with tempfile.TemporaryDirectory(prefix="defaults-") as name:
        tree = pathlib.Path(name)
        (tree / "m.asn").write_text("\n".join(["M DEFINITIONS AUTOMATIC TAGS ::= BEGIN", *maker.lines, "END\n"]), encoding="utf-8")
        build(words.oergen, tree)
        comparison = Comparison(words.oershow, tree)
        for it in defaults:
            comparison.compare(it)
        comparison.driver.stdin.close()
    what = f"{len(defaults)} defaults and {comparison.tried} values beside them"
    return told("random_defaults", what, comparison.faults, "as they should be")


if __name__ == "__main__":
    sys.exit(main())
