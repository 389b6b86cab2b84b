#!/usr/bin/env python3
"""Runs the rows of test_vectors over types that oergen prints of crates/oergen/data/words.asn and types.asn, in the place of those by
hand and of the library.

usage: words.py COPY PROGRAM, for example: words.py /tmp/copy crates/oergen/out/oergen

COPY is a folder to be made, in which the repository's crates are laid, and beside them the printed ones. There, in oertool_words,
each word stands for the printed type of `NAMES`; whatever else the rows' program does is as it was. `rt try` then runs it: it
proves nothing. What it prints is compared, line by line, with crates/test_vectors/stdout; of what `Debug` shows of a value,
without names of types.
"""
import pathlib
import re
import resource
import shutil
import subprocess
import sys

# values nest up to a thousand levels deep, each a few calls
sys.setrecursionlimit(20000)
top = pathlib.Path(__file__).resolve().parent.parent
MODULES = ("crates/oergen/data/types.asn", "crates/oergen/data/words.asn")
# Words, and the types of the module that stand for them.
NAMES = {
    "bool": "Truth", "int": "Whole", "null": "Nothing", "octets": "Content", "bits": "Flags", "utf8": "Text", "oid": "Name",
    "utctime": "ShortTime", "gentime": "LongTime", "date": "Day", "any": "Open",
    "posbig": "GreatPositive", "small": "Small", "0..255": "OneOctet", "0..65535": "TwoOctets", "2..65535": "FromTwo",
    "-5..5": "Small", "-129..0": "UpToZero", "5..5": "Five", "0..i128max": "FromZero", "i16range": "TwoSigned",
    "ext1..8": "ExtensibleOneToEight", "Positive": "Positive", "Negative<Integer>": "Negative", "Negative<Positive>": "NegativePositive",
    "octets3..6": "Octets3to6", "bits3..6": "Bits3to6", "bits14": "Bits14", "bmpof2": "BmpOf2", "universalof2": "UniversalOf2",
    "named": "Named", "named4..8": "Named4to8",
    "bmp": "Bmp", "universal": "Ucs4", "numeric": "Numeric", "printable": "Printable", "visible": "Visible", "ia5": "Ia5", "general": "General",
    "graphic": "Graphic", "teletex": "Teletex", "HashedId3": "HashedId3", "Enum3": "Enum3", "enum4": "Enum4",
    "empty": "Empty", "Pair": "Pair", "Nested": "Nested", "defint": "DefaultInteger", "defopt": "DefaultAndOptional",
    "AllDefault": "AllDefault", "AllOptional": "AllOptional", "ConstrainedOptions": "ConstrainedOptions",
    "manyopt": "ManyOptional", "emptyext": "EmptyExtensible", "seq1": "Sequence1", "seq2": "Sequence2", "seq3": "Sequence3",
    "seq5": "Sequence5", "holder1": "Holder1", "holder2": "Holder2", "seq6": "Sequence6", "seq7": "Sequence7", "outer": "Outer", "omitted": "Omitted", "AddDef": "AddDef",
    "extopt": "ExtendedOptional", "dup": "SequenceDuplicatesExtended", "foo": "Foo", "mixset": "MixedSet",
    "MixedSet": "MixedSet", "mixset2": "MixedSet2", "choice": "PriorityChoice", "tagmax": "WideChoice", "tag130": "OnlyChoice",
    "BoolChoice": "BoolChoice", "ints": "Integers", "nulls": "Nulls", "intset": "IntegerBag", "SetOfOctets": "OctetsBag",
    "bag1": "Bag1", "bag2": "Bag2", "bag3": "Bag3", "nest": "Nest", "Link": "Link", "toplevel": "TopLevel", "Bush": "Bush",
    "Node": "Node", "Chain": "Chain",
}
# Words whose rows would be answered otherwise: a required addition is printed as one that may be absent.
OTHERWISE = {"dup"}
ARM = re.compile(r'"([^"]+)" => (?:\{\s*)?(Ok|Some)\(work\.(on|under)::<.*?>\([^\n]*\)\)(?:\n\s*\}\n|,\n)')


def lay(copy):
    """Copies what is kept in the repository."""
    names = subprocess.run(["git", "ls-files", "-z"], cwd=top, check=True, capture_output=True).stdout
    for name in filter(None, names.decode().split("\0")):
        (copy / name).parent.mkdir(parents=True, exist_ok=True)
        shutil.copyfile(top / name, copy / name)


def printed(copy, program):
    """Prints the module's types; each with its crate, and the types that are left out."""
    words = [program, "--out", copy / "crates", "--name", "word_types", "--leave-out", *(top / it for it in MODULES)]
    lines = subprocess.run(words, check=True, capture_output=True, text=True, timeout=600).stdout.splitlines()
    crates = [it for it in lines if not it.startswith("#")]
    with open(copy / "crates.txt", "a", encoding="utf-8") as file:
        file.write("\n".join(crates) + "\n")
    types = {}
    for crate in (it.split(":")[0] for it in crates):
        for file in (copy / "crates" / crate / "src").glob("*.rt"):
            for name in re.findall(r"^pub (?:type|struct) (\w+)(?= =|\()", file.read_text(), re.M):
                types[name] = crate
    return types, [it.split(",")[0].removeprefix("# left out: ") for it in lines if it.startswith("#")]


def turn(copy, types):
    """Lets the words stand for the printed types; how many do."""
    turned = set()

    def arm(found):
        word, some, call = found[1], found[2], found[3]
        name = NAMES.get(word)
        if name not in types or word in OTHERWISE:
            return found[0]
        turned.add(word)
        path = f"{types[name]}::{name}"
        own = f"<{path} as asn1_core::AsnType>::CONSTRAINTS" if call == "under" else ""
        return f'"{word}" => {some}(work.{call}::<{path}>({own})),\n'

    source = copy / "crates/oertool_words/src"
    for file in (source / "constrained.rt", *(source / "known").glob("*.rt")):
        file.write_text(ARM.sub(arm, file.read_text()))
    listed = (copy / "crates.txt").read_text()
    below = " ".join(sorted(set(types.values())))
    (copy / "crates.txt").write_text(re.sub(r"^oertool_words:", f"oertool_words: {below}", listed, flags=re.M))
    return turned


# Structs around one value, which the printed types have otherwise; and names of components that they can't have.
AROUND = {"Limited", "Octets", "OpenOctets", "ListOf", "HashedId3", "Positive", "Negative", "Held", "Bare"}
OTHER = {"seq3": {"b": "group_1", "a2": "a"}, "seq6": {"b": "group_1", "a2": "a"}, "seq7": {"group": "group_1"}, "bag3": {"group": "group_1"}}
PIECE = re.compile(r'b?"(?:[^"\\]|\\.)*"|PhantomData<_>|\d{4}-[\dT:.-]+|[^\s{}()\[\],:]+|[{}()\[\],:]')


class Shown:
    """What `Debug` shows of a value, as lists and names that don't depend on where a type's text came from."""

    def __init__(self, text, names):
        self.pieces, self.at, self.names = PIECE.findall(text), 0, names

    def next(self):
        self.at += 1
        return self.pieces[self.at - 1]

    def sees(self, piece):
        return self.at < len(self.pieces) and self.pieces[self.at] == piece

    def parts(self, end, read):
        found = []
        while not self.sees(end):
            found.append(read())
            if self.sees(","):
                self.next()
        self.next()
        return [it for it in found if it not in ("PhantomData<_>", ("kind", "PhantomData<_>"))]

    def field(self):
        name = self.next()
        self.next()
        value = self.value()
        return value if value == "PhantomData<_>" else (self.names.get(name, name), value)

    def value(self):
        name = self.next()
        if name == "[":
            return self.parts("]", self.value)
        if name == "(":
            return ("", self.parts(")", self.value))
        if self.sees("("):
            self.next()
            held = self.parts(")", self.value)
            return held[0] if name in AROUND or name.endswith("Text") else (name, held)
        if self.sees("{"):
            self.next()
            held = self.parts("}", self.field)
            return held[0][1] if len(held) == 1 and held[0][0] in ("number", "octets", "range") else sorted(held, key=str)
        if name == "-":
            return name + self.value()
        return name.removesuffix("Components")


def plain(line):
    """The line; where it shows a value, what doesn't depend on names of types, nor on the order of components."""
    before, _, answer = line.partition(" => ")
    if not line.startswith("value ") or ";" not in answer:
        return line
    left, _, text = answer.partition(";")
    word = before.split(" ")[2]
    value = Shown(text, OTHER.get(word, {})).value()
    return (before, left, value[1][0] if isinstance(value, tuple) and value[0] == "Small" else value)


def main(copy, program):
    copy = pathlib.Path(copy).resolve()
    lay(copy)
    types, left_out = printed(copy, pathlib.Path(program).resolve())
    turned = turn(copy, types)
    folder = copy / "crates/test_vectors"
    # with checks, 1,024 levels of a value outgrow 8 MiB
    resource.setrlimit(resource.RLIMIT_STACK, (1 << 28, resource.getrlimit(resource.RLIMIT_STACK)[1]))
    # the vectors of rasn's tests show values in another form
    wanted = [it for it in (folder / "stdout").read_text().splitlines() if not it.startswith(("vector ", "outside "))]
    rows = "".join(it.split(" => ")[0] + "\n" for it in wanted)
    ran = subprocess.run(["rt", "try", "--seconds", "900"], cwd=folder, input=rows, capture_output=True, text=True, check=False)
    got = ran.stdout.splitlines()
    faults = 0
    for one, other in zip(wanted, got):
        if plain(one) != plain(other):
            faults += 1
            print(f"words: wanted {one[:300]}\nwords: got    {other[:300]}")
    if len(wanted) != len(got):
        faults += 1
        print(f"words: {len(got)} lines of {len(wanted)}; {ran.stderr[-600:]}")
    of = [it for it in wanted if any(f" {word} " in it.split(" => ")[0] + " " for word in turned)]
    print(f"words: {len(turned)} words stand for printed types; left out: {' '.join(left_out) or 'none'}")
    print(f"words: {len(wanted)} rows, {len(of)} of them of these words, {faults} faults")
    return 1 if faults else 0


if __name__ == "__main__":
    sys.exit(main(*sys.argv[1:]))
