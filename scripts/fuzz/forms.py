"""Types of the project by what their octets look like (X.696), to spell a value in another, lenient form and to find bitmaps.

A type is a letter for a leaf, a number of octets without another form, or the word of a type below: `b` a boolean, `i` an integer
behind a length, `u` one that isn't negative, `e` an enumerated value, `s` a bit string behind a length, `t` one of 14 bits without,
`o` octets behind a length, `n` nothing. Each type of the rows stands here (`unknown`).
"""


class Seq:
    """A sequence or set: root components, each with None, "opt" or the octets of its default, in the order of the octets; the
    types of its additions, or None where it isn't extensible."""

    def __init__(self, root, additions=None):
        self.root, self.additions = root, additions


class Behind:
    """So many octets, and a type behind them."""

    def __init__(self, count, of):
        self.count, self.of = count, of


class List:
    def __init__(self, of):
        self.of = of


class Choice:
    """Alternatives by their tags' first octets, which have the whole tag; those of additions apart."""

    def __init__(self, root, additions=None):
        self.root, self.additions = root, additions or {}


OPT = "opt"
SIZES = {"b": 1, "n": 0, "t": 2}
LETTERS = {*SIZES, *"iueso"}
A = ("b", None)
TYPES = {
    "bool": "b", "int": "i", "bits": "s", "octets": "o", "utf8": "o", "oid": "o", "utctime": "o", "gentime": "o", "date": "o", "any": "o",
    "ints": List("i"), "intset": List("i"), "nest": List("nest"), "bag1": List("seq1"), "bag2": List("seq2"), "SetOfOctets": List("o"),
    "choice": Choice({0x80: "i", 0x81: "i"}, {0x82: "i"}),
    "toplevel": Seq([(1, None), ("testchoice", None)]),
    "testchoice": Choice({0x80: "n", 0x81: "b", 0x82: "toplevel"}),
    "BoolChoice": Choice({0x80: "b", 0x82: "choice"}, {0x81: "b"}),
    "Link": Seq([("i", OPT), ("linkchoice", None)]), "linkchoice": Choice({0x80: "b", 0x81: "Link"}),
    "seq1": Seq([A], []), "seq2": Seq([A], ["b", "b"]), "seq5": Seq([A], ["b"]), "seq3": Seq([A], ["seq4"]), "seq4": Seq([A]),
    "seq6": Seq([A], ["group6"]), "group6": Seq([("b", OPT)]), "outer": Seq([A], ["seq2"]), "emptyext": Seq([], []), "empty": Seq([]),
    "holder1": Seq([("seq1", b"\x00\xff")]), "holder2": Seq([("seq5", b"\x00\xff")]),
    "defint": Seq([("i", b"\x01\x00")]), "defopt": Seq([("i", b"\x01\x00"), ("i", OPT)]),
    "AllDefault": Seq([("i", b"\x01\x00"), ("i", b"\x01\x01")]), "AllOptional": Seq([("i", OPT), ("i", OPT)]),
    "Pair": Seq([("i", None), ("i", None)]), "Nested": Seq([A, ("Pair", None)]),
    "AddDef": Seq([A], ["i"]), "omitted": Seq([("o", OPT)], ["n"]), "dup": Seq([("i", None), ("o", OPT), ("i", OPT)], ["o"]),
    "extopt": Seq([("i", None)] + [("i", OPT), ("o", OPT)] * 3, ["i", "o"] * 2),
    "manyopt": Seq([("i", None)] + [("i", OPT), ("o", OPT)] * 3 + [("i", OPT)] * 6),
    "foo": Seq([("i", OPT)] * 3), "mixset": Seq([("i", b"\x01\x00"), ("i", OPT), A], ["b"]),
    "MixedSet": Seq([("i", b"\x01\x00"), ("i", OPT), A], ["b"]), "mixset2": Seq([("i", b"\x01\x00"), ("i", OPT), A], ["b", "o"]),
    "seq7": Seq([A], ["b", "b", "i", "group7"]), "group7": Seq([("b", OPT), ("i", b"\x01\x00")]), "bag3": List("seq7"),
    "posbig": "u", "0..i128max": "u", "Positive": "u", "ext1..8": "i", "i16inext1..8": "i", "u128": "i", "Negative<Integer>": "i",
    "enum4": "e", "Enum3": "e", "bits14": "t", "bits3..6": "s", "named": "s", "named4..8": "s", "octets3..6": "o", "Boxed": "b", "null": "n", "nulls": List("n"),
    "bmp": "o", "universal": "o", "ia5": "o", "numeric": "o", "printable": "o", "visible": "o", "general": "o", "graphic": "o", "teletex": "o",
    "ConstrainedOptions": Seq([(3, OPT)]),
    # integers of fixed width, octets and characters of fixed size
    "small": 1, "-5..5": 1, "5..5": 1, "0..255": 1, "0..65535": 2, "2..65535": 2, "-129..0": 2, "i16range": 2, "Negative<Positive>": 1,
    "HashedId3": 3, "utf8of3": 3, "bmpof2": 4, "universalof2": 8,
    # the default takes more levels than there are where it is spelled out
    "deepdef": Seq([("nest", OPT)]),
    "tag130": Choice({0xBF: Behind(2, "b")}), "tagmax": Choice({0x80: "i", 0x81: "i", 0xBF: Behind(5, "i")}),
    "Bush": Seq([("i", None), ("bushes", None)]), "bushes": List("Bush"),
    "Chain": Seq([A], ["Chain"]), "Node": Seq([("i", None), ("Node", OPT), A]),
}  # fmt: skip


def parts(of):
    """The types that a type is made of."""
    if isinstance(of, Seq):
        return [part for part, _ in of.root] + list(of.additions or [])
    if isinstance(of, Choice):
        return [*of.root.values(), *of.additions.values()]
    return [of.of] if isinstance(of, (List, Behind)) else [of]


def unknown(words):
    """The words of types, and the names within types, that stand nowhere here."""
    names = {*words, *(part for of in TYPES.values() for part in parts(of))}
    return sorted(name for name in names if isinstance(name, str) and name not in TYPES and name not in LETTERS)


def length_at(o, at):
    """The length at a place of canonical octets, and the place behind it."""
    first = o[at]
    if first < 128:
        return first, at + 1
    behind = at + 1 + first - 128
    return int.from_bytes(o[at + 1 : behind], "big"), behind


def length(n, zeros=None):
    """A length; with so many leading zeros in the long form."""
    if zeros is None and n < 128:
        return bytes([n])
    body = bytes(zeros or 0) + n.to_bytes(max(1, (n.bit_length() + 7) // 8), "big")
    return bytes([128 + len(body)]) + body


class Writer:
    """Spells canonical octets anew; without a source of random numbers exactly as they are. `is_own` says whether each bitmap
    has its type's own size."""

    def __init__(self, octets, rng=None):
        self.octets, self.rng, self.at, self.is_own = octets, rng, 0, True

    def chance(self):
        return self.rng is not None and self.rng.random() < 0.3

    def padded(self, n):
        return length(n, self.rng.randrange(4) if self.chance() else None)

    def take(self, n):
        self.at += n
        return self.octets[self.at - n : self.at]

    def content(self):
        n, self.at = length_at(self.octets, self.at)
        return self.take(n)

    def form(self, of):
        of = TYPES.get(of, of)
        if isinstance(of, Seq):
            return self.sequence(of)
        if isinstance(of, List):
            return self.list(of)
        if isinstance(of, Choice):
            return self.choice(of)
        if isinstance(of, Behind):
            return self.take(of.count) + self.form(of.of)
        return self.leaf(of)

    def leaf(self, of):
        if isinstance(of, int):
            return self.take(of)
        if of in SIZES:
            octets = self.take(SIZES[of])
            if of == "t" and self.chance():
                return octets[:-1] + bytes([octets[-1] | self.rng.randrange(4)])
            return bytes([self.rng.randrange(1, 256)]) if of == "b" and octets == b"\xff" and self.chance() else octets
        if of == "e":
            return self.enumerated()
        content = self.content()
        if of in "iu" and self.chance():
            content = self.sign(of, content) * self.rng.randrange(1, 4) + content
        if of == "s" and self.chance():
            unused = content[0]
            content = content[:-1] + bytes([content[-1] | self.rng.randrange(1 << unused)]) if unused else content
            content = b"" if content == b"\0" else content
        return self.padded(len(content)) + content

    def sign(self, of, content):
        """The octet that may stand before a number without changing it."""
        return b"\xff" if of == "i" and content[0] & 128 else b"\0"

    def enumerated(self):
        first = self.take(1)
        content = first if first[0] < 128 else self.take(first[0] & 127)
        if first[0] < 128 and not self.chance():
            return first
        if self.chance():
            content = self.sign("i", content) * self.rng.randrange(1, 4) + content
        return bytes([128 + len(content)]) + content

    def list(self, of):
        count = int.from_bytes(self.content(), "big")
        quantity = count.to_bytes(max(1, (count.bit_length() + 7) // 8), "big")
        if self.chance():
            quantity = bytes(self.rng.randrange(1, 3)) + quantity
        elements = b"" if of.of == "n" else b"".join(self.form(of.of) for _ in range(count))
        return self.padded(len(quantity)) + quantity + elements

    def choice(self, of):
        tag = self.take(1)
        shown = bytes([tag[0] | 63, tag[0] & 63]) if 0 < tag[0] & 63 < 63 and self.chance() else tag
        if tag[0] in of.root:
            return shown + self.form(of.root[tag[0]])
        return shown + self.open(of.additions[tag[0]])

    def open(self, of):
        """An open type, with octets left over behind its value."""
        _, self.at = length_at(self.octets, self.at)
        content = self.form(of)
        if self.chance():
            content += self.rng.randbytes(self.rng.randrange(1, 4))
        return self.padded(len(content)) + content

    def sequence(self, of):
        is_extensible = of.additions is not None
        places = is_extensible + sum(need is not None for _, need in of.root)
        preamble = int.from_bytes(self.take((places + 7) // 8), "big") << 1
        bits = [preamble >> (places + 7) // 8 * 8 - i & 1 for i in range(places)]
        has_more, bits, shown, body = bits[:1] == [1] and is_extensible, bits[is_extensible:], [], b""
        for of_component, need in of.root:
            bit = 1 if need is None else bits.pop(0)
            spelled = not bit and need != OPT and self.chance()
            if need is not None:
                shown.append(1 if bit or spelled else 0)
            body += self.form(of_component) if bit else need if spelled else b""
        more = self.additions(of.additions, has_more) if is_extensible else b""
        shown = [int(more != b"")] * is_extensible + shown
        whole = sum(bit << (places + 7) // 8 * 8 - 1 - i for i, bit in enumerate(shown))
        return whole.to_bytes((places + 7) // 8, "big") + body + more

    def additions(self, types, has_more):
        """A bitmap and open types: with bits and open types of additions that the type doesn't know."""
        bits, parts = [0] * len(types), []
        if has_more:
            content = self.content()
            bits = [content[1 + i // 8] >> 7 - i % 8 & 1 for i in range(8 * len(content) - 8 - content[0])]
            self.is_own = self.is_own and len(bits) == len(types)
        for i, bit in enumerate(bits):
            if bit and i < len(types):
                parts.append(self.open(types[i]))
            elif bit:
                part = self.content()
                parts.append(length(len(part)) + part)
        if self.chance():
            for bit in self.rng.choices((0, 1), k=self.rng.randrange(1, 12)):
                bits.append(bit)
                part = self.rng.randbytes(self.rng.randrange(4))
                parts += [self.padded(len(part)) + part] * bit
        if not has_more and (self.rng is None or len(bits) == len(types)):
            return b""
        unused = -len(bits) % 8
        octets = (int("0" + "".join(map(str, bits)), 2) << unused).to_bytes((len(bits) + 7) // 8, "big")
        return self.padded(1 + len(octets)) + bytes([unused]) + octets + b"".join(parts)


def lenient(word, octets, rng):
    """Another form of a value's canonical octets, which is read leniently as that value."""
    return Writer(octets, rng).form(word)


def has_own_bitmaps(word, octets):
    """Whether each bitmap in octets that were read canonically has the type's own size."""
    writer = Writer(octets)
    same = writer.form(word)
    assert octets.startswith(same), (word, octets.hex(), same.hex())
    return writer.is_own
