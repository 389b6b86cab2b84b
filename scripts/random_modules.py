"""Modules of random types that oergen reads and prints, for scripts/second_reader.py: the same random numbers give the same text."""

NAMED_BITS = "BIT STRING { a(0), b(9) }"
STRINGS = ("IA5String", "PrintableString", "VisibleString", "NumericString", "BMPString", "UniversalString", "UTF8String", "OCTET STRING", "BIT STRING", NAMED_BITS)
PLAIN = ("BOOLEAN", "NULL", "OBJECT IDENTIFIER", "UTCTime", "GeneralizedTime", "DATE", "GeneralString", "ANY", "EXTERNAL", "ObjectDescriptor", "EMBEDDED PDV", "CHARACTER STRING")
BOUNDS = (0, 1, 2, 5, 127, 128, 255, 256, 32767, 32768, 65535, 65536, 2**31 - 1, 2**31, 2**32 - 1, 2**32, 2**63 - 1, 2**63, 2**64 - 1, 2**64)


class Maker:
    """What a text has so far: types by name, each with what it is, and numbers in use."""

    def __init__(self, rng):
        self.rng, self.types, self.sequences, self.named, self.count, self.is_automatic = rng, [], [], [], 0, True

    def name(self, front):
        self.count += 1
        return f"{front}{self.count}"

    def bound(self):
        number = self.rng.choice(BOUNDS)
        return -number - self.rng.randint(0, 1) if self.rng.random() < 0.3 else number

    def numbers(self):
        """Two numbers, the lesser first."""
        return sorted((self.bound(), self.bound()))

    def range(self):
        low, high = self.numbers()
        form = self.rng.randrange(10)
        if form == 0:
            return self.rng.choice((f"{low}..MAX", "least..MAX", "0..most"))
        forms = [f"MIN..{high}", f"{low}", f"{low}<..{high + 2}", f"{low - 2}..<{high}", f"{low} | {high}", f"{low}..{high} EXCEPT {low}"]
        return forms[form - 1] if form <= len(forms) else f"{low}..{high}"

    def integer(self):
        named = " { low(-3), high(3) }" if self.rng.random() < 0.1 else ""
        form = self.rng.randrange(6)
        if named:
            return f"INTEGER{named} (low..high)"
        if form == 0:
            return "INTEGER"
        if form == 1:
            return f"INTEGER ({self.range()}, ...)"
        if form == 2:
            low, high = self.numbers()
            return f"INTEGER ({low}..{high}) ({low}..MAX)"
        return f"INTEGER ({self.range()})"

    def string(self):
        sort = self.rng.choice(STRINGS)
        size = self.rng.choice((0, 1, 3, 8, 13, 127, 128, 300))
        forms = ("", f" (SIZE({size}))", f" (SIZE({size}..{size + 4}))", f" (SIZE({size}, ...))", f" (SIZE(1..MAX))", f" (SIZE({size} | {size + 1}))")
        return sort + self.rng.choice(forms)

    def enumerated(self):
        items, numbers = [], self.rng.sample(range(-200, 400), 8)
        for at in range(self.rng.randint(1, 5)):
            number = f"({numbers.pop()})" if self.rng.random() < 0.3 else ""
            items.append(f"v{at}{number}")
        if self.rng.random() < 0.4:
            items.append("...")
            last = 1000
            for at in range(self.rng.randint(0, 3)):
                last += self.rng.randint(1, 9)
                items.append(f"w{at}" + (f"({last})" if self.rng.random() < 0.5 else ""))
        return f"ENUMERATED {{ {', '.join(items)} }}"

    def leaf(self):
        return self.rng.choice((self.integer, self.integer, self.string, self.enumerated, lambda: self.rng.choice(PLAIN)))()

    def type(self, levels):
        roll = self.rng.random()
        if roll < 0.3 and self.types:
            return self.rng.choice(self.types)
        if levels and roll < 0.45:
            return f"{self.rng.choice(('SEQUENCE', 'SET'))} OF {self.type(levels - 1)}"
        if levels and roll < 0.55:
            return self.structure(levels - 1)
        return self.leaf()

    def structure(self, levels):
        return self.rng.choice((self.sequence, self.sequence, self.choice))(levels)

    def tagged(self, of, number, is_tagged):
        if not is_tagged:
            return of
        kind = self.rng.choice(("", "", "APPLICATION ", "PRIVATE "))
        return f"[{kind}{number}] {of}"

    def need(self, of):
        """A need that is printed: a default only of what has one."""
        roll = self.rng.random()
        if roll < 0.35:
            return ""
        defaults = {"BOOLEAN": self.rng.choice(("TRUE", "yes")), "NULL": "NULL", "INTEGER": str(self.bound()), "UTF8String": '"x"', "IA5String": '"a b"', "OCTET STRING": "'0AF'H", NAMED_BITS: self.rng.choice(("{a, b}", "'010'B"))}
        if roll < 0.55 and of in defaults:
            return f" DEFAULT {defaults[of]}"
        return " OPTIONAL"

    def untagged(self, levels, number):
        """A choice without a tag whose alternatives have tags, written or by a name."""
        count, marked = self.rng.randint(1, 3), self.rng.random() < 0.3
        parts = [f"i{at} {self.tagged(self.type(levels), number + at, True)}" for at in range(count)]
        if self.rng.random() < 0.2:
            parts.append(f"more {self.untagged(levels, number + 10)}")
        if marked:
            parts += ["...", f"i{count} {self.tagged(self.type(levels), number + count, True)}"]
        of = f"CHOICE {{ {', '.join(parts)} }}"
        if self.rng.random() < 0.5:
            return of
        self.named.append(f"{self.name('U')} ::= {of}")
        return self.named[-1].partition(" ")[0]

    def component(self, at, levels, is_tagged):
        if is_tagged and self.rng.random() < 0.1:
            return f"{self.name('c')} {self.untagged(levels, 100 * (at + 1))}{self.rng.choice(('', ' OPTIONAL'))}"
        of = self.type(levels)
        return f"{self.name('c')} {self.tagged(of, at, is_tagged)}{self.need(of)}"

    def how_many(self, usual, most):
        """How many components, or additions: now and then more than stand in an alias, or in one another."""
        return self.rng.randint(6, most) if self.rng.random() < 0.02 else self.rng.randint(0, usual)

    def sequence(self, levels):
        sort = self.rng.choice(("SEQUENCE", "SEQUENCE", "SET"))
        is_tagged = not self.is_automatic or self.rng.random() < 0.1
        at, parts = 0, []
        for _ in range(self.how_many(5, 32)):
            parts.append(self.component(at, levels, is_tagged))
            at += 1
        if sort == "SEQUENCE" and self.sequences and at < 6 and self.rng.random() < 0.2:
            parts.append(f"COMPONENTS OF {self.sequences.pop()}")
        if self.rng.random() < 0.4:
            parts.append("...")
            for _ in range(self.how_many(3, 12)):
                if self.rng.random() < 0.3:
                    parts.append(f"[[ {self.component(at, levels, is_tagged)}, {self.component(at + 1, levels, is_tagged)} ]]")
                    at += 1
                else:
                    parts.append(self.component(at, levels, is_tagged))
                at += 1
            if self.rng.random() < 0.3:
                parts += ["...", self.component(at, levels, is_tagged)]
        return f"{sort} {{ {', '.join(parts)} }}"

    def choice(self, levels):
        is_tagged = not self.is_automatic or self.rng.random() < 0.1
        count = self.rng.randint(1, 5)
        parts = [f"a{at} {self.tagged(self.type(levels), at, is_tagged)}" for at in range(count)]
        if is_tagged and self.rng.random() < 0.3:
            parts.append(f"u {self.untagged(levels, 100)}")
        if self.rng.random() < 0.4:
            parts.append("...")
            parts += [f"a{count + at} {self.tagged(self.type(levels), count + at, is_tagged)}" for at in range(self.rng.randint(0, 2))]
        return f"CHOICE {{ {', '.join(parts)} }}"

    def assignment(self):
        name = self.name("T")
        roll = self.rng.random()
        if roll < 0.08:
            low, high = self.numbers()
            text = f"{name} INTEGER ::= {{ {low} | {high} }}"
        elif roll < 0.16:
            text = f"{name} ::= Pair{{{self.type(1)}, {self.rng.choice((9, 255, 256))}}}"
        elif roll < 0.2:
            fields = "id CLASS-OF.&id ({Objects}), content CLASS-OF.&Type ({Objects}{@id}), values ALSO.&Values, value ALSO.&value OPTIONAL"
            text = f"{name} ::= SEQUENCE {{ {fields}, instance INSTANCE OF TYPE-IDENTIFIER, few Few{{{{1 | 300}}, 9}} }}"
        elif roll < 0.6:
            text = f"{name} ::= {self.structure(2)}"
            if " ::= SEQUENCE {" in text and "COMPONENTS" not in text:
                self.sequences.append(name)
        else:
            text = f"{name} ::= {self.type(2)}"
        self.types.append(name)
        text = "\n".join([text, *self.named])
        self.named = []
        return text


OWN = """yes BOOLEAN ::= TRUE
least INTEGER ::= -1
most INTEGER ::= far
far INTEGER ::= 65535
CLASS-OF ::= CLASS { &id INTEGER (0..255) UNIQUE, &Type, &Values INTEGER (0..9) OPTIONAL, &value &Type OPTIONAL }
    WITH SYNTAX { &Type IDENTIFIED BY &id [AMONG &Values] [AS &value] }
ALSO ::= CLASS-OF
Few{INTEGER:Of, INTEGER:most} ::= SEQUENCE { most INTEGER (0..most), of INTEGER (Of), more [2] Of OPTIONAL, e [3] ENUMERATED { most, of(most) } }
Objects CLASS-OF ::= { { BOOLEAN IDENTIFIED BY 1 } | { NULL IDENTIFIED BY 2 }, ... }
Pair{Of, INTEGER:most} ::= SEQUENCE { of [0] Of, number [1] INTEGER (0..most), more [2] SEQUENCE OF Of OPTIONAL }"""


def text(rng):
    """Two modules, the second with types of the first."""
    maker = Maker(rng)
    found = [maker.assignment() for _ in range(8)]
    first = "\n".join([OWN, *found])
    shared = rng.sample(maker.types, 3)
    maker.types, maker.sequences, maker.is_automatic = list(shared), [], False
    found = [maker.assignment() for _ in range(6)]
    tagging = rng.choice(("IMPLICIT TAGS ", "EXPLICIT TAGS ", ""))
    implied = [rng.choice(("", "EXTENSIBILITY IMPLIED ")) for _ in range(2)]
    imports = ", ".join([*shared, "CLASS-OF", "ALSO", "Objects", "Pair{}", "Few{}", "yes", "least", "most"])
    return (
        f"First DEFINITIONS AUTOMATIC TAGS {implied[0]}::= BEGIN\n{first}\nEND\n"
        f"Second DEFINITIONS {tagging}{implied[1]}::= BEGIN\nIMPORTS {imports} FROM First WITH SUCCESSORS;\n" + "\n".join(found) + "\nEND\n"
    )
