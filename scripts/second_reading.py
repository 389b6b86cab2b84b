"""A reading of ASN.1 modules, written from X.680, X.681, X.683 and X.696 alone, for scripts/second_reader.py: the lines that `oergen --list`
should have of each type.
"""
import re

TOKEN = re.compile(
    r"""\s+|--(?:(?!--)[^\n\v\f\r])*(?:--|[\n\v\f\r]|$)|(?P<t>::=|\.\.\.|\.\.|\[\[|\]\]|"(?:[^"]|"")*"|'[^']*'[BH]|\d+"""
    r"""|&?[A-Za-z](?:-?[A-Za-z0-9])*|[^\s])"""
)
BLOCK = re.compile(r"/\*(?:[^*/]|\*(?!/)|/(?!\*))*\*/")
# universal tags, and how many octets a unit of the size has: none where sizes change no octet
SIMPLE = {
    "BOOLEAN": (1, None), "NULL": (5, None), "OCTET STRING": (4, 1), "OBJECT IDENTIFIER": (6, None), "UTF8String": (12, None),
    "NumericString": (18, 1), "PrintableString": (19, 1), "VisibleString": (26, 1), "IA5String": (22, 1), "GeneralString": (27, None),
    "GraphicString": (25, None), "TeletexString": (20, None), "BMPString": (30, 2), "UniversalString": (28, 4), "UTCTime": (23, None),
    "GeneralizedTime": (24, None), "DATE": (31, None), "ANY": (None, None),
}  # fmt: skip
OTHER_NAMES = {"ISO646String": "VisibleString", "T61String": "TeletexString"}
PARTS = ("SEQUENCE", "SET", "CHOICE", "ENUMERATED")
HELD = (*PARTS, "SEQUENCE OF", "SET OF")
UNIVERSAL = {"INTEGER": 2, "BIT STRING": 3, "ENUMERATED": 10, "SEQUENCE": 16, "SET": 17, "SEQUENCE OF": 16, "SET OF": 17}
KEYWORDS = set(
    "abstract as async await become box break const continue crate do dyn else ensures enum extern false fn final for gen ghost if impl in let "
    "loop macro match mod move mut override priv pub ref requires result return self static struct super trait true try type typeof union "
    "unsafe unsized use virtual where while yield".split()
)


# what stands for another type, by a step
NAMES = ("NAME", "FIELD", "INSTANCE OF")
# classes that are there without an assignment (X.681, annexes A and B)
CLASSES = """TYPE-IDENTIFIER ::= CLASS { &id OBJECT IDENTIFIER UNIQUE, &Type }
ABSTRACT-SYNTAX ::= CLASS { &id OBJECT IDENTIFIER, &Type, &property BIT STRING { handles-invalid-encodings(0) } DEFAULT {} }"""

# what an EMBEDDED PDV and a CHARACTER STRING begin with, with the tags that X.680 gives it automatically (36.5 and 44.5)
IDENTIFICATION = """identification [0] CHOICE { syntaxes [0] SEQUENCE { abstract [0] OBJECT IDENTIFIER, transfer [1] OBJECT IDENTIFIER },
    syntax [1] OBJECT IDENTIFIER, presentation-context-id [2] INTEGER, context-negotiation [3] SEQUENCE { presentation-context-id [0] INTEGER,
    transfer-syntax [1] OBJECT IDENTIFIER }, transfer-syntax [4] OBJECT IDENTIFIER, fixed [5] NULL }"""

# types that stand for others, where tags are explicit (X.680, 48; X.691, 28; of the last two the data-value-descriptor is left out)
ASSOCIATED = {
    "ObjectDescriptor": "[UNIVERSAL 7] IMPLICIT GraphicString",
    "EXTERNAL": """[UNIVERSAL 8] IMPLICIT SEQUENCE { direct-reference OBJECT IDENTIFIER OPTIONAL, indirect-reference INTEGER OPTIONAL,
        data-value-descriptor [UNIVERSAL 7] IMPLICIT GraphicString OPTIONAL, encoding CHOICE { single-ASN1-type [0] ANY,
        octet-aligned [1] IMPLICIT OCTET STRING, arbitrary [2] IMPLICIT BIT STRING } }""",
    "EMBEDDED PDV": f"[UNIVERSAL 11] IMPLICIT SEQUENCE {{ {IDENTIFICATION}, data-value [2] OCTET STRING }}",
    "CHARACTER STRING": f"[UNIVERSAL 29] IMPLICIT SEQUENCE {{ {IDENTIFICATION}, string-value [2] OCTET STRING }}",
}


class Type:
    """A type where it is written: its module, tags, sort, what the sort has, and its constraints."""

    def __init__(self, module, tags, sort, inside, constraints):
        self.module, self.tags, self.sort, self.inside, self.constraints = module, tags, sort, inside, constraints


class Member:
    """A component or an alternative: its name, type, need and default, and where it stands: 0 in the root, 1 as an addition, 2 in the
    root behind the second mark, or in a group, with its number."""

    def __init__(self, name, of, need, place, group):
        self.name, self.of, self.need, self.place, self.group = name, of, need, place, group


class Fields(dict):
    """The types of a class's fields, what stands for those that may be left out, and the syntax of its objects; none where it has none."""

    def __init__(self):
        super().__init__()
        self.defaults, self.syntax = {}, None


class Module:
    def __init__(self, name):
        self.name, self.tagging, self.imports = name, "EXPLICIT", {}
        self.implies_marks = False
        self.types, self.values, self.classes, self.objects = {}, {}, {}, {}


def classes_of(texts):
    """The names of all classes: those with fields, and further names of them."""
    text = "\n".join([CLASSES, *texts])
    found = set(re.findall(r"(\S+)\s*::=\s*CLASS\b", text))
    while more := {name for name, of in re.findall(r"(\S+)\s*::=\s*([\w-]+)(?=\s)", text) if of in found} - found:
        found |= more
    return found


def tokens(text):
    while (shorter := BLOCK.sub(" ", text)) != text:
        text = shorter
    return [it["t"] for it in TOKEN.finditer(text.lstrip("\ufeff")) if it["t"]]


class Parser:
    """The modules of a text, by X.680's grammar as far as oergen reads it."""

    def __init__(self, text, classes):
        self.all, self.at, self.classes, self.module = tokens(text), 0, classes, None

    def peek(self, ahead=0):
        return self.all[self.at + ahead] if self.at + ahead < len(self.all) else ""

    def next(self):
        self.at += 1
        return self.all[self.at - 1]

    def eats(self, *words):
        if self.all[self.at : self.at + len(words)] == list(words):
            self.at += len(words)
            return True
        return False

    def expects(self, word):
        if self.next() != word:
            raise ValueError(f"{' '.join(self.all[max(0, self.at - 12):self.at])}: not {word!r}")

    def skip(self):
        """Passes over brackets; what stands in them."""
        start, depth = self.at, 0
        while True:
            word = self.next()
            depth += (word in ("{", "(", "[", "[[")) - (word in ("}", ")", "]", "]]"))
            if depth == 0:
                return self.all[start + 1 : self.at - 1]

    def modules(self):
        while self.peek():
            self.module = Module(self.next())
            if self.peek() == "{":
                self.skip()
            self.expects("DEFINITIONS")
            if self.peek() in ("AUTOMATIC", "IMPLICIT", "EXPLICIT"):
                self.module.tagging = self.next()
                self.expects("TAGS")
            self.module.implies_marks = self.eats("EXTENSIBILITY", "IMPLIED")
            self.expects("::=")
            self.expects("BEGIN")
            self.front()
            while not self.eats("END"):
                self.assignment()
            yield self.module

    def front(self):
        if self.eats("EXPORTS"):
            while self.next() != ";":
                pass
        if self.eats("IMPORTS"):
            while not self.eats(";"):
                names = [self.next()]
                while not self.eats("FROM"):
                    if self.peek() == "{":
                        self.skip()
                    elif not self.eats(","):
                        names.append(self.next())
                home = self.next()
                if self.peek() == "{":
                    self.skip()
                _ = self.eats("WITH", "SUCCESSORS") or self.eats("WITH", "DESCENDANTS")
                self.module.imports.update((name, home) for name in names)

    def assignment(self):
        name = self.next()
        dummies = []
        if self.eats("{"):
            while not self.eats("}"):
                dummies.append(self.dummy())
                self.eats(",")
        if name[0].islower():
            is_object = self.peek() in self.classes
            of = self.type()
            self.expects("::=")
            if is_object:
                self.module.objects[name] = (of.inside[:2], self.skip())
                return
            self.module.values[name] = (of, self.value())
        elif self.peek() == "::=" and name in self.classes and self.peek(1) != "CLASS":
            self.next()
            self.module.classes[name] = self.name()
        elif self.eats("::=", "CLASS"):
            self.module.classes[name] = self.fields()
            if self.eats("WITH", "SYNTAX"):
                self.module.classes[name].syntax = self.skip()
        elif self.eats("::="):
            self.module.types[name] = (dummies, self.type())
        else:
            is_objects = self.peek() in self.classes
            of = self.type()
            self.expects("::=")
            if is_objects:
                self.skip()
                return
            self.expects("{")
            of.constraints.append(self.marked("}"))
            self.module.types[name] = (dummies, of)

    def dummy(self):
        """A dummy's name, and the type that governs it, where one does."""
        governor = None
        if self.peek(1) != ":" and self.peek() not in ("{", "}", ","):
            start = self.at
            if self.peek(1) in (",", "}"):
                return self.next(), None
            governor = self.type()
            if self.peek() != ":":
                raise ValueError(f"{' '.join(self.all[start:self.at])}: no governor")
        elif self.peek() in self.classes:
            self.next()
        else:
            governor = self.type()
        self.expects(":")
        return self.next(), governor

    def name(self):
        """A name, and its module's where that stands in front."""
        home = self.next() if self.peek(1) == "." and self.peek(2)[0].isalpha() else None
        if home:
            self.expects(".")
        return home, self.next()

    def fields(self):
        """The types of a class's fields (X.681, 9 and 14): nothing where it is an open type, since the field is a type, or values of another's."""
        fields = Fields()
        self.expects("{")
        while not self.eats("}"):
            name = self.next()
            fields[name] = None
            if self.peek().startswith("&"):
                self.next()
            elif self.peek() not in (",", "}", "OPTIONAL", "DEFAULT"):
                fields[name] = self.type()
            while self.peek() in ("UNIQUE", "OPTIONAL"):
                self.next()
            if self.eats("DEFAULT"):
                fields.defaults[name] = self.setting({",", "}"})
            self.eats(",")
        return fields

    def setting(self, ends):
        """What stands in front of the ends."""
        start = self.at
        while self.peek() and self.peek() not in ends:
            if self.peek() in ("(", "{"):
                self.skip()
            else:
                self.next()
        return self.all[start : self.at]

    def type(self):
        tags = []
        while self.eats("["):
            kind = self.next() if self.peek() in ("UNIVERSAL", "APPLICATION", "PRIVATE") else ""
            tags.append((kind, self.value()))
            self.expects("]")
            _ = self.eats("IMPLICIT") or self.eats("EXPLICIT")
        sort, inside = self.body()
        of = Type(self.module, tags, sort, inside, [])
        while self.peek() == "(" and self.peek(1) != "{":
            of.constraints.append(self.constraint())
        return of

    def body(self):
        word = self.next()
        if word in ("OCTET", "BIT", "OBJECT", "EMBEDDED", "CHARACTER"):
            word += " " + self.next()
        word = OTHER_NAMES.get(word, word)
        if word in ("INTEGER", "BIT STRING"):
            return word, self.numbers() if self.peek() == "{" else []
        if word in SIMPLE:
            return word, None
        if word == "ENUMERATED":
            values = self.numbers()
            is_marked = any(name is None for name, _ in values)
            return word, values if is_marked or not self.module.implies_marks else [*values, (None, None)]
        if word in ("SEQUENCE", "SET") and self.peek() != "{":
            if self.eats("SIZE") or self.peek() == "(":
                self.skip()
            self.expects("OF")
            return word + " OF", self.type()
        if word in PARTS:
            return word, self.members()
        if word in ASSOCIATED:
            parser = Parser(ASSOCIATED[word], self.classes)
            parser.module = Module(self.module.name)
            return "INSTANCE OF", parser.type()
        if word == "INSTANCE":
            self.expects("OF")
            return "INSTANCE OF", self.instance(*self.name())
        self.at -= 1
        home, name = self.name()
        if self.peek() == "." and self.peek(1).startswith("&"):
            names = []
            while self.eats("."):
                names.append(self.next())
            if self.peek() == "(" and self.peek(1) == "{":
                self.skip()
            return "FIELD", (home, name, names)
        return "NAME", (home, name, self.actual() if self.peek() == "{" else [])

    def instance(self, home, name):
        """The associated type of INSTANCE OF a class (X.681, annex C)."""
        if self.peek() == "(" and self.peek(1) == "{":
            self.skip()
        number = [("", ("number", 0, self.module))]
        one = Type(self.module, [], "FIELD", (home, name, ["&id"]), [])
        two = Type(self.module, number, "FIELD", (home, name, ["&Type"]), [])
        members = [Member("type-id", one, "required", 0, None), Member("value", two, "required", 0, None)]
        return Type(self.module, [("UNIVERSAL", ("number", 8, self.module))], "SEQUENCE", members, [])

    def actual(self):
        """Actual parameters: types and values; what is between braces as it is written, since its governor says what it is."""
        found = []
        self.expects("{")
        while not self.eats("}"):
            if self.peek() == "{":
                start = self.at
                self.skip()
                found.append(("braces", self.all[start : self.at], self.module))
            elif self.peek()[0].isupper() and self.peek() not in ("TRUE", "FALSE"):
                found.append(("type", self.type()))
            else:
                found.append(("value", self.value()))
            self.eats(",")
        return found

    def numbers(self):
        """Names with their numbers; a mark is None."""
        found = []
        self.expects("{")
        while not self.eats("}"):
            name = None if self.eats("...") else self.next()
            number = None
            if self.eats("("):
                number = self.value()
                self.expects(")")
            found.append((name, number))
            self.eats(",")
        return found

    def members(self):
        found, marks, groups, in_group = [], 0, 0, False
        self.expects("{")
        while not self.eats("}"):
            if self.eats(","):
                continue
            if self.eats("..."):
                marks += 1
                self.exception()
                found.append(Member(None, None, None, marks, None))
            elif self.eats("[["):
                groups, in_group = groups + 1, True
                if self.peek(1) == ":":
                    self.at += 2
            elif self.eats("]]"):
                in_group = False
            elif self.eats("COMPONENTS", "OF"):
                found.append(Member(None, self.type(), "COMPONENTS", marks, None))
            else:
                name, of, need = self.next(), self.type(), "required"
                if self.eats("OPTIONAL"):
                    need = "optional"
                elif self.eats("DEFAULT"):
                    need = self.value()
                found.append(Member(name, of, need, marks, groups if in_group else None))
        if self.module.implies_marks and marks == 0:  # X.680, 13.4
            found.append(Member(None, None, None, 1, None))
        return found

    def value(self):
        """A value: its sort, what it says, and the module that it stands in."""
        word = self.next()
        if word == "{":
            found = []
            while not self.eats("}"):
                found.append(self.next())
                self.eats(",")
            return "names", found, self.module
        if word == "-":
            return "number", -int(self.next()), self.module
        if word.isdigit():
            return "number", int(word), self.module
        if word[0] in "\"'" or word in ("TRUE", "FALSE", "NULL"):
            return "text", word, self.module
        if word[0].isupper():
            self.expects(".")
            return "name", (word, self.next()), self.module
        if self.peek() == "." and self.peek(1).startswith("&"):
            self.next()
            return "field", (word, self.next()), self.module
        return "name", (None, word), self.module

    def exception(self):
        """Passes over what is said of exceptions (X.680, 53)."""
        if self.eats("!"):
            while self.peek() not in (",", ")", "}"):
                self.next()

    def constraint(self):
        self.expects("(")
        return self.marked(")")

    def marked(self, close):
        """A set of values, and whether it has an extension mark."""
        found = self.union()
        has_mark = self.eats(",")
        if has_mark:
            self.expects("...")
            if self.eats(","):
                self.union()
        self.exception()
        self.expects(close)
        return found, has_mark

    def union(self):
        found = [self.intersection()]
        while self.eats("|") or self.eats("UNION"):
            found.append(self.intersection())
        return "union", found

    def intersection(self):
        found = [self.element()]
        while self.eats("^") or self.eats("INTERSECTION"):
            found.append(self.element())
        return "intersection", found

    def element(self):
        found = None if self.eats("ALL") else self.unit()
        if self.eats("EXCEPT"):
            self.unit()
        return found

    def unit(self):
        """An element: a set, a size, a range or a type; nothing of what X.696, 8.2 doesn't see."""
        word = self.peek()
        if word == "(":
            return self.constraint()[0]
        if self.eats("SIZE"):
            return "size", *self.constraint()
        if word in ("FROM", "WITH"):
            while self.peek() not in ("(", "{"):
                self.next()
            self.skip()
            return None
        if word in ("CONTAINING", "CONSTRAINED"):
            while self.peek() != ")":
                if self.peek() in ("(", "{"):
                    self.skip()
                else:
                    self.next()
            return None
        if word[0].isupper() and word not in ("MIN", "TRUE", "FALSE", "NULL") and not (self.peek(1) == "." and self.peek(2)[0].islower()):
            return "type", self.type()
        low = None if self.eats("MIN") else self.value()
        past = self.eats("<")
        if not self.eats(".."):
            return "range", low, low, 0, 0
        below = self.eats("<")
        high = None if self.eats("MAX") else self.value()
        return "range", low, high, int(past), int(below)


class Limits:
    """From, to and whether an extension mark is there (X.696, 8.2)."""

    def __init__(self, low=None, high=None, mark=False):
        self.low, self.high, self.mark = low, high, mark

    def join(self, other):
        low = None if None in (self.low, other.low) else min(self.low, other.low)
        high = None if None in (self.high, other.high) else max(self.high, other.high)
        return Limits(low, high, self.mark or other.mark)

    def meet(self, other):
        lows = [it for it in (self.low, other.low) if it is not None]
        highs = [it for it in (self.high, other.high) if it is not None]
        return Limits(max(lows, default=None), min(highs, default=None), self.mark or other.mark)

    def fixed(self):
        return self.low if self.low is not None and self.low == self.high and not self.mark else None

    def text(self):
        if (self.low, self.high, self.mark) == (None, None, False):
            return ""
        low = "MIN" if self.low is None else self.low
        return f" ({low}..{'MAX' if self.high is None else self.high}{', ...' if self.mark else ''})"

    def width(self):
        """How many octets an INTEGER has, None behind a length, and whether they are signed (X.696, 10)."""
        if self.mark or self.low is None or (self.low < 0 and self.high is None):
            return None, True
        if self.low >= 0:
            found = [it for it in (1, 2, 4, 8) if self.high is not None and self.high < 2 ** (8 * it)]
            return (found[0] if found else None), False
        found = [it for it in (1, 2, 4, 8) if self.low >= -(2 ** (8 * it - 1)) and self.high < 2 ** (8 * it - 1)]
        return (found[0] if found else None), True


def octets(count):
    return {0: "no octets", 1: "1 octet"}.get(count, f"{count} octets")


class World:
    """All modules. A type stands with its surroundings: what the parameters around it stand for."""

    def __init__(self, modules):
        self.modules = {it.name: it for it in modules}
        self.classes = {name for it in modules for name in it.classes} | {"TYPE-IDENTIFIER", "ABSTRACT-SYNTAX"}
        self.built_in = next(Parser(f"B DEFINITIONS ::= BEGIN {CLASSES} END", self.classes).modules())

    def home(self, module, home, name):
        """The module in which a name is assigned, past those that import it themselves (X.680, 13.16)."""
        found = self.modules[home or module.imports.get(name) or module.name]
        for _ in self.modules:
            found = self.modules[found.imports.get(name) or found.name]
        return found

    def class_of(self, module, home, name, around):
        """The module of a class with its fields, past further names of it."""
        if home is None and name in around:
            _, of, around = around[name]
            return self.class_of(of.module, *of.inside[:2], around)
        if name in self.built_in.classes:
            return module, self.built_in.classes[name]
        found = self.home(module, home, name)
        of = found.classes[name]
        return (found, of) if isinstance(of, dict) else self.class_of(found, *of, {})

    def given(self, dummies, actual, around):
        """What stands for each dummy, and where: of values between braces their type, with a constraint (X.683, 9)."""
        found = {}
        for (dummy, governor), it in zip(dummies, actual):
            if it[0] != "braces":
                found[dummy] = (it[0], it[1], around)
            elif governor:
                parser = Parser("", self.classes)
                parser.all, parser.module = it[1], it[2]
                parser.expects("{")
                constraint = parser.marked("}")
                of = Type(governor.module, governor.tags, governor.sort, governor.inside, [*governor.constraints, constraint])
                found[dummy] = ("type", of, {**found, **around})
        return found

    def step(self, of, around):
        """What a name of a type, a parameter or a field of a class stands for; whether that is a name by itself."""
        if of.sort == "INSTANCE OF":
            return of.inside, around, False
        if of.sort == "FIELD":
            home, name, fields = of.inside
            module, found, within = of.module, None, around
            for field in fields:
                module, fields_of = self.class_of(module, home, name, within)
                found = fields_of[field]
                if found is None:
                    return Type(module, [], "ANY", None, []), {}, False
                within = {}
                if found.sort == "NAME":
                    home, name, _ = found.inside
            return found, {}, False
        home, name, actual = of.inside
        if home is None and name in around:
            return (*around[name][1:], False)
        dummies, found = self.home(of.module, home, name).types[name]
        return found, self.given(dummies, actual, around), not dummies

    def chain(self, of, around):
        found = [(of, around)]
        while of.sort in NAMES:
            of, around, _ = self.step(of, around)
            found.append((of, around))
        return found

    def base(self, of, around):
        return self.chain(of, around)[-1]

    def number(self, value, around, names=()):
        sort, said, module = value
        if sort == "field":
            return self.field_number(value, around)
        if sort != "name":
            return said
        home, name = said
        for own, number in names:
            if own == name and number:
                return self.number(number, around)
        if home is None and name in around:
            return self.number(around[name][1], around[name][2])
        of, found = self.home(module, home, name).values[name]
        base = self.base(of, {})[0]
        return self.number(found, {}, base.inside if base.sort in ("INTEGER", "ENUMERATED") else ())

    def settings(self, syntax, tokens):
        """What each field of an object is set to, by the syntax of its class (X.681, 10 and 11)."""
        parser, found = Parser("", self.classes), {}
        parser.all = tokens
        words = {it for it in syntax if it[0] not in "&["} | {","}

        def take(items):
            at = 0
            while at < len(items):
                if items[at] == "[":
                    depth, end = 1, at
                    while depth:
                        end += 1
                        depth += (items[end] == "[") - (items[end] == "]")
                    if parser.peek() == items[at + 1]:
                        take(items[at + 1 : end])
                    at = end
                elif items[at][0] == "&":
                    found[items[at]] = parser.setting(words)
                else:
                    parser.expects(items[at])
                at += 1

        take(syntax)
        return found

    def field_number(self, value, around):
        """The number that an object's field is."""
        _, (name, field), module = value
        if name in around:
            _, value, around = around[name]
            return self.field_number(("field", (value[1][1], field), value[2]), around)
        home = self.home(module, None, name)
        (of_home, of), tokens_of = home.objects[name]
        class_home, fields = self.class_of(home, of_home, of, {})
        syntax = fields.syntax
        if syntax is None:
            found = dict(zip((it for it in tokens_of if it[0] == "&"), " ".join(tokens_of).split(",")))
            found = {one: it.split()[1:] for one, it in found.items()}
        else:
            found = self.settings(syntax, tokens_of)
        parser = Parser("", self.classes)
        parser.module = home if field in found else class_home
        parser.all = found.get(field) or fields.defaults[field]
        return self.number(parser.value(), {})

    def see(self, element, around, names, of_sizes):
        """The limits of a set; None where it isn't seen."""
        if element is None:
            return None
        sort = element[0]
        if sort == "union":
            found = [self.see(it, around, names, of_sizes) for it in element[1]]
            if None in found:
                return None
            whole = found[0]
            for it in found[1:]:
                whole = whole.join(it)
            return whole
        if sort == "intersection":
            found = [it for it in (self.see(it, around, names, of_sizes) for it in element[1]) if it]
            whole = found[0] if found else None
            for it in found[1:]:
                whole = whole.meet(it)
            return whole
        if sort == "size":
            found = self.see(element[1], around, names, False) if of_sizes else None
            return found and Limits(found.low, found.high, found.mark or element[2])
        if sort == "type":
            return self.limits(element[1], around, of_sizes)
        if of_sizes:
            return None
        _, low, high, past, below = element
        low = None if low is None else self.number(low, around, names) + past
        return Limits(low, None if high is None else self.number(high, around, names) - below)

    def limits(self, of, around, of_sizes):
        chain = self.chain(of, around)
        base = chain[-1][0]
        names = base.inside if base.sort == "INTEGER" else ()
        whole = Limits()
        for one, around_one in reversed(chain):
            for found, mark in one.constraints:
                seen = self.see(found, around_one, names, of_sizes)
                if seen:
                    met = whole.meet(seen)
                    whole = Limits(met.low, met.high, seen.mark or mark)
        return whole

    def layout(self, of, around):
        base, _ = self.base(of, around)
        if base.sort == "INTEGER":
            limits = self.limits(of, around, False)
            width, is_signed = limits.width()
            return f"INTEGER{limits.text()}, {'signed' if is_signed else 'unsigned'}, {octets(width) if width else 'behind a length'}"
        if base.sort == "BIT STRING":
            limits = self.limits(of, around, True)
            fixed = limits.fixed()
            behind = "behind a length and the count of unused bits" if fixed is None else octets((fixed + 7) // 8)
            # X.680, 22.7, and X.696, 13.3: where bits have names 0 bits are added and removed at the end, as the size lets them be
            names = ", named bits" if base.inside and fixed is None else ""
            return f"BIT STRING{limits.text()}{names}, {behind}"
        if base.sort in SIMPLE:
            unit = SIMPLE[base.sort][1]
            limits = self.limits(of, around, True) if unit else Limits()
            fixed = limits.fixed()
            name = {"ANY": "open type"}.get(base.sort, base.sort)
            plain = {"BOOLEAN": "1 octet", "NULL": "no octets"}.get(base.sort, "behind a length")
            return f"{name}{limits.text()}, {plain if fixed is None else octets(fixed * unit)}"
        behind = {
            "ENUMERATED": ", 1 octet from 0 to 127, else a count and signed octets",
            "SEQUENCE OF": ", a quantity and elements",
            "SET OF": ", a quantity and elements",
        }
        return base.sort + behind.get(base.sort, "")

    def tag(self, of, around):
        """The outermost tag that is written, or the universal one (X.680, 31 and table 1)."""
        chain = self.chain(of, around)
        for one, around_one in chain:
            if one.tags:
                kind, number = one.tags[0]
                return kind, self.number(number, around_one)
        sort = chain[-1][0].sort
        number = UNIVERSAL.get(sort) or SIMPLE.get(sort, (None,))[0]
        return None if number is None else ("UNIVERSAL", number)

    def rows(self, of, around):
        """The components or alternatives, each with its surroundings and its tag (X.680, 25.3 to 25.9)."""
        found = []
        for it in of.inside:
            if it.need == "COMPONENTS":
                base = self.base(it.of, around)
                found += [(Member(one.name, one.of, one.need, it.place, None), within) for one, within, _ in self.rows(*base) if one.place != 1]
            elif it.name:
                found.append((it, around))
        is_tagged = any(it.name and it.of.tags for it in of.inside)
        if of.module.tagging == "AUTOMATIC" and not is_tagged:
            order = sorted(range(len(found)), key=lambda at: found[at][0].place == 1)
            tags = {at: ("", number) for number, at in enumerate(order)}
            return [(it, within, tags[at]) for at, (it, within) in enumerate(found)]
        return [(it, within, self.tag(it.of, within)) for it, within in found]

    def enumerated(self, items, around):
        """The numbers of an ENUMERATED (X.680, 20)."""
        mark = next((at for at, (name, _) in enumerate(items) if name is None), len(items))
        root, more = items[:mark], items[mark + 1 :]
        taken = {self.number(number, around) for _, number in root if number}
        found = []
        for name, number in root:
            if number is None:
                least = next(it for it in range(len(items) + 1) if it not in taken)
                taken.add(least)
            found.append((name, least if number is None else self.number(number, around), False))
        last = None
        for name, number in more:
            if number is None:
                at = 0 if last is None else last + 1
                while at in taken:
                    at += 1
            else:
                at = self.number(number, around)
            last = at
            found.append((name, at, True))
        return found


def camel(name):
    return "".join(it[:1].upper() + it[1:] for it in name.split("-"))


def snake(name):
    found = re.sub(r"(?<=[a-z0-9])(?=[A-Z])", "_", name).replace("-", "_").lower()
    return f"r_{found}" if found in KEYWORDS else found


class Listing:
    """The types with their Rust names and the lines of each in the table."""

    def __init__(self, world):
        self.world, self.pending, self.places, self.written = world, [], {}, {}
        for module in world.modules.values():
            for name, (dummies, of) in module.types.items():
                if not dummies:
                    self.places[id(of)] = len(self.pending)
                    self.pending.append([camel(name), module, of, {}])
        self.part_names()
        self.lines, self.printed = {}, {}
        at, taken = 0, set()
        while at < len(self.pending):
            while self.pending[at][0] in taken:
                self.pending[at][0] += "_"
            taken.add(self.pending[at][0])
            at += 1
            self.define(*self.pending[at - 1])

    def part_names(self):
        homes = {}
        for name, module, *_ in self.pending:
            homes.setdefault(name, set()).add(module.name)
        for one in self.pending:
            if len(homes[one[0]]) > 1:
                one[0] = f"{camel(one[1].name)}_{one[0]}"

    def part(self, owner, module, of, around, name):
        """The lists around a type, and how the type within is named: a place among the types, or none."""
        lists = []
        while True:
            while of.sort in NAMES:
                found, within, is_name = self.world.step(of, around)
                if is_name:
                    return lists, self.places[id(found)], (of, around)
                inner = (of, around) if not lists or of.constraints else None
                of, around = found, within
                if inner and inner[0].constraints and of.sort not in (*NAMES, *PARTS, "SEQUENCE OF", "SET OF"):
                    return lists, None, inner
            if of.sort not in ("SEQUENCE OF", "SET OF"):
                break
            lists.append(of.sort)
            of = of.inside
        if of.sort in PARTS and (lists or name):
            rust = owner + camel(name or "item")
            if (rust, id(of)) not in self.written:
                self.written[rust, id(of)] = len(self.pending)
                self.pending.append([rust, module, of, around])
            return lists, self.written[rust, id(of)], (of, around)
        return lists, None, (of, around)

    def flat(self, of, around, rust, module, front=""):
        """The alternatives of a CHOICE, and whether it has a mark: those of a choice without a tag in its place, with its name and a hyphen
        in front (X.680, 31; X.696, 20). Each with the type that it is written in."""
        found, has_mark = [], any(it.name is None for it in of.inside)
        for it, within, tag in self.world.rows(of, around):
            if tag:
                found.append((Member(front + it.name, it.of, it.need, it.place, it.group), within, tag, (rust, module, it.name)))
                continue
            inner, within_inner, home = it.of, within, (rust + camel(it.name), module)
            while inner.sort in NAMES:
                inner, within_inner, is_name = self.world.step(inner, within_inner)
                if is_name:
                    home = self.pending[self.places[id(inner)]][:2]
            more, mark = self.flat(inner, within_inner, *home, f"{front}{it.name}-")
            found, has_mark = found + more, has_mark or mark
        return found, has_mark

    def placed(self, base, within, rust, module):
        """The components of a SEQUENCE or a SET: in a SET a choice without a tag has the least one of its root alternatives (X.696, 18)."""
        for it, around, tag in self.world.rows(base, within):
            if tag is None and base.sort == "SET" and it.place != 1:
                classes = ("UNIVERSAL", "APPLICATION", "", "PRIVATE")
                alternatives, _ = self.flat(*self.world.base(it.of, around), "", module)
                tag = min((one[2] for one in alternatives if one[0].place != 1), key=lambda own: (classes.index(own[0]), own[1]))
            yield it, around, tag, (rust, module, it.name)

    def define(self, rust, module, of, around):
        world = self.world
        base, within = of, around
        while base.sort in NAMES:
            found, next_around, is_name = world.step(base, within)
            if is_name:
                break
            base, within = found, next_around
        head, lines, rows = f"{rust} of {module.name}: ", [], []
        if base.sort not in PARTS:
            lists, target, inner = self.part(rust, module, of, around, None)
            head = (head, lists, target, world.layout(*inner), "")
            self.lines[rust] = (head, lines)
            self.printed[rust] = ("alias", lists, target, (of, around))
            return
        if base.sort == "ENUMERATED":
            has_mark = any(name is None for name, _ in base.inside)
            values = world.enumerated(base.inside, within)
            lines += [f"    {name} = {number}{', addition' if more else ''}" for name, number, more in values]
            head = (head, [], None, world.layout(base, within), ", extensible" if has_mark else "")
            self.printed[rust] = ("ENUMERATED", values)
        else:
            has_mark = any(it.name is None and it.need is None for it in base.inside)
            rows = list(self.placed(base, within, rust, module)) if base.sort != "CHOICE" else []
            if base.sort == "CHOICE":
                rows, has_mark = self.flat(base, within, rust, module)
            else:
                bits = has_mark + sum(it.place != 1 and it.need != "required" for it, *_ in rows)
                lines.append(f"    preamble: {octets((bits + 7) // 8)}, {'with' if has_mark else 'without'} an extension bit")
            head = (head, [], None, base.sort, ", extensible" if has_mark and base.sort == "CHOICE" else "")
            cells = []
            for it, around_it, tag, (owner, home, name) in rows:
                part = self.part(owner, home, it.of, around_it, name)
                text = "no tag" if tag is None else f"[{tag[0]}{' ' if tag[0] else ''}{tag[1]}]"
                place = "" if it.place != 1 else f" group {it.group}" if it.group else " addition"
                need = "" if base.sort == "CHOICE" else f" {self.need(it, around_it)}"
                layout = world.layout(*part[2])
                lines.append((f"    {snake(it.name)} {text}{place}{need}: ", part[0], part[1], layout))
                cells.append((it, part, (it.of, around_it), tag))
            self.printed[rust] = (base.sort, cells, has_mark)
        self.lines[rust] = (head, lines)

    def need(self, it, around):
        if isinstance(it.need, str):
            return it.need
        return f"default {self.default(it.of, around, it.need)}"

    def default(self, of, around, value):
        base, _ = self.world.base(of, around)
        if base.sort == "INTEGER":
            return self.world.number(value, around, base.inside)
        while value[0] == "name" and not (base.sort == "ENUMERATED" and any(value[1][1] == it for it, _ in base.inside)):
            home, name = value[1]
            if home is None and name in around:
                value, around = around[name][1:]
            else:
                value, around = self.world.home(value[2], home, name).values[name][1], {}
        if value[0] == "names":
            return "{" + ", ".join(value[1]) + "}"
        return value[1][1] if value[0] == "name" else value[1]

    def block(self, rust):
        """A type's lines as the table has them."""
        (head, lists, target, layout, mark), lines = self.lines[rust]
        found = [head + self.said(lists, target, layout) + mark]
        return found + [it if isinstance(it, str) else it[0] + self.said(*it[1:]) for it in lines]

    def said(self, lists, target, layout):
        name = "" if target is None else self.pending[target][0] + ", "
        return "".join(f"{it} " for it in lists) + name + layout
