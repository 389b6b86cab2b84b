"""The calls of crates/test_memory with what each has to answer, typed by hand from docs/ENCODING.md, X.696 and X.690.

A row is a type's word, octets, the value that is read of the whole of them in each mode or the name of the refusal, and the
canonical octets of that value. Each row goes through each call, where the word names constraints through the calls that take
them; a call of one type has a line of its own.
"""

class Row:
    """Octets of a type, and what is read of them."""

    def __init__(self, word, octets, lenient, strict=None, canonical=None, is_own=True):
        self.word, self.octets, self.is_own = word, octets.replace(" ", ""), is_own
        self.read = {"oer": lenient, "coer": strict or lenient}
        self.canonical = (canonical or octets).replace(" ", "")

    def is_refused(self, mode):
        return self.read[mode] in REFUSALS


REFUSALS = {
    "Incomplete", "NotValidCanonicalEncoding", "TooManyEmptyElements", "InvalidObjectIdentifier", "InvalidTime",
    "PermittedAlphabetError",
}  # fmt: skip
STRICT = "NotValidCanonicalEncoding"


def number(n):
    """An Integer, as it is printed."""
    if -(2**127) <= n < 2**127:
        return f"Integer {{ number: Small({n}) }}"
    octets = n.to_bytes(n.bit_length() // 8 + 1, "big", signed=True)
    return f"Integer {{ number: Large({list(octets)}) }}"


def octets(text):
    """An octet string of printable octets."""
    return f'OctetContent {{ octets: b"{text}", kind: PhantomData<_> }}'


def text(codes):
    """A character string of these octets."""
    return f"RestrictedString {{ octets: {list(codes)}, set: PhantomData<_> }}"


def hexed(words):
    return words.encode().hex()


GREAT = 256**127 - 1
# that number, and as an open type
G = "81 80 00" + " ff" * 127
OPEN_G = "81 82" + G
GROUP7 = "Addition7Components {{ e: {}, f: {} }}"
EXTENDED = (
    "ExtendedOptional {{ value: {}, integer1: None, octet1: None, integer2: None, octet2: None, integer3: None, octet3: None, "
    "integer4: Some({}), octet4: Some({}), integer5: None, octet5: None }}"
)
NODE = "Node(Node {{ value: {}, next: {}, last: {} }})"
LINK = "Link(Link {{ a: Some({}), b: {} }})"
TOP = "TopLevel(TopLevel {{ test: {}, choice: {} }})"
NEST = "Nest([%s])"
BUSH = "Bush(Bush {{ a: {}, b: [{}] }})"
CHAIN = "Chain(Chain {{ ok: {}, next: {} }})"
SEQ2 = "Sequence2 {{ a: {}, b: {}, c: {} }}"
MOST = "[" + ", ".join(["()"] * 65536) + "]"

ROWS = [
    # integers
    Row("int", "02 ff 01", number(-255)),
    Row("int", G, number(GREAT)),
    # both versions of a sequence with additions, and one within another
    Row("seq2", "80 ff 02 06 c0 01 ff 01 ff", SEQ2.format("true", "Some(true)", "Some(true)")),
    Row("seq1", "80 ff 02 06 c0 01 ff 01 ff", "Sequence1 { a: true }", canonical="00 ff"),
    Row("outer", "80 ff 02 07 80 07 80 ff 02 06 80 01 ff", "Outer { a: true, b: Some(%s) }" % SEQ2.format("true", "Some(true)", "None")),
    # an older version's default, which a newer version spells out
    Row("holder1", "80 80 ff 02 07 80 01 ff", "Holder1 { a: Sequence1 { a: true } }", STRICT, "00"),
    # unordered lists, a set, and lists of nothing
    Row("intset", "01 03 01 02 01 01 01 ff", f"SetOf {{ items: [{number(2)}, {number(1)}, {number(-1)}] }}", STRICT, "01 03 01 01 01 02 01 ff"),
    Row("intset", "01 02 01 02 01 01", f"SetOf {{ items: [{number(2)}, {number(1)}] }}", STRICT, "01 02 01 01 01 02"),
    Row("foo", "e0 01 07 01 06 01 05", f"Foo {{ a: Some({number(5)}), b: Some({number(6)}), c: Some({number(7)}) }}"),
    Row("nulls", "03 01 00 00", MOST),
    Row("nulls", "03 01 00 01", "TooManyEmptyElements"),
    Row("ints", "08 7f ff ff ff ff ff ff ff", "Incomplete"),
    Row("bag2", "01 02 00 ff 80 00 02 06 80 01 ff", f"SetOf {{ items: [{SEQ2.format('true', 'None', 'None')}, {SEQ2.format('false', 'Some(true)', 'None')}] }}"),
    Row("bag1", "01 02 00 ff 80 00 02 06 80 01 ff", "SetOf { items: [Sequence1 { a: true }, Sequence1 { a: false }] }", canonical="01 02 00 00 00 ff"),
    # identifiers
    Row("oid", "03 2a 99 79", "ObjectIdentifier { arcs: [1, 2, 3321] }"),
    Row("oid", "05 90 80 80 80 4f", "ObjectIdentifier { arcs: [2, 4294967295] }"),
    Row("oid", "05 90 80 80 80 50", "InvalidObjectIdentifier"),
    Row("oid", "02 80 01", "InvalidObjectIdentifier"),
    # times
    Row("gentime", "13" + hexed("20801009130005.342Z"), "GeneralizedTime { value: 2080-10-09T13:00:05.342 }"),
    Row("date", "08" + hexed("20240229"), "Date { value: 2024-02-29 }"),
    Row("date", "08" + hexed("20230229"), "InvalidTime"),
    # a set with an addition
    Row("mixset", "e0 01 03 01 05 ff 02 07 80 01 00", f"MixedSet {{ x: true, y: Some({number(5)}), z: {number(3)}, n: Some(false) }}"),
    # what those don't reach
    Row("bool", "ff", "true"),
    Row("octets", "03 61 62 63", octets("abc")),
    Row("any", "03 61 62 63", octets("abc")),
    Row("bits", "03 02 ff 40", "BitString { octets: [255, 64], bits: 14 }"),
    Row("bits14", "ff 40", "BitString { octets: [255, 64], bits: 14 }", is_own=False),
    Row("utf8", "02 c3 84", '"Ä"'),
    Row("bmp", "04 00 41 00 42", text([0, 65, 0, 66])),
    Row("universal", "04 00 01 f6 00", text([0, 1, 246, 0])),
    Row("ia5", "02 41 42", text([65, 66])),
    Row("numeric", "03 31 32 61", "PermittedAlphabetError"),
    Row("utctime", "0d" + hexed("191009130005Z"), "UtcTime { value: 2019-10-09T13:00:05 }"),
    Row("enum4", "82 fc 18", "No"),
    Row("posbig", "02 00 ff", "ConstrainedInteger { number: %s, range: PhantomData<_> }" % number(255), STRICT, "01 ff"),
    Row("Boxed", "ff", "true"),
    Row("choice", "80 02 01 4d", f"Normal({number(333)})"),
    Row("choice", "82 03 02 01 4d", f"Medium({number(333)})"),
    Row("ints", "01 02 01 01 01 02", f"[{number(1)}, {number(2)}]"),
    Row("nest", "01 01 01 02 01 00 01 00", NEST % ("Bare(%s)" % (NEST % ", ".join(["Bare(%s)" % (NEST % "")] * 2)))),
    Row("SetOfOctets", "01 02 01 61 02 61 62", f"SetOf {{ items: [{octets('a')}, {octets('ab')}] }}"),
    Row("toplevel", "01 82 02 80", TOP.format(1, "Number3(Held(%s))" % TOP.format(2, "Number1(())"))),
    Row("Bush", "01 05 01 01 01 ff 01 00", BUSH.format(number(5), "Bare(%s)" % BUSH.format(number(-1), ""))),
    Row("Link", "80 01 01 81 80 01 02 80 ff", LINK.format(number(1), "B(Held(%s))" % LINK.format(number(2), "A(true)"))),
    Row("Node", "80 01 01 00 01 05 ff 00", NODE.format(number(1), "Some(Held(%s))" % NODE.format(number(5), "None", "true"), "false")),
    Row("deepdef", "80 01 00", "DeepDefault { n: %s }" % (NEST % "")),
    Row("deepdef", "00", "DeepDefault { n: %s%s%s }" % ("Nest([Bare(" * 127, NEST % "", ")])" * 127)),
    Row("Chain", "80 00 02 07 80 02 00 ff", CHAIN.format("false", "Some(Held(%s))" % CHAIN.format("true", "None"))),
    Row("seq6", "80 ff 02 07 80 02 80 ff", "Sequence6 { a: true, b: Some(Group6 { a: Some(true) }) }"),
    Row("AddDef", "80 ff 02 07 80 02 01 08", f"AddDef {{ a: true, b: {number(8)} }}"),
    Row("defint", "80 01 05", f"DefaultInteger {{ a: {number(5)} }}"),
    Row("defopt", "c0 01 01 01 03", f"DefaultAndOptional {{ a: {number(1)}, b: Some({number(3)}) }}"),
    Row("Pair", "01 01 01 02", f"Pair {{ a: {number(1)}, b: {number(2)} }}"),
    # types by the row of their components
    Row("seq3", "80 ff 02 07 80 01 ff", "Sequence3 { a: true, b: Some(Sequence4 { a: true }) }"),
    Row("seq7", "80 ff 02 04 b0 01 ff 02 01 ff 03 40 01 05",
        f"Sequence7Components {{ a: true, b: Some(true), c: None, d: Some({number(-1)}), group: Some({GROUP7.format('None', number(5))}) }}"),
    Row("seq7", f"80 ff 02 04 30 {OPEN_G} 81 83 40 {G}",
        f"Sequence7Components {{ a: true, b: None, c: None, d: Some({number(GREAT)}), group: Some({GROUP7.format('None', number(GREAT))}) }}"),
    Row("bag3", "01 02 80 00 02 04 20 02 01 01 80 00 02 04 80 01 ff", "SetOf { items: [%s, %s] }" % (
        f"Sequence7Components {{ a: false, b: None, c: None, d: Some({number(1)}), group: None }}",
        "Sequence7Components { a: false, b: Some(true), c: None, d: None, group: None }")),
    Row("mixset", f"60 {G} {G} ff", f"MixedSet {{ x: true, y: Some({number(GREAT)}), z: {number(GREAT)}, n: None }}"),
    Row("mixset2", "e0 01 03 01 05 ff 02 06 c0 01 00 02 01 61",
        f"MixedSet2 {{ x: true, y: Some({number(5)}), z: {number(3)}, n: Some(false), m: Some({octets('a')}) }}"),
    Row("mixset2", f"e0 {G} {G} ff 02 06 40 02 01 61",
        f"MixedSet2 {{ x: true, y: Some({number(GREAT)}), z: {number(GREAT)}, n: None, m: Some({octets('a')}) }}"),
    # components that take memory, of each kind of scope
    Row("MixedSet", f"60 {G} {G} ff", f"MixedSet {{ x: true, y: Some({number(GREAT)}), z: {number(GREAT)}, n: None }}"),
    Row("foo", f"e0 {G} 01 06 01 05", f"Foo {{ a: Some({number(5)}), b: Some({number(6)}), c: Some({number(GREAT)}) }}"),
    Row("defopt", f"c0 {G} {G}", f"DefaultAndOptional {{ a: {number(GREAT)}, b: Some({number(GREAT)}) }}"),
    Row("AddDef", f"80 ff 02 07 80 {OPEN_G}", f"AddDef {{ a: true, b: {number(GREAT)} }}"),
    Row("extopt", f"80 01 00 02 04 c0 {OPEN_G} 03 02 61 62", EXTENDED.format(number(0), number(GREAT), octets("ab"))),
    Row("dup", "c0 01 01 03 61 62 63 02 07 80 04 03 64 65 66",
        f"SequenceDuplicatesExtended {{ it: {number(1)}, is: Some({octets('abc')}), late: None, today: {octets('def')} }}"),
    Row("choice", f"80 {G}", f"Normal({number(GREAT)})"),
    Row("choice", f"82 {OPEN_G}", f"Medium({number(GREAT)})"),
    Row("tagmax", "bf 8f ff ff ff 7f 02 01 4d", f"Medium({number(333)})"),
    Row("Bush", f"{G} 01 01 01 ff 01 00", BUSH.format(number(GREAT), "Bare(%s)" % BUSH.format(number(-1), ""))),
    Row("Link", f"80 {G} 81 80 01 02 80 ff", LINK.format(number(GREAT), "B(Held(%s))" % LINK.format(number(2), "A(true)"))),
    Row("Node", f"80 {G} 00 01 05 ff 00", NODE.format(number(GREAT), "Some(Held(%s))" % NODE.format(number(5), "None", "true"), "false")),
    Row("ints", f"01 02 {G} {G}", f"[{number(GREAT)}, {number(GREAT)}]"),
    Row("intset", f"01 02 {G} {G}", f"SetOf {{ items: [{number(GREAT)}, {number(GREAT)}] }}"),
    # the other strings, and wrappers
    Row("numeric", "02 31 32", text([49, 50])),
    Row("printable", "02 41 42", text([65, 66])),
    Row("visible", "02 41 42", text([65, 66])),
    Row("general", "02 41 42", text([65, 66])),
    Row("graphic", "02 41 42", text([65, 66])),
    Row("teletex", "02 41 42", text([65, 66])),
    Row("HashedId3", "61 62 63", f"HashedId3({octets('abc')})"),
    Row("Positive", "01 ff", f"Positive({number(255)})"),
    Row("Negative<Integer>", "01 ff", f"Negative({number(-1)})"),
    Row("u128", "02 00 ff", "255"),
    Row("null", "", "()"),
]


class Case:
    """One call: the program's words, the answer, and what begins the line of a refusal."""

    def __init__(self, words, answer, refused="refused: OutOfMemory", is_whole=True, takes_none=False):
        self.words, self.answer, self.refused = words, answer, refused
        self.is_whole, self.takes_none = is_whole, takes_none


WRITES = ("encode", "encode_with_constraints")
READS = ("decode", "decode_with_constraints", "decode_open_type")
READS_FIRST = ("decode_with_remainder", "decode_with_options")
ON_DECODER = (
    "Decode::decode", "Decode::decode_with_tag", "Decode::decode_with_constraints",
    "Decode::decode_with_tag_and_constraints", "decode_explicit_prefix",
)  # fmt: skip


def writing(row, mode):
    """The calls that write what was read leniently, and a comparison."""
    for call in WRITES:
        yield Case((mode, call, row.word, row.octets), row.canonical)
    yield Case((mode, "encode_buf", row.word, row.octets), f"written; aabb{row.canonical}", "refused: OutOfMemory; aabb")
    yield Case((mode, "==", row.word, row.octets), "true", takes_none=True)


def reading(row, mode):
    """The calls that read; those of a decoder behind a boolean, whose rest a refusal leaves."""
    read = row.read[mode]
    is_refused = row.is_refused(mode)
    for call in READS:
        yield Case((mode, call, row.word, row.octets), f"refused: {read}" if is_refused else read)
    for call in READS_FIRST:
        yield Case((mode, call, row.word, row.octets), f"refused: {read}" if is_refused else f"{read}; ")
    if mode == "oer":
        answer = f"refused: {read}" if is_refused else f"{row.canonical}; "
        yield Case((mode, "canonicalise", row.word, row.octets), answer)
    for call in ON_DECODER:
        yield on_decoder(mode, call, row.word, row.octets, f"refused: {read}" if is_refused else read, "" if not is_refused else row.octets)


def on_decoder(mode, call, word, octets, answer, rest, takes_none=False):
    """A method of a decoder in the middle of an input, which a refusal leaves as it was."""
    return Case((mode, call, word, "ff" + octets), f"{answer}; {rest}", f"refused: OutOfMemory; {octets}", True, takes_none)


def versions():
    """Values of another version."""
    one = "Sequence1 { a: true }"
    rows = [
        ("as_older", "seq2", "80ff0206c001ff01ff", one, None),
        ("as_older", "outer", "80ff0207800780ff02068001ff", one, None),
        ("as_older", "holder2", "8080ff02078001ff", "Holder1 { a: Sequence1 { a: true } }", "refused: NotValidCanonicalEncoding"),
        ("as_older", "bag2", "010200ff800002068001ff", "SetOf { items: [Sequence1 { a: true }, Sequence1 { a: false }] }", None),
        ("as_newer", "seq2", "00ff", SEQ2.format("true", "None", "None"), None),
        ("as_newer", "holder2", "800000", "Holder2 { a: Sequence5 { a: false, b: None } }", None),
        ("as_newer", "bag2", "0102000000ff", f"SetOf {{ items: [{SEQ2.format('false', 'None', 'None')}, {SEQ2.format('true', 'None', 'None')}] }}", None),
    ]
    for call, word, octets, lenient, strict in rows:
        yield Case(("oer", call, word, octets), lenient)
        yield Case(("coer", call, word, octets), strict or lenient)


TEXT = text([65, 66])
RUST = ("i8", "i16", "i32", "i64", "i128", "isize", "u8", "u16", "u32", "u64", "u128", "usize")


def methods():
    """Methods of a decoder that no type's word names: method, octets, answer, whether it makes no request."""
    great = G.replace(" ", "")
    open_great = OPEN_G.replace(" ", "")
    rows = [
        ("new", "0102", "[255, 1, 2]", True),
        ("levels", "0102", "128", True),
        ("unknown_tag", "0102", "refused: InvalidTagVariantOnChoice", True),
        ("remaining", "0102", "[1, 2]", True),
        ("decode_bool", "ff", "true", True),
        ("decode_null", "", "()", True),
        ("decode_enumerated", "8203e8", "Yes", True),
        ("decode_octet_string", "03616263", "[97, 98, 99]", True),
        ("decode_utc_time", "0d" + hexed("191009130005Z"), "UtcTime { value: 2019-10-09T13:00:05 }", True),
        ("decode_generalized_time", "0f" + hexed("20000101000000Z"), "GeneralizedTime { value: 2000-01-01T00:00:00 }", True),
        ("decode_date", "08" + hexed("20240229"), "Date { value: 2024-02-29 }", True),
        ("decode_any", "03616263", octets("abc"), False),
        ("decode_bit_string", "0302ff40", "BitString { octets: [255, 64], bits: 14 }", False),
        ("decode_named_bits", "020780", "NamedBits { bits: BitString { octets: [128], bits: 1 } }", False),
        ("decode_integer::<Integer>", "0107", number(7), False),
        ("decode_integer::<Integer>", great, number(GREAT), False),
        ("decode_integer::<GreatPositive>", "0107", "ConstrainedInteger { number: %s, range: PhantomData<_> }" % number(7), False),
        ("decode_object_identifier", "032a9979", "ObjectIdentifier { arcs: [1, 2, 3321] }", False),
        ("decode_choice", "8002014d", f"Normal({number(333)})", False),
        ("decode_choice", "80" + great, f"Normal({number(GREAT)})", False),
        ("decode_choice", "82" + open_great, f"Medium({number(GREAT)})", False),
        ("decode_utf8_string", "024142", '"AB"', False),
        ("decode_bmp_string", "0400410042", text([0, 65, 0, 66]), False),
        ("decode_numeric_string", "023132", text([49, 50]), False),
    ]
    rows += [(f"decode_{kind}_string", "024142", TEXT, False) for kind in ("visible", "general", "graphic", "ia5", "printable", "teletex")]
    rows += [(f"decode_integer::<{kind}>", "017f", "127", True) for kind in RUST]
    for mode in ("oer", "coer"):
        for call, o, answer, takes_none in rows:
            rest = o if call in ("new", "levels", "unknown_tag", "remaining") else ""
            yield on_decoder(mode, call, "-", o, answer, rest, takes_none)
        yield on_decoder(mode, "codec", "-", "0102", mode.capitalize(), "0102", True)
        yield Case((mode, "from_tag", "-", "ff0101" + great), f"High({number(GREAT)}); ", f"refused: OutOfMemory; {great}", True)
        yield Case((mode, "from_tag", "-", "ff01090105"), "refused: InvalidTagVariantOnChoice; 0105", "", True, True)
    yield on_decoder("oer", "refuse_default", "-", "01", "()", "01", True)
    yield on_decoder("coer", "refuse_default", "-", "01", "refused: NotValidCanonicalEncoding", "01", True)


def asking():
    """Methods that ask a component, in a sequence of that component alone, and sets and lists by their methods."""
    great = G.replace(" ", "")
    ways = ("", "_with_tag", "_with_constraints", "_with_tag_and_constraints")
    elements = f"[{number(1)}, {number(GREAT)}]"
    for mode in ("oer", "coer"):
        for way in (*ways, "_with_explicit_prefix"):
            yield on_decoder(mode, "decode_optional" + way, "-", "80" + great, f"OneOptional {{ n: Some({number(GREAT)}) }}", "")
        for way in ways:
            yield on_decoder(mode, "decode_default" + way, "-", "80" + great, f"OneDefault {{ n: {number(GREAT)} }}", "")
        for way in ("with_tag_and_constraints", "with_explicit_tag_and_constraints", "default"):
            yield on_decoder(mode, f"decode_extension_addition_{way}", "-", "800207808182" + great,
                             f"OneAddition {{ n: Some({number(GREAT)}) }}", "")  # fmt: skip
        yield on_decoder(mode, "decode_set", "-", f"e0{great}01060105",
                         f"Foo {{ a: Some({number(5)}), b: Some({number(6)}), c: Some({number(GREAT)}) }}", "")  # fmt: skip
        yield on_decoder(mode, "decode_sequence_of", "int", "01020101" + great, elements, "")
        yield on_decoder(mode, "decode_set_of", "int", "01020101" + great, f"SetOf {{ items: {elements} }}", "")


def encoder():
    """Methods of an encoder whose buffer is full with one octet, which it has after a refusal too: method, what is read, what is
    appended."""
    yield Case(("encoder", "from_buffer", "-", ""), "Coer", takes_none=True)
    yield Case(("encoder", "codec", "-", ""), "Coer", takes_none=True)
    yield Case(("encoder", "output", "-", ""), "[255]", takes_none=True)
    same = {
        "bool": "ff", "null": "", "enumerated": "82fc18", "bit_string": "0302ff40", "named_bits": "020780", "octet_string": "03616263",
        "any": "03616263",
        "object_identifier": "032a9979", "utc_time": "0d" + hexed("191009130005Z"), "generalized_time": "0f" + hexed("20000101000000Z"),
        "date": "08" + hexed("20240229"), "utf8_string": "024142", "bmp_string": "0400410042", "numeric_string": "023132",
        "sequence_of": "010201010102",
    }  # fmt: skip
    same.update({f"{kind}_string": "024142" for kind in ("visible", "general", "graphic", "ia5", "printable", "teletex")})
    rows = [(f"encode_{name}", o, o) for name, o in same.items()]
    rows += [("encode_integer", o, o) for o in ("0107", "818000" + "ff" * 127)]
    rows += [
        ("encode_set_of", "01030102010101ff", "01030101010201ff"),
        ("encode_sequence", "01050103", "01050103"),
        ("encode_choice", "01050103", "810105"),
        ("encode_sequence_of_with", "01050103", "010201050103"),
        ("encode_component_with", "01050103", "0105"),
        ("encode_set", "01050103", "e001030105ff0207800100"),
    ]
    rows += [(name, "", "ff") for name in (
        "encode_component", "encode_optional_in_sequence", "encode_some", "encode_some_with_tag_and_constraints",
        "encode_default", "encode_default_with_tag_and_constraints", "encode_explicit_prefix", "Encode::encode",
        "Encode::encode_with_tag", "Encode::encode_with_constraints", "Encode::encode_with_tag_and_constraints",
    )]  # fmt: skip
    rows += [("encode_enumerated_number", "", "8203e8")]
    # a root alternative stands behind its tag as it is, one beyond the root as an open type
    rows += [("encode_alternative", "", "81ff"), ("encode_alternative_beyond_the_root", "", "b201ff")]
    # no scope is open: nothing is appended
    rows += [(name, "", "") for name in (
        "encode_none", "encode_none_with_tag", "encode_extension_addition", "encode_extension_addition_group",
        "encode_extension_addition_default", "encode_optional_addition",
    )]  # fmt: skip
    for call, read, appended in rows:
        takes_none = call in ("encode_null", "encode_none", "encode_none_with_tag")
        yield Case(("encoder", call, "-", read), f"written; ff{appended}", "refused: OutOfMemory; ff", False, takes_none)


def values():
    """Constructors and comparisons of the crates of ASN.1's values."""
    def made(call, o, answer, takes_none=False):
        return Case(("value", call, "-", o), answer, takes_none=takes_none)

    def answered(call, o, answer, takes_none=False):
        return Case(("value", call, "-", o), answer, "Err(OutOfMemory)", takes_none=takes_none)

    great = "00" + "ff" * 127
    yield made("OctetString::clone", "616263", octets("abc"))
    yield made("other_octets", "616263", octets("abc"))
    yield made("BitString::clone", "ff40", "BitString { octets: [255, 64], bits: 16 }")
    yield made("NamedBits::clone", "ff40", "NamedBits { bits: BitString { octets: [255, 64], bits: 10 } }")
    yield made("Integer::clone", "07", number(7), takes_none=True)
    yield made("Integer::clone", great, number(GREAT))
    yield made("ObjectIdentifier::clone", "2a9979", "ObjectIdentifier { arcs: [1, 2, 3321] }")
    yield made("ListOf::clone", "0102", "[1, 2]")
    yield made("SetOf::clone", "0102", "SetOf { items: [1, 2] }")
    yield made("OctetString::from_slice", "616263", octets("abc"))
    yield made("Any::from_slice", "616263", octets("abc"))
    yield made("BitString::from_octets", "ff40", "Some(BitString { octets: [255, 64], bits: 16 })")
    for kind in ("Printable", "Visible", "Ia5", "General", "Graphic", "Teletex", "Bmp"):
        yield answered(f"{kind}String::from_bytes", "4142", f"Ok({TEXT})")
    yield answered("NumericString::from_bytes", "3132", f"Ok({text([49, 50])})")
    yield answered("NumericString::from_bytes", "3141", "Err(PermittedAlphabet)")
    yield made("GeneralString::from_text", "4142", TEXT)
    yield made("BmpString::from_units", "", text([0, 65, 0, 66]))
    yield made("BmpString::to_bytes", "", "[0, 65, 0, 66]")
    yield answered("UtcTime::from_text", hexed("191009130005Z"), "Ok(UtcTime { value: 2019-10-09T13:00:05 })", True)
    yield answered("GeneralizedTime::from_text", hexed("20000101000000Z"), "Ok(GeneralizedTime { value: 2000-01-01T00:00:00 })", True)
    yield answered("Date::from_text", hexed("20240229"), "Ok(Date { value: 2024-02-29 })", True)
    yield made("UtcTime::to_text", hexed("191009130005Z"), str(list(b"191009130005Z")), True)
    yield made("GeneralizedTime::to_text", hexed("20000101000000.5Z"), str(list(b"20000101000000.5Z")), True)
    yield made("Date::to_text", hexed("20240229"), str(list(b"20240229")), True)
    refused = "Err(DecodeError { kind: OutOfMemory, codec: Coer })"
    yield Case(("value", "object_identifier_from_bytes", "-", "2a9979"), "Ok(ObjectIdentifier { arcs: [1, 2, 3321] })", refused)
    yield Case(("value", "object_identifier_as_bytes", "-", "2a9979"), "written; aa2a9979", "refused: OutOfMemory; aa", False)
    yield made("ObjectIdentifier::new", "", "Some(ObjectIdentifier { arcs: [2, 999] })", True)
    yield made("Integer::from_signed_octets", "07", f"Some({number(7)})", True)
    yield made("Integer::from_signed_octets", great, f"Some({number(GREAT)})")
    for call in ("try_from_signed_bytes", "try_from_unsigned_bytes"):
        yield Case(("value", call, "-", "07"), f"Ok({number(7)})", takes_none=True)
        yield Case(("value", call, "-", great), f"Ok({number(GREAT)})", refused)
    yield made("signed_octets", great, str([0] + [255] * 127))
    yield Case(("value", "write_signed_bytes_be", "-", great), "written; aa" + great, "refused: OutOfMemory; aa", False)
    yield Case(("value", "write_unsigned_bytes_be", "-", great), "written; aa" + "ff" * 127, "refused: OutOfMemory; aa", False)
    yield made("cmp", great, "Greater", True)
    yield made("to_i128", great, "None", True)
    ranged = "ConstrainedInteger { number: %s, range: PhantomData<_> }"
    yield made("ConstrainedInteger::new", "", ranged % number(7), True)
    yield made("ConstrainedInteger::try_new", "", "None", True)
    for call in ("try_from_signed_bytes", "try_from_unsigned_bytes"):
        yield made(f"ConstrainedInteger::{call}", "05", f"Ok({ranged % number(5)})", True)
        yield Case(("value", f"ConstrainedInteger::{call}", "-", great), f"Ok({ranged % number(GREAT)})", refused)
    yield made("i64::try_from_signed_bytes", "ff01", "Ok(-255)", True)
    yield made("u128::try_from_unsigned_bytes", "ff01", "Ok(65281)", True)
    for call, o in (
        ("i64::write_signed_bytes_be", "ff01"), ("u128::write_unsigned_bytes_be", "ff"),
        ("ConstrainedInteger::write_signed_bytes_be", "fc"), ("ConstrainedInteger::write_unsigned_bytes_be", "ff"),
    ):  # fmt: skip
        yield Case(("value", call, "-", ""), "written; aa" + o, "refused: OutOfMemory; aa", False)
    yield made("SetOf::from_vec", "0102", "SetOf { items: [1, 2] }", True)
    yield made("SetOf::len", "0102", "2", True)
    yield made("SetOf::==", "0102", "true", True)
    yield made("SetOf::to_vec", "0102", "[1, 2]")
    insert = "SetOf { items: [1, 2%s] }"
    yield Case(("value", "SetOf::insert", "-", "0102"), "(); " + insert % ", 7", "refused: OutOfMemory; " + insert % "")


# what no case calls by its own word: a row that goes through it, with a request for memory in it
THROUGH = {
    "decode_sequence": ("defopt", f"c0 {G} {G}"),
    "decode_choice_with": ("Link", f"80 {G} 81 80 01 02 80 ff"),
    "decode_sequence_of_with": ("Bush", f"{G} 01 01 01 ff 01 00"),
    "decode_set_of_with": ("intset", f"01 02 {G} {G}"),
    "decode_optional_with": ("Node", f"80 {G} 00 01 05 ff 00"),
    "decode_boxed_with": ("Node", f"80 {G} 00 01 05 ff 00"),
    "decode_extension_addition_with": ("Chain", "80 00 02 07 80 02 00 ff"),
    "keep": ("nest", "01 01 01 02 01 00 01 00"),
    "decode_extension_addition_group": ("seq7", f"80 ff 02 04 30 {OPEN_G} 81 83 40 {G}"),
}
# calls of tables, rules and options, which have no allocator
WITHOUT = {"is_oer", "is_coer", "oer", "coer", "with_depth", "apart", "set_remaining", "open_list"}
# helpers of asn1_ints in a module of its own, which the writers of its integers call
INNER = {"write_i128", "write_u128", "write_with_sign", "write_signed_u128"}


def all_cases():
    for row in ROWS:
        for mode in ("oer", "coer"):
            cases = list(reading(row, mode))
            if not row.is_refused("oer"):
                cases += writing(row, mode)
            yield from (case for case in cases if row.is_own or "_constraints" in case.words[1] or case.words[1] == "==")
    for some in (versions, methods, asking, encoder, values):
        yield from some()
