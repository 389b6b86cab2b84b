#!/usr/bin/env python3
"""Says where crates/example_printed, crates/example_recursive or crates/example_words, or the line of one in crates.txt, isn't what oergen prints of its module
in crates/oergen/data, where types of made modules are put into other crates than they should be, or crates use others than they should, or types lack names, comments, constants
or boxes that they should have, where of the published modules in scripts/v2x.d a type is left out or isn't listed as listed.txt there has it, where the types of scripts/printed.d/cycle.asn, which contain each other, aren't printed with the definitions beside it,
where other answers of a CHOICE are printed than the prover asks for, or other enums of sets of objects than they should be, where what is printed of long.asn, which has long names and wide choices, of comments, or of sets of objects isn't in the layout that `rt fmt` leaves as it is, and
where the library for C of a BOOLEAN hasn't the functions that crates/jilgomt has of `bool`, by other names.

usage: printed.py PROGRAM, for example: printed.py crates/oergen/out/oergen

It prints twice: the second time into a folder that has the files of the first.
"""
import pathlib
import re
import shutil
import subprocess
import sys
import tempfile

top = pathlib.Path(__file__).resolve().parent.parent
DATA = top / "scripts/printed.d"
PUBLISHED = top / "scripts/v2x.d"
MODULES = {"example_printed": "samples.asn", "example_recursive": "recursive.asn", "example_words": "types.asn"}
MORE = {"example_recursive": ("--keep-unknown", "--clone")}


def sequences(count):
    """So many sequences of twenty components each."""
    components = ", ".join(f"c{at} INTEGER" for at in range(20))
    return [f"S{at} ::= SEQUENCE {{ {components} }}" for at in range(count)]


CYCLE = ["Tree ::= SEQUENCE { leaves Leaves OPTIONAL }", "Leaves ::= SEQUENCE { tree Tree OPTIONAL, last NULL }"]

# types, how many of them each crate should have, and which of the crates before it each should use
CRATES = (
    ([f"N{at} ::= NULL" for at in range(81)], [40, 40, 1], [[], [], []]),
    ([f"N{at} ::= NULL" for at in range(80)] + ["Last ::= SEQUENCE { n N39 }"], [40, 40, 1], [[], [], [1]]),
    ([f"N{at} ::= NULL" for at in range(40)] + [f"M{at} ::= SEQUENCE OF N{at}" for at in range(40)] + ["Last ::= M1"], [40, 40, 1], [[], [1], [2]]),
    (sequences(2) + CYCLE, [4], [[]]),
    (sequences(30) + CYCLE, [30, 2], [[], []]),
    (sequences(30) + CYCLE + ["Last ::= NULL"], [30, 3], [[], []]),
    (sequences(30) + CYCLE + ["Last ::= SEQUENCE { s S29 }"], [30, 3], [[], [1]]),
)

# what is printed of cycle.asn: the line for crates.txt, how many files, and the definitions among them
CYCLE_LINE = "m: rasn_oer oer_write asn1_core\n"
CYCLE_FILES = 5
CYCLE_DEFINITIONS = {
    "m/specs/Lib.antt": "pub mod BoxOfWeights\n",
    "m/specs/BoxOfWeights.antt": (DATA / "BoxOfWeights.antt.txt").read_text(encoding="utf-8"),
}


def printed(program, folder, name, module=None, more=None):
    """The lines for crates.txt, and each file below the folder with its text."""
    words = [program, "--out", folder, "--name", name, *(MORE.get(name, ()) if more is None else more), str(module or top / "crates/oergen/data" / MODULES[name])]
    lines = subprocess.run(words, check=True, capture_output=True, text=True, timeout=60).stdout
    root = pathlib.Path(folder)
    return lines, {str(it.relative_to(root)): it.read_text() for it in root.rglob("*") if it.is_file()}


def kept(name):
    """Each file that is kept of a crate, but what the check makes, with its text."""
    root = top / "crates" / name
    files = [it for folder in ("src", "specs", "proofs") for it in (root / folder).rglob("*") if it.is_file()]
    return {str(it.relative_to(top / "crates")): it.read_text() for it in files}


def faults_of(program, name):
    """What isn't as it is printed, and how many files are."""
    with tempfile.TemporaryDirectory() as folder:
        lines, files = printed(program, folder, name)
        again = printed(program, folder, name)
    faults = [] if again == (lines, files) else ["the same module is printed otherwise the second time"]
    own = kept(name)
    faults += [f"crates/{it} isn't what is printed" for it in sorted(own.keys() | files.keys()) if own.get(it) != files.get(it)]
    listed = (top / "crates.txt").read_text().split("\n")
    faults += [f"crates.txt has no line '{it}'" for it in lines.splitlines() if it not in listed]
    return faults, len(files)


def misplaced(program):
    """The made modules whose types are put into other crates than they should be, or into crates that use others than they should."""
    faults = []
    for types, wanted, used in CRATES:
        with tempfile.TemporaryDirectory() as folder:
            module = pathlib.Path(folder) / "made.asn"
            module.write_text("Made DEFINITIONS AUTOMATIC TAGS ::= BEGIN\n" + "\n".join(types) + "\nEND\n")
            lines, _ = printed(program, folder, "made", module)
            crates = [pathlib.Path(folder) / line.partition(":")[0] / "src" for line in lines.splitlines()]
            found = [sum(len(re.findall(r"^/// `\w+ ::= ", it.read_text(), re.M)) for it in at.glob("types_*.rt")) for at in crates]
            uses = [[int(it) for it in re.findall(r"\bmade_(\d+)\b", line.partition(":")[2])] for line in lines.splitlines()]
        what = f"{len(types)} types, of which the last is {types[-1]}"
        faults += [f"{what}: crates of {found}, and not {wanted}"] if found != wanted else []
        faults += [f"{what}: crates that use {uses}, and not {used}"] if uses != used else []
    return faults


# a module of these types
MADE = "M DEFINITIONS AUTOMATIC TAGS ::= BEGIN\n{}\nEND\n"

# modules with names that clash with one another's, with those that are printed of other types, or with the library's; and lines of
# what is printed of each
NAMES = (
    (
        "Bare ::= NULL NamedBits ::= NULL Sequence ::= BOOLEAN Date ::= SEQUENCE { place Place } Place ::= CHOICE { a NULL }",
        (
            "pub type Bare_ = ();",
            "pub type NamedBits_ = ();",
            "pub type Sequence_ = bool;",
            "pub type Date_ = Sequence<Date_Components, 1, 0>;",
            "        pub place: Place_,",
        ),
    ),
    ("Date ::= NULL DATe ::= BOOLEAN", ("pub type Date_ = ();", "pub type DATe__ = bool;")),
    ("A-B ::= NULL AB ::= BOOLEAN", ("pub type AB = ();", "pub type AB_ = bool;")),
    ("Percent ::= INTEGER (0..100) Again ::= Percent", ("pub type Again = Percent;",)),
    (
        "A ::= CHOICE { a-b NULL, aB NULL } B ::= CHOICE { a-b [0] NULL, a CHOICE { b [1] NULL } }",
        ("    AB_(()),", "        from_row!(value => AAlternatives: AB, AB_)", "        from_row!(value => BAlternatives: AB, AB_)", "pub returns-in-AB_ : goal.returns-in-AB_"),
    ),
    (
        "A ::= SEQUENCE { a-b INTEGER DEFAULT 3, aB INTEGER DEFAULT 4, group-1 NULL, ..., [[ a-B NULL, aB2 NULL, a-B2 BOOLEAN ]] }",
        (
            "        pub a_b_: Integer,",
            "impl DefaultValue<Integer> for AAB_Default {",
            "        pub group_1_: (),",
            "        pub group_1: Option<AGroup1>,",
            "        pub a_b: (),",
            "        pub a_b2_: bool,",
        ),
    ),
    (
        "A ::= SEQUENCE { [0] INTEGER, [1] INTEGER, B } B ::= CHOICE { [0] NULL, [1] EXPLICIT NULL }",
        ("        pub integer: Integer,", "        pub integer_: Integer,", "        pub b: B,", "    NULL(()),", "    NULL_(()),"),
    ),
    (
        "Q ::= ENUMERATED { dB-1, dB0, dB1 } S ::= SEQUENCE { q Q DEFAULT dB1 }",
        ("    DB1 = 0,", "    DB1_ = 2,", "        Ok(Enumeration(QValues::DB1_))"),
    ),
    (
        "T ::= INTEGER (0..255) END N DEFINITIONS ::= BEGIN T ::= INTEGER (0..65535) U ::= SEQUENCE { t T }",
        ("pub type M_T = u8;", "pub type N_T = u16;", "        pub t: N_T,"),
    ),
    (
        "Tariff ::= SEQUENCE { rows SEQUENCE OF TariffRow } TariffRow ::= SEQUENCE { a NULL }",
        ("pub type Tariff_ = Sequence<Tariff_Components, 1, 0>;", "pub type TariffRow = Sequence<TariffRowComponents, 1, 0>;"),
    ),
    (
        "A ::= SEQUENCE { a A OPTIONAL, k K } K ::= NULL AContent ::= BOOLEAN",
        ("pub struct A_(pub A_Content<A_>);", "        pub k: K_,", "pub type K_ = ();", "pub type AContent = bool;"),
    ),
)


# a hundred alternatives: the most that stand in one enum
NULLS = ", ".join(f"c{at} NULL" for at in range(100))

# comments, constants, what newer versions may have, and parts of large types; and lines of what is printed of each
NOTED = """-- What lamps do.
--
-- ====

-- on or off --
State ::= ENUMERATED { -- behind
   -- dark
   off, on }
/** How loud.
 *  In steps. */
Level ::= INTEGER { low(-1), high(9) } (-9..9)
-- the most
most Level ::= high
wide INTEGER ::= 18446744073709551616
isOn BOOLEAN ::= TRUE
Rights ::= BIT STRING { read(0), write-all(7) } (SIZE(8))
Row ::= SEQUENCE {
   -- its state
   state State, bits BIT STRING { a(3) } (SIZE(4)) }
/* a\ttab, a \u202e turn and a\rreturn\x00 */
Name ::= IA5String (PATTERN "a
b")
Named ::= SEQUENCE { name IA5String DEFAULT "a\tb" }"""
SIZED = " ".join(sequences(1) + ["T ::= SEQUENCE { %s } C ::= CHOICE { a T, b NULL, c T }" % ", ".join(f"s{at} S0" for at in range(20))])
OPEN = """C ::= CHOICE { a NULL, ..., b BOOLEAN } D ::= CHOICE { a NULL } E ::= ENUMERATED { one, ... } F ::= ENUMERATED { one }
S ::= SEQUENCE { e E DEFAULT one, f F DEFAULT one } R ::= CHOICE { a SEQUENCE OF R, ... }"""
# a macro's name as a type, a CHARACTER STRING of fixed identification, names of numbers with capital letters
OLDER = """OP MACRO ::= BEGIN TYPE NOTATION ::= empty VALUE NOTATION ::= value (VALUE INTEGER) END
A ::= SEQUENCE { code OP, text CHARACTER STRING (WITH COMPONENTS { identification (WITH COMPONENTS { fixed PRESENT }) }),
version Version DEFAULT V1, kind Kind DEFAULT V1 } Version ::= INTEGER { V0(0), V1(1) } (0..7) Kind ::= ENUMERATED { V0, V1 }
Bits ::= BIT STRING { High(7) }"""
LINES = (
    ((), f"Wide ::= CHOICE {{ {NULLS} }}", ("    At_99(()),", "            Self::C99(held) => put_alternative::<E, _>(encoder, Context::<99>::tag(), held),")),
    (
        (),
        f"Wide ::= CHOICE {{ {NULLS}, ..., added BOOLEAN, other NULL }}",
        (
            "    Part8(WidePart8),",
            "    Added(bool),",
            "        from_row!(value => WideAlternatives: Part1, Part2, Part3, Part4, Part5, Part6, Part7, Part8)",
            "            Self::Part8(held) => held.put::<E>(encoder),",
            "            Self::Added(held) => put_alternative::<E, _>(encoder, Context::<100>::tag(), held),",
            "pub returns-in-Part8 : goal.returns-in-Part8",
            "pub returns-in-Added : goal.returns-in-Added",
        ),
    ),
    (
        ("--keep-unknown",),
        OPEN,
        (
            "pub type C = KeptChoice<CAlternatives>;",
            "pub type D = OneOf<DAlternatives>;",
            "pub type E = KeptEnumeration<EValues>;",
            "pub type F = Enumeration<FValues>;",
            "        Ok(KeptEnumeration::Known(EValues::One))",
            "        Ok(Enumeration(FValues::One))",
            "pub type RContent<K> = KeptChoice<RAlternatives<K>>;",
            "made: rasn_oer oer_write asn1_core oer_kept",
        ),
    ),
    ((), OPEN, ("pub type C = OneOf<CAlternatives>;", "pub type E = Enumeration<EValues>;", "made: rasn_oer oer_write asn1_core")),
    (
        (),
        NOTED,
        (
            "/// on or off",
            "///",
            "    /// dark",
            "/// How loud.",
            "/// In steps.",
            "/// the most",
            "pub const MOST: i8 = 9;",
            "pub const WIDE: i128 = 18446744073709551616;",
            "pub const IS_ON: bool = true;",
            "pub const LEVEL_LOW: i8 = -1;",
            "pub const RIGHTS_WRITE_ALL: usize = 7;",
            "pub const ROW_BITS_A: usize = 3;",
            "        /// its state",
            "/// a tab, a   turn and a return",
            "/// `Name ::= IA5String (PATTERN \"a b\")`",
            "/// The default \"a b\" of `NamedName`.",
            "pub mod values;",
        ),
    ),
    (
        (),
        OLDER,
        (
            "        pub code: Integer,",
            "        pub string_value: Octets,",
            "pub const VERSION_V1: u8 = 1;",
            "pub const BITS_HIGH: usize = 7;",
            "    V1 = 1,",
            "        Ok(1)",
            "        Ok(Enumeration(KindValues::V1))",
        ),
    ),
    ((), SIZED, ("    A(Held<T>),", "    B(()),", "    C(Held<T>),", "        pub s0: S0,")),
)


def misprinted(program):
    """Which lines aren't printed, or said for crates.txt, that should be."""
    faults = []
    for more, body, wanted in (*(((), *row) for row in NAMES), *LINES):
        with tempfile.TemporaryDirectory() as folder:
            module = pathlib.Path(folder) / "made.asn"
            module.write_text(MADE.format(body), newline="")
            said, files = printed(program, folder, "made", module, more)
        lines = {line for text in (said, *files.values()) for line in text.split("\n")}
        faults += [f"of {body} there is no line {line!r}" for line in wanted if line not in lines]
    return faults


def unread(program):
    """What isn't listed of the published modules as listed.txt has it, and whether any of their types isn't printed."""
    files = sorted(str(it) for it in PUBLISHED.glob("*.asn"))
    table = subprocess.run([program, "--list", *files], check=True, capture_output=True, text=True, timeout=60).stdout
    blocks = {block for block in re.split(r"^(?! )", table, flags=re.M)}
    wanted = re.split(r"^(?! )", (PUBLISHED / "listed.txt").read_text(encoding="utf-8"), flags=re.M)
    faults = [f"of scripts/v2x.d it isn't listed: {block}" for block in wanted if block not in blocks]
    with tempfile.TemporaryDirectory() as folder:
        words = [program, "--out", folder, "--name", "v2x", *files]
        ran = subprocess.run(words, capture_output=True, text=True, timeout=60, check=False)
        found = sum(len(re.findall(r"^/// `(?:[\w-]+ ::= |(?:SEQUENCE|CHOICE) \{)", it.read_text(), re.M)) for it in pathlib.Path(folder).rglob("*.rt"))
    types = len(re.findall(r"^\S", table, re.M))
    return faults + ([] if found == types and not ran.stderr else [f"of scripts/v2x.d {found} types are printed, and not {types}: {ran.stderr}"])


def undefined(program):
    """Where types that contain each other are printed without what defines what they weigh, or as another crate."""
    with tempfile.TemporaryDirectory() as folder:
        lines, files = printed(program, folder, "m", DATA / "cycle.asn")
    faults = [f"cycle.asn: {it} isn't what it should be" for it, text in CYCLE_DEFINITIONS.items() if files.get(it) != text]
    faults += [] if lines == CYCLE_LINE else [f"cycle.asn: the line {lines!r}, and not {CYCLE_LINE!r}"]
    faults += [] if len(files) == CYCLE_FILES else [f"cycle.asn: {len(files)} files, and not {CYCLE_FILES}"]
    return faults


# choices, and the answers printed for the prover: of a single alternative it doesn't ask
CHOICES = "One ::= CHOICE { a NULL } Two ::= CHOICE { b NULL, c NULL }"
ANSWERS = ["pub returns-in-B : goal.returns-in-B", "pub returns-in-C : goal.returns-in-C"]


def unanswered(program):
    """Where other answers are printed than the prover asks for."""
    with tempfile.TemporaryDirectory() as folder:
        module = pathlib.Path(folder) / "made.asn"
        module.write_text(MADE.format(CHOICES))
        _, files = printed(program, folder, "made", module)
    found = [line for text in files.values() for line in text.split("\n") if line.startswith("pub returns-in-")]
    return [] if found == ANSWERS else [f"{CHOICES}: the answers are {found}, and not {ANSWERS}"]


# sets of information objects, by their enums: what stands in each, with the number of its id. A number past a tag's, one below zero and an
# OBJECT IDENTIFIER are no ids here, nor is a type known that isn't assigned; and sets without any have no enum.
SETS = """Id ::= INTEGER (0..255) KIND ::= CLASS { &id Id UNIQUE, &Type } WITH SYNTAX { &Type IDENTIFIED BY &id } one Id ::= 1 Speed ::= SEQUENCE { a NULL }
Kinds KIND ::= { { Speed IDENTIFIED BY one } | { IA5String (SIZE(3)) IDENTIFIED BY 2 },
-- a choice
{ CHOICE { a NULL, b BOOLEAN } IDENTIFIED BY 3 }, ..., more | More UNION M.other | { Speed IDENTIFIED BY 1 } | { Missing IDENTIFIED BY 5 } }
more KIND ::= { SEQUENCE OF Speed IDENTIFIED BY 7 } other KIND ::= { Other IDENTIFIED BY 8 } Other ::= NULL
More KIND ::= { { Speed IDENTIFIED BY 4294967295 } | { Speed IDENTIFIED BY 4294967296 } | { Speed IDENTIFIED BY -1 }, ... }
CERT ::= CLASS { &name IA5String, &id Id UNIQUE, &App, &Req OPTIONAL } WITH SYNTAX { NAME &name ID &id APP &App [REQUEST &Req] }
Certs CERT ::= { cert | { NAME "n" ID 2 APP NULL }, ... } cert CERT ::= { NAME "c" ID 1 APP OCTET STRING REQUEST Speed }
Plains CLASSES ::= { { &id 3, &Type Other } | { &Type [5] BOOLEAN, &id 4 } } CLASSES ::= CLASS { &id Id, &Type }
Many KIND ::= { %s }
Names TYPE-IDENTIFIER ::= { { Speed IDENTIFIED BY { 1 2 3 } } } None KIND ::= { ... } Of{KIND:Set} ::= SEQUENCE { a KIND.&Type ({Set}) } Used ::= Of{{Kinds}}"""
HELD = {
    "Kinds": ["1 Speed(Speed)", "2 Id2(Limited<Ia5Text, FixedSize<3>>)", "3 Id3(Kinds3)", "7 More(ListOf<Speed>)", "8 ROther(Other)", "4294967295 Id4294967295(Speed)"],
    "More": ["4294967295 Speed(Speed)"],
    "CertsApp": ["1 Cert(Octets)", "2 Id2(())"],
    "CertsReq": ["1 Cert(Speed)"],
    "Plains": ["3 ROther(Other)", "4 Id4(bool)"],
}
SETS = SETS.replace("%s", " | ".join(f"{{ NULL IDENTIFIED BY {at} }}" for at in range(25)))
# a set that can't be printed, and how the line begins that says so
UNHELD = "KIND ::= CLASS { &id INTEGER, &Type } Kinds KIND ::= { { &id 1, &Type REAL } | { &id 2, &Type A } } A ::= NULL"
UNHELD_LINE = re.compile(r"^# left out: sets of objects, .*/made\.asn:2:\d+: met 'REAL'; can read ", re.M)
SET = re.compile(r"^pub enum (\w+) \{\n((?:    .*\n)*)    Other\(OpenOctets\),\n\}$", re.M)


def unheld(program):
    """Where other enums of sets of objects are printed than they should be, or it isn't said why none is."""
    with tempfile.TemporaryDirectory() as folder:
        module = pathlib.Path(folder) / "made.asn"
        module.write_text(MADE.format(SETS))
        _, files = printed(program, folder, "made", module)
    found = {}
    for text in files.values():
        for name, body in SET.findall(text):
            found[name] = [f"{number} {variant}" for number, variant in re.findall(r"^    /// Under the id (\d+)\.\n    (.*),$", body, re.M)]
    faults = [] if found == HELD else [f"{SETS}: the enums are {found}, and not {HELD}"]
    with tempfile.TemporaryDirectory() as folder:
        module = pathlib.Path(folder) / "made.asn"
        module.write_text(MADE.format(UNHELD))
        said, files = printed(program, folder, "made", module)
    is_said = UNHELD_LINE.search(said) and "pub type A = ();" in files.get("made/src/types_01.rt", "")
    return faults + ([] if is_said else [f"{UNHELD}: {said!r}, {files}"])


# the library for C of one type: the lines for crates.txt, the files, and what stands for the names of the type in crates/jilgomt
# its set of objects has no functions
LAMP = "Lamp ::= BOOLEAN CLASSES ::= CLASS { &id INTEGER, &Type } Set CLASSES ::= { { &id 1, &Type Lamp } }"
LAMP_LINES = "lamps: rasn_oer\nlamps_c staticlib: lamps oer_calls rasn_oer oer_read oer_spec asn1_core\n"
LAMP_FILES = ["lamps/src/lib.rt", "lamps/src/types_01.rt", "lamps_c/include/lamps_c.h", "lamps_c/src/lib.rt", "lamps_c/src/types_01.rt"]
LAMP_NAMES = (("jilgomt_bool_", "lamps_Lamp_"), ("<bool", "<lamps::Lamp"), ("`bool`", "`Lamp`"))


def unexported(program):
    """Where the library for C of one type isn't that of a type of crates/jilgomt by other names."""
    with tempfile.TemporaryDirectory() as folder, tempfile.NamedTemporaryFile("w", suffix=".asn") as module:
        module.write(MADE.format(LAMP))
        module.flush()
        lines, files = printed(program, folder, "lamps", module.name, ("--c",))
    wanted = [it for it in (top / "crates/jilgomt/src/types/leaves.rt").read_text(encoding="utf-8").split("\n\n") if "jilgomt_bool_" in it]
    for own, other in LAMP_NAMES:
        wanted = [it.replace(own, other) for it in wanted]
    found = files.get("lamps_c/src/types_01.rt", "").rstrip("\n").split("\n\n")
    faults = [] if (lines, sorted(files)) == (LAMP_LINES, LAMP_FILES) else [f"{LAMP}: {lines!r}, {sorted(files)}"]
    return faults + ([] if len(wanted) == 2 and found[-2:] == wanted else [f"{LAMP}: the functions for C are {found[-2:]}, and not {wanted}"])


def unformatted(program):
    """Which files of long.asn, of what has comments, and of sets of objects, aren't in the layout."""
    rattle = pathlib.Path(shutil.which("rt")).resolve().parent / "rattle"
    with tempfile.TemporaryDirectory() as folder:
        noted = pathlib.Path(folder) / "noted.asn"
        noted.write_text(MADE.format(NOTED), newline="")
        sets = pathlib.Path(folder) / "sets.asn"
        sets.write_text(MADE.format(SETS))
        for module in (DATA / "long.asn", noted, sets):
            printed(program, folder, module.stem, module, ("--c",))
        files = sorted(pathlib.Path(folder).rglob("*.rt"))
        ran = subprocess.run([rattle, "fmt", "--check", *files], capture_output=True, text=True, timeout=60, check=False)
    return [f"not in the layout: {line}" for line in (ran.stdout + ran.stderr).splitlines()] if ran.returncode else []


def main(program):
    faults = misplaced(program) + misprinted(program) + unread(program) + undefined(program) + unanswered(program) + unheld(program) + unformatted(program) + unexported(program)
    for fault in faults:
        print(f"printed: {fault}")
    status = 1 if faults else 0
    for name in MODULES:
        faults, count = faults_of(program, name)
        for fault in faults:
            print(f"printed: {fault}")
        print(f"printed: {count} files of {name}, {'as they are kept' if not faults else f'{len(faults)} faults'}")
        status = 1 if faults else status
    return status


if __name__ == "__main__":
    sys.exit(main(*sys.argv[1:]))
