#!/usr/bin/env python3
"""Times values of the types by hand and of those that oergen prints of crates/oergen/data/words.asn and types.asn, in turns, in one program.

usage: printed_speed.py COPY PROGRAM [WORD..], for example: taskset -c 3 scripts/printed_speed.py /tmp/copy crates/oergen/out/oergen

COPY is a folder to be made, in which the repository's crates are laid, and beside them the printed ones. There bench_speed reads the
octets of each value of speed_values.py as a value of its type by hand, and as one of the printed type of TYPES; and both are
written, or read, by the same calls: in ROUNDS rounds of some MILLISECONDS each, now the one, now the other. The program is built
once, as `rt try` builds it: with checks, and unproved. Printed are the least nanoseconds of each, and their ratio.
"""
import pathlib
import re
import subprocess
import sys
import tempfile

sys.dont_write_bytecode = True
sys.path.insert(0, str(pathlib.Path(__file__).resolve().parent))
from speed_values import digits, type_of  # noqa: E402
from words import lay, printed  # noqa: E402

ROUNDS, MILLISECONDS = 3, 300
# Values of speed_values.py, and how many.
ROWS = [("ints", 1000), ("octets", 65536), ("nest", 64), ("link", 64), ("linked", 65536), ("added", 65536), ("additions", 30)]
ROWS += [("seq2", 1), ("outer", 1), ("extopt", 1), ("foo", 1), ("seqs", 1000), ("intset", 1000), ("mixed", 1000)]
ROWS += [("text", 65536), ("bits", 524288), ("great", 65536), ("times", 1000), ("colors", 1000)]
# Words of bench_speed, and the printed type.
TYPES = {
    "ints": "Integers", "intset": "IntegerBag", "nest": "Nest", "link": "Link", "added": "Adding", "additions": "Chain",
    "octets": "Content", "utf8": "Text", "bits": "Flags", "int": "Whole", "times": "Times", "colors": "Colours",
    "seq2": "Sequence2", "outer": "Outer", "foo": "Foo", "seqs": "Sequences", "extopt": "ExtendedOptional",
}
WITH_WORD = """    match with_word(word, work) {
        Some(figures) => figures,
        None => Ok(None),
    }
"""
IN_TURNS = f"""
/// Measures the octets as a value of that word's type, and of the printed one, in turns: the least of a few rounds of each.
pub(crate) fn in_turns<C: Clock>(word: &str, work: Octets<'_, C>) -> Result<Option<Figures>> {{
    let Some(mut least) = figures(with_word(word, work.again(10)))? else {{
        return Ok(None);
    }};
    let times = u32::try_from({MILLISECONDS}_000_000 / least.nanoseconds.max(1)).unwrap_or(1).max(1);
    least.nanoseconds = u128::MAX;
    for _ in 0..{ROUNDS} {{
        if let Some(own) = figures(with_word(word, work.again(times)))? {{
            least.nanoseconds = least.nanoseconds.min(own.nanoseconds);
        }}
        if let Some(printed) = figures(with_printed(word, work.again(times)))? {{
            least.printed = least.printed.min(printed.nanoseconds);
        }}
    }}
    Ok(Some(least))
}}

/// The figures, where a type has the word.
fn figures(answer: Option<Result<Option<Figures>>>) -> Result<Option<Figures>> {{
    match answer {{
        Some(figures) => figures,
        None => Ok(None),
    }}
}}

impl<'a, C: Clock> Octets<'a, C> {{
    /// The same, so often.
    fn again(&self, times: u32) -> Octets<'a, C> {{
        Octets {{
            clock: self.clock,
            alloc: self.alloc,
            plan: Plan {{
                way: self.plan.way,
                times,
            }},
            octets: self.octets,
        }}
    }}
}}
"""


def replaced(text, old, new):
    """The text with another in the place of one, which stands in it once."""
    if text.count(old) != 1:
        sys.exit(f"printed_speed: bench_speed has '{old}' {text.count(old)} times")
    return text.replace(old, new)


def turn(copy, types):
    """Lets bench_speed measure each value as that of a printed type too."""
    source = copy / "crates/bench_speed/src"
    text = replaced((source / "main.rt").read_text(), WITH_WORD, "    measuring::in_turns(word, work)\n")
    text = replaced(text, "use words::with_word;\n", "")
    text = replaced(text, '"{} octets, {} ns", it.octets, it.nanoseconds', '"{} octets, {} ns, {} ns", it.octets, it.nanoseconds, it.printed')
    (source / "main.rt").write_text(text)
    text = (source / "measuring.rt").read_text()
    text = replaced(text, "    pub(crate) nanoseconds: u128,\n", "    pub(crate) nanoseconds: u128,\n    pub(crate) printed: u128,\n")
    text = replaced(text, "else { spent / times },\n", "else { spent / times },\n        printed: u128::MAX,\n")
    text = replaced(text, "use anyhow::Result;\n", "use crate::words::{with_printed, with_word};\nuse anyhow::Result;\n")
    (source / "measuring.rt").write_text(text + IN_TURNS)
    arms = "".join(f'        "{word}" => Some(work.on::<{types[name]}::{name}>()),\n' for word, name in TYPES.items())
    with open(source / "words.rt", "a", encoding="utf-8") as file:
        file.write("\n/// The same with the printed type.\npub(crate) fn with_printed<W: OnType + Drop>(word: &str, work: W) -> Option<W::Output> {\n")
        file.write(f"    match word {{\n{arms}        _ => None,\n    }}\n}}\n")
    listed = (copy / "crates.txt").read_text()
    below = " ".join(sorted(set(types.values())))
    (copy / "crates.txt").write_text(re.sub(r"^bench_speed:", f"bench_speed: {below}", listed, flags=re.M))


def measured(copy, rows):
    """The octets and the two times of each row and way, by one build."""
    with tempfile.TemporaryDirectory() as cases:
        for word, count in rows:
            for way in ("encode", "decode"):
                case = pathlib.Path(cases) / f"{word}_{count}_{way}"
                case.write_text(digits(word, count))
                pathlib.Path(f"{case}.args").write_text(f"{type_of(word)}\n{way}\n1\n")
        ran = subprocess.run(["rt", "try", "--seconds", "300", "--cases", cases], cwd=copy / "crates/bench_speed", capture_output=True, text=True, check=False)
    found = re.findall(r"== (\w+?)_(\d+)_(\w+)[^=]*?(\d+) octets, (\d+) ns, (\d+) ns", ran.stdout)
    if not found:
        sys.exit(f"printed_speed: {ran.stdout[-2000:]}{ran.stderr[-2000:]}")
    return {(word, int(count), way): (int(octets), int(own), int(other)) for word, count, way, octets, own, other in found}


def main(copy, program, *words):
    copy = pathlib.Path(copy).resolve()
    lay(copy)
    types, _ = printed(copy, pathlib.Path(program).resolve())
    turn(copy, types)
    rows = [row for row in ROWS if not words or row[0] in words]
    found = measured(copy, rows)
    print("| value | octets | write, ns: by hand | printed | ratio | read, ns: by hand | printed | ratio |\n|---|---|---|---|---|---|---|---|")
    for word, count in rows:
        cells = []
        for way in ("encode", "decode"):
            octets, own, other = found.get((word, count, way), (0, 0, 0))
            cells += [f"{own:,}", f"{other:,}", f"{other / max(1, own):.2f}"]
        name = f"`{word}` {count:,}" if count > 1 else f"`{word}`"
        print(f"| {name} | {octets:,} | " + " | ".join(cells) + " |")
    return 0 if len(found) == 2 * len(rows) else 1


if __name__ == "__main__":
    sys.exit(main(*sys.argv[1:]))
