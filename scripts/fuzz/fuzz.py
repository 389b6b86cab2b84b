#!/usr/bin/env python3
"""Damages canonical octets of every type of the rows, spells them in lenient forms, and checks what is read of them.

usage: fuzz.py PROGRAM [COUNT [SEED]]

PROGRAM is the binary of crates/test_vectors, which asks every call that reads such octets, both modules and a decoder in the middle
of an input, and says where they differ or where a refusal moved the decoder on. Of each input:
- both modes end, with octets and a rest that is the input's rear, or with a named refusal;
- what is read canonically is read leniently, with the same canonical octets and the same rest;
- to canonicalise again changes nothing, in either mode;
- what is read canonically with bitmaps of the type's own size is what is written;
- another lenient form of a value is read leniently as that value (padded lengths, numbers and quantities, true as any octet,
  spelled-out defaults, longer bitmaps with additions that the type doesn't know, octets left over in open types, long tags).
"""
import concurrent.futures
import os
import pathlib
import random
import re
import subprocess
import sys

import forms

ROWS = pathlib.Path(__file__).resolve().parent.parent.parent / "crates/test_vectors/stdout"
ROW = re.compile(r"(?:(?:run|read) coer|fronts) (\S+) ([0-9a-f]*) => (?:([0-9a-f]*)\|[0-9a-f]*\|;0|([0-9a-f]*);[0-9a-f]*|\d+)")
ANSWER = re.compile(r"([0-9a-f]*);([0-9a-f]*)|(Oer|Coer) (?!OutOfMemory)([A-Z][A-Za-z]+)( \{.*\})?: .*")
BATCH = 5000


def seeds():
    """Canonical octets by type, as the rows of the program have them; where fronts are of other octets, those of their value."""
    rows = [row for row in map(ROW.fullmatch, ROWS.read_text().splitlines()) if row]
    written = {(row[1], row[2]): row[3] or row[4] for row in rows if row[3] or row[4]}
    found = {}
    for row in rows:
        octets = next((it for it in (row[3], row[4]) if it is not None), written.get((row[1], row[2]), row[2]))
        if len(octets) < 600:
            found.setdefault(row[1], set()).add(bytes.fromhex(octets))
    return {word: sorted(octets) for word, octets in sorted(found.items())}


def damage(rng, octets):
    """One change, at any place."""
    o, i = bytearray(octets), rng.randrange(len(octets) + 1)
    here = o[i] if i < len(o) else 0
    way = rng.randrange(11)
    if way == 0 and i < len(o):
        o[i] ^= 1 << rng.randrange(8)
    elif way == 1 and i < len(o):
        o[i] = rng.choice([0, 1, 2, 0x7F, 0x80, 0x81, 0x82, 0x88, 0xFE, 0xFF, rng.randrange(256)])
    elif way == 2:
        del o[i : i + rng.randrange(1, 4)]
    elif way == 3:
        o[i:i] = rng.randbytes(rng.randrange(1, 4))
    elif way == 4:
        del o[i:]
    elif way == 5:
        o += rng.randbytes(rng.randrange(1, 6))
    elif way == 6:  # a padded length
        zeros = rng.randrange(4)
        o[i : i + 1] = bytes([0x81 + zeros] + [0] * zeros + [here])
    elif way == 7 and i + 1 < len(o):  # a padded number, its length with it
        o[i : i + 1] = bytes([(here + 1) % 256, 0xFF if o[i + 1] & 0x80 else 0])
    elif way == 8:  # a longer bitmap, the bits of more additions with it
        o[i : i + 1] = bytes([(here + 1) % 256])
        o.insert(min(i + 3, len(o)), rng.choice([0, 0, 0x80, 0xC0, rng.randrange(256)]))
    elif way == 9:  # a length that is past every end
        o[i:i] = bytes([0x80 + rng.randrange(1, 10)]) + rng.randbytes(rng.randrange(10))
    else:  # a piece again
        j = rng.randrange(i, min(len(o), i + 8) + 1)
        o[j:j] = o[i:j]
    return bytes(o)


class Input:
    """Octets of a type; for another form of a value, that value's canonical octets."""

    def __init__(self, word, octets, spells=None):
        self.word, self.octets, self.spells = word, octets, spells


def made(rng, known):
    """An input: half of them another form of a value, of which half is damaged then."""
    word = rng.choice(list(known))
    canonical = rng.choice(known[word])
    octets = canonical
    if rng.random() < 0.5:
        octets = forms.lenient(word, canonical, rng)
        if rng.random() < 0.5:
            return Input(word, octets, canonical)
    for _ in range(rng.randrange(1, 4)):
        octets = damage(rng, octets)
    return Input(word, octets)


def asked(program, rows):
    """What the program answers to each row."""
    done = subprocess.run([program], input="\n".join(rows) + "\n", capture_output=True, text=True, timeout=300)
    lines = done.stdout.splitlines()
    if done.returncode != 0 or len(lines) != len(rows):
        raise ValueError(f"the program ended with {done.returncode} behind {len(lines)} of {len(rows)} rows")
    answers = []
    for row, line in zip(rows, lines):
        answer = ANSWER.fullmatch(line[len(row) + 4 :])
        if not line.startswith(row + " => ") or not answer:
            raise ValueError(f"no answer of the program: {line}")
        answers.append(answer)
    return answers


def fault(it, why):
    raise ValueError(f"{it.word} {it.octets.hex()}: {why}")


def check_one(it, lenient, canonical):
    """The promises of one input that its two answers show."""
    o = it.octets.hex()
    if canonical[1] is not None:
        if lenient[0] != canonical[0]:
            fault(it, "lenient reading differs from canonical reading")
        if canonical[1] + canonical[2] != o and forms.has_own_bitmaps(it.word, it.octets):
            fault(it, "what was read canonically isn't what is written")
    if lenient[1] is not None and not o.endswith(lenient[2]):
        fault(it, "what is left is no rear of the input")
    if it.spells is not None and (lenient[1], lenient[2]) != (it.spells.hex(), ""):
        fault(it, f"another form of {it.spells.hex()} is read as {lenient[0]}")


def check(program, inputs):
    """How many were read leniently, and how many canonically."""
    rows = [f"read {mode} {it.word} {it.octets.hex()}" for it in inputs for mode in ("oer", "coer")]
    answers = asked(program, rows)
    again = []
    for it, lenient, canonical in zip(inputs, answers[::2], answers[1::2]):
        check_one(it, lenient, canonical)
        if lenient[1] is not None:
            again.append(Input(it.word, bytes.fromhex(lenient[1])))
    rows = [f"read {mode} {it.word} {it.octets.hex()}" for it in again for mode in ("oer", "coer")]
    for row, answer in zip(rows, asked(program, rows) if rows else []):
        if answer[1] != row.split(" ")[3] or answer[2]:
            raise ValueError(f"{row}: canonical octets are read as {answer[0]}")
    return len(again), sum(canonical[1] is not None for canonical in answers[1::2])


def main():
    if len(sys.argv) not in (2, 3, 4):
        sys.exit(__doc__)
    program, count = sys.argv[1], int(sys.argv[2]) if len(sys.argv) > 2 else 10000
    seed = int(sys.argv[3]) if len(sys.argv) > 3 else 1
    known = seeds()
    if unknown := forms.unknown(known):
        sys.exit(f"fuzzer: forms.py doesn't say what octets of these types look like: {', '.join(unknown)}")

    def batch(at):
        """A batch's numbers depend on the seed and its place alone."""
        rng = random.Random(f"{seed} {at}")
        return check(program, [made(rng, known) for _ in range(min(BATCH, count - at))])

    with concurrent.futures.ThreadPoolExecutor(os.cpu_count()) as pool:
        try:
            counts = list(pool.map(batch, range(0, count, BATCH)))
        except (ValueError, subprocess.TimeoutExpired) as e:
            pool.shutdown(cancel_futures=True)
            print(f"fuzzer, seed {seed}: {e}")
            return 1
    read, strict = (sum(some[i] for some in counts) for i in (0, 1))
    print(f"fuzzer: {count} inputs of {len(known)} types, seed {seed}: {read} read leniently, {strict} canonically: no fault")
    return 0


if __name__ == "__main__":
    sys.exit(main())
