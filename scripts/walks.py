#!/usr/bin/env python3
"""Compares walks with the codec over the rows of test_vectors and damaged octets: what the codec reads, the walk takes too, as far.

usage: walks.py OERGEN [COUNT [SEED]]

OERGEN is a built oergen, for the table of crates/oergen/data/words.asn and types.asn. The Python package jilgomt and its library have
to be found. Of each input of a type of those modules, read leniently:
- where the codec reads a value, the walk ends behind it, without a refusal;
- each node of such a walk has an end, and lies behind the one before it, in the part around it;
- where the walk stops, the last node without an end is the part that it stopped in.
"""
import collections
import pathlib
import random
import re
import subprocess
import sys

top = pathlib.Path(__file__).resolve().parent.parent
sys.path[:0] = [str(top / "scripts"), str(top / "scripts/fuzz")]
sys.dont_write_bytecode = True

import fuzz  # noqa: E402
import words  # noqa: E402
from jilgomt import OER, Module, Refused, check  # noqa: E402

ROW = re.compile(r"(?:run|read) (?:oer|coer) (\S+) ([0-9a-f]*)(?: => .*)?")
UNFINISHED = 2**64 - 1


def is_known(word):
    """Whether a word names a type of the module, and of the library."""
    try:
        return word in words.NAMES and bool(check(word, b"", OER))
    except KeyError:
        return False
    except Refused:
        return True


def inputs(count, seed):
    """The octets of the rows, and so many damaged ones, each with a word that is known."""
    seeds = {word: octets for word, octets in fuzz.seeds().items() if is_known(word)}
    for line in fuzz.ROWS.read_text(encoding="utf-8").splitlines():
        row = ROW.match(line)
        if row and row[1] in seeds and len(row[2]) % 2 == 0:
            yield row[1], bytes.fromhex(row[2])
    rng = random.Random(seed)
    for _ in range(count):
        it = fuzz.made(rng, seeds)
        yield it.word, it.octets


def misplaced(nodes):
    """What is wrong with the nodes of a whole walk."""
    behind = {}
    for at, node in enumerate(nodes):
        if node.end == UNFINISHED or not node.start <= node.content <= node.end:
            return f"node {at} has no end"
        if at:
            around = nodes[node.around]
            first = behind.get(node.around, around.content)
            if not (node.around < at and node.level == around.level + 1 and first <= node.start and node.end <= around.end):
                return f"node {at} isn't in order, in the part around it"
            behind[node.around] = node.end
    return None


def compared(module, type_name, octets, consumed_by):
    """How the codec, which answers how many octets it takes, and the walk agree; a text with a capital letter is a fault."""
    nodes, answer = module.walk(type_name, octets)
    try:
        consumed = consumed_by(octets)
    except Refused as e:
        if not answer.status:
            return "walked, and refused by the codec"
        innermost = [node.start for node in nodes if node.end == UNFINISHED][-1:]
        return "refused by both" if innermost == [answer.consumed] else f"The place of {e.kind} isn't that of the last node without an end"
    if answer.status:
        return f"Read by the codec, and the walk stops at {answer.consumed}"
    if answer.consumed != consumed:
        return f"Read by the codec to {consumed}, and walked to {answer.consumed}"
    fault = misplaced(nodes)
    return f"Walked, and {fault}" if fault else "read by both, as far"


def main(given):
    if not 1 <= len(given) <= 3:
        print(__doc__, file=sys.stderr)
        return 2
    count, seed = (int(it) for it in [*given[1:], *["10000", "1"][len(given) - 1:]])
    table = subprocess.run([given[0], "--table", *(top / it for it in words.MODULES)], check=True, capture_output=True, text=True).stdout
    module, seen, faults = Module.of_lines(table), collections.Counter(), 0
    for word, octets in inputs(count, seed):
        how = compared(module, words.NAMES[word], octets, lambda it, word=word: check(word, it, OER).consumed)
        if how[0].isupper():
            faults += 1
            print(f"walks: {word} {octets.hex()}: {how}")
        else:
            seen[how] += 1
    print(f"walks: {sum(seen.values())} inputs: {', '.join(f'{number} {how}' for how, number in seen.most_common())}; {faults} faults")
    return 1 if faults or not seen["read by both, as far"] else 0


if __name__ == "__main__":
    sys.exit(main(sys.argv[1:]))
