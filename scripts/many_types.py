#!/usr/bin/env python3
"""Writes modules of many types, for timing oergen: those of crates/oergen/data/samples.asn and recursive.asn, so many times over.

usage: many_types.py TIMES >many.asn, each time some thirty types under names of their own
"""
import pathlib
import re
import sys

data = pathlib.Path(__file__).resolve().parent.parent / "crates/oergen/data"
for number in range(1, int(sys.argv[1]) + 1):
    for file in ("samples.asn", "recursive.asn"):
        text = (data / file).read_text()
        modules = re.findall(r"^(\w+)(?: \{[^}]*\})? DEFINITIONS", text, re.M)
        for name in [*modules, *re.findall(r"^([A-Z][\w-]*) ::=", text, re.M)]:
            text = re.sub(rf"(?<![\w-]){name}(?![\w-])", f"{name}{number}", text)
        print(text)
