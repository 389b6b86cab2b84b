"""The Python package's calls, over octets with answers by hand."""
import pathlib

import jilgomt
from jilgomt import COER, OER, Module, Refused

octets = bytes.fromhex("80ff0206c001ff01ff")
assert jilgomt.canonicalise("seq1", octets) == (bytes.fromhex("00ff"), b"")
assert jilgomt.canonicalise("bool", bytes.fromhex("3300")) == (b"\xff", b"\0")
assert jilgomt.convert("seq2", "seq1", octets + b"w") == (bytes.fromhex("00ff"), b"w")
assert jilgomt.check("seq2", octets + b"w") == (9, 9, True)
assert jilgomt.check("seq2", bytes.fromhex("80330206c001ff01ff"), OER) == (9, 9, False)
assert jilgomt.canonicalise("octets", bytes.fromhex("8203e8") + bytes(1000))[0] == bytes.fromhex("8203e8") + bytes(1000)
assert jilgomt.canonicalise("empty", b"", COER) == (b"", b"")


def refused(call, *words):
    try:
        call(*words)
    except (KeyError, ValueError) as e:
        return e
    raise AssertionError(words)


e = refused(jilgomt.check, "bool", b"\x33")
assert isinstance(e, Refused) and (e.kind, e.number, e.is_of_other) == ("InvalidBool", 0x33, False)
e = refused(jilgomt.check, "seq2", octets[:7])
assert isinstance(e, Refused) and (e.kind, e.size) == ("Incomplete", 1)
e = refused(jilgomt.convert, "bool", "int", b"\0")
assert isinstance(e, Refused) and (e.kind, e.is_of_other) == ("EmptyInteger", True)
assert isinstance(refused(jilgomt.check, "nosuch", b""), KeyError)
assert not isinstance(refused(jilgomt.check, "bool", b"\0", COER, 1025), (KeyError, Refused))
assert jilgomt.version() == "0.1.0"
# Letter ::= SEQUENCE { on BOOLEAN, ..., parts SEQUENCE OF OCTET STRING OPTIONAL }
module = Module({"words": [4, 5, 15, 16, 19, 11, 1, 1, 1, 0, 0, 1, 1, 1, 2, 0, 10, 0, 3, 8, 0], "names": ["on", "parts"],
                 "types": ["Letter", "BOOLEAN", "SEQUENCE OF", "OCTET STRING"]})
letter = bytes.fromhex("80ff02078005010102aabb55")
assert module.value("Letter", letter) == ({"on": True, "parts": ["aabb"]}, b"\x55")
assert [(it.path, it.start, it.end) for it in module.parts("Letter", letter)] == [("", 0, 11), ("on", 1, 2), ("parts", 5, 11), ("parts.[]", 8, 11)]
e = refused(module.value, "Letter", bytes.fromhex("80ff02078005010109aabb55"))
assert isinstance(e, Refused) and (e.kind, e.octet, str(e)) == ("Incomplete", 8, "at octet 8, in parts.[]: Incomplete")
letters = Module.load(str(pathlib.Path(__file__).resolve().parents[2] / "crates/oershow/data/letters.table"))
assert letters.value("Part", bytes.fromhex("80026869")) == ({"text": "hi"}, b"")
assert letters.value("Colour", b"\x82\x01\x2c\0") == ("far", b"\0")
assert letters.value("Label", bytes.fromhex("800400e920ac")) == ({"wide": "\u00e9\u20ac"}, b"")
assert letters.value("Label", bytes.fromhex("8108000000e90001f600")) == ({"widest": "\u00e9\U0001f600"}, b"")
assert letters.value("Label", bytes.fromhex("8200110000")) == ({"sign": "\ufffd"}, b"")
assert letters.value("Part", bytes.fromhex("8203000102")) == ({"later": False}, b"")
assert letters.value("Marks", b"\xaf") == ("a0", b"")
assert letters.value("Notes", bytes.fromhex("0307807f")) == ({"value": "8000", "length": 9}, b"")
assert isinstance(refused(Module.of_lines, "name a\n"), ValueError)
print("calls.py: all as wanted")
