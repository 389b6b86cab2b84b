"""Values as Python sees them: a walk of octets by a module's table, which `oergen --table` prints."""
from __future__ import annotations

import ctypes
import json
from typing import Any, Dict, Iterator, List, NamedTuple, Optional, Tuple

from . import library as c
from .calls import LEVELS, Refused
from .library import Node

NONE = 2**32 - 1
UNFINISHED = 2**64 - 1
BOOLEAN, NULL, FIXED_INTEGER, INTEGER, ENUMERATED, FIXED_BITS, BITS, FIXED_OCTETS, OCTETS, NAMED_BITS = range(10)
LIST, SEQUENCE, CHOICE = 10, 11, 12
# The encodings of contents that are text, by what a table says that they are; times too.
TEXTS = {1: "utf-8", 9: "utf-16-be", 10: "utf-32-be", **dict.fromkeys((2, 3, 4, 5, 6, 7, 8, 21, 22, 23), "latin-1")}


def _used(octets: bytes, bits: int) -> bytes:
    """Octets with zeros behind so many bits: lenient reading takes any unused ones."""
    unused = -bits % 8
    return octets[:-1] + bytes([octets[-1] >> unused << unused]) if octets else octets


class Part(NamedTuple):
    """A part of a value: its path, as `content.signedData`, its type, and where it lies."""

    path: str
    type_name: str
    kind: int
    level: int
    start: int
    content: int
    end: Optional[int]


class Module:
    """The types of ASN.1 modules."""

    def __init__(self, table: Dict[str, Any]):
        self._words = (ctypes.c_uint32 * len(table["words"]))(*table["words"])
        self.names: List[str] = table["names"]
        self.types: List[str] = table["types"]
        self._values: Dict[int, Dict[int, str]] = {}
        for type_number, number, name in table.get("values", ()):
            self._values.setdefault(type_number, {})[number] = name

    @classmethod
    def load(cls, file: str) -> Module:
        """The types in a file that has what `oergen --table` printed, or a table in JSON."""
        with open(file, encoding="utf-8") as lines:
            text = lines.read()
        return cls(json.loads(text)) if text.startswith("{") else cls.of_lines(text)

    @classmethod
    def of_lines(cls, text: str) -> Module:
        """The types in the lines that `oergen --table` prints."""
        found: Dict[str, List[str]] = {"words": [], "name": [], "type": [], "value": []}
        for line in text.split("\n"):
            word, _, rest = line.partition(" ")
            found.setdefault(word, []).append(rest)
        if len(found["words"]) != 1:
            raise ValueError("no table of types: it has no line of words, or several")
        values = (it.split(" ", 2) for it in found["value"])
        return cls({"words": [int(it) for it in found["words"][0].split(" ")], "names": found["name"], "types": found["type"],
                    "values": [(int(type_number), int(number), name) for type_number, number, name in values]})

    def walk(self, type_name: str, octets: bytes, levels: int = LEVELS) -> Tuple[List[Node], c.Answer]:
        """The nodes of the value that begins the octets, and the answer: at a refusal those up to its place."""
        octets, answer, room = bytes(octets), c.Answer(), 64
        while True:
            nodes = (Node * room)()
            c.library().jilgomt_walk(self._words, len(self._words), self.types.index(type_name), levels, octets, len(octets), nodes, room, answer)
            if answer.written <= room:
                return nodes[: answer.written], answer
            room = answer.written

    def parts(self, type_name: str, octets: bytes) -> Iterator[Part]:
        """Each part of the value that begins the octets, in their order. Raises Refused behind the last before a refusal."""
        nodes, answer = self.walk(type_name, octets)
        for at, node in enumerate(nodes):
            end = None if node.end == UNFINISHED else node.end
            yield Part(self._path(nodes, at), self._type_name(node), node.kind, node.level, node.start, node.content, end)
        self._heed(nodes, answer)

    def value(self, type_name: str, octets: bytes) -> Tuple[Any, bytes]:
        """The value that begins the octets, of numbers, texts, lists and dicts, and the octets behind it. Raises Refused.

        OCTET STRING and open types are in hexadecimal, bit strings of no fixed size a dict of `value` and `length`, a CHOICE a dict of
        one name. Constraints and canonical form aren't looked at: `check` does, for a type with a word.
        """
        octets = bytes(octets)
        nodes, answer = self.walk(type_name, octets)
        self._heed(nodes, answer)
        inner: List[List[Tuple[Optional[str], Any]]] = [[] for _ in nodes]
        for at in range(len(nodes) - 1, -1, -1):
            value = self._value(nodes[at], inner[at][::-1], octets)
            if at == 0:
                return value, octets[answer.consumed:]
            name = nodes[at].name
            inner[nodes[at].around].append((None if name == NONE else self.names[name], value))
        raise ValueError("no nodes")

    def _heed(self, nodes: List[Node], answer: c.Answer) -> None:
        if answer.status != c.DONE:
            at = max((at for at, node in enumerate(nodes) if node.end == UNFINISHED), default=0)
            raise Refused(answer, f"at octet {answer.consumed}, in {self._path(nodes, at) or 'the value'}: ")

    def _path(self, nodes: List[Node], at: int) -> str:
        path: List[str] = []
        while 0 < at < len(nodes):
            name = nodes[at].name
            path.append("[]" if name == NONE else self.names[name])
            at = nodes[at].around
        return ".".join(reversed(path))

    def _type_name(self, node: Node) -> str:
        return "?" if node.type_number >= len(self.types) else self.types[node.type_number]

    def _form(self, node: Node) -> List[int]:
        place = self._words[1 + node.type_number]
        return self._words[place: place + 3]

    def _value(self, node: Node, inner: List[Tuple[Optional[str], Any]], octets: bytes) -> Any:
        if node.kind == LIST:
            return [value for _, value in inner]
        if node.kind in (SEQUENCE, CHOICE):
            return {name or "?": value for name, value in inner}
        return self._leaf(node, octets[node.content: node.end])

    def _leaf(self, node: Node, content: bytes) -> Any:
        if node.kind == BOOLEAN:
            return content != b"\0"
        if node.kind == NULL:
            return None
        if node.kind in (FIXED_INTEGER, INTEGER):
            is_signed = self._form(node)[2 if node.kind == FIXED_INTEGER else 1]
            return int.from_bytes(content, "big", signed=bool(is_signed))
        if node.kind == ENUMERATED:
            number = content[0] if content[0] < 128 else int.from_bytes(content[1:], "big", signed=True)
            return self._values.get(node.type_number, {}).get(number, number)
        if node.kind in (BITS, NAMED_BITS):
            length = 8 * len(content) - 8 - content[0] if content else 0
            return {"value": _used(content[1:], length).hex(), "length": length}
        if node.kind == FIXED_BITS:
            return _used(content, self._form(node)[1]).hex()
        return self._text(node, content)

    def _text(self, node: Node, content: bytes) -> str:
        text = self._form(node)[2 if node.kind == FIXED_OCTETS else 1] if node.kind in (FIXED_OCTETS, OCTETS) else 0
        return content.decode(TEXTS[text], "replace") if text in TEXTS else content.hex()
