"""Calls over octets: a word names a type."""
from __future__ import annotations

import ctypes
from typing import Callable, NamedTuple, Tuple

from . import library as c

OER = 0
"""Lenient reading, by the basic rules."""
COER = 1
"""Canonical reading."""
LEVELS = 128
"""How many sequences, sets, lists and choices may be nested, unless the caller says otherwise: at most 1,024."""


class Refused(ValueError):
    """Octets that were refused: `kind` is the name of the kind, and the other fields are 0 where it has none."""

    def __init__(self, answer: c.Answer, where: str = ""):
        self.kind = c.text_of("jilgomt_kind_name", answer.status, answer.kind)
        self.is_reading = answer.status in (c.UNREAD, c.UNREAD_AS_OTHER)
        self.is_of_other = answer.status in (c.UNREAD_AS_OTHER, c.UNWRITTEN_AS_OTHER)
        self.size, self.number = answer.size, answer.number
        self.tag = (answer.tag_class, answer.tag_number)
        self.octet = answer.consumed
        super().__init__(where + self.kind)


class Checked(NamedTuple):
    """What octets at the front of an input are."""

    consumed: int
    canonical_size: int
    is_canonical: bool


def done(answer: c.Answer) -> c.Answer:
    """The answer; raises where there is nothing to answer."""
    if answer.status == c.NO_TYPE:
        raise KeyError("no such type")
    if answer.status == c.NO_OPTIONS:
        raise ValueError("no such mode, or more than 1,024 levels")
    if answer.status not in (c.DONE, c.NO_ROOM):
        raise Refused(answer)
    return answer


def _with_room(octets: bytes, call: Callable[[ctypes.Array, int, c.Answer], int]) -> Tuple[bytes, bytes]:
    """What a call writes with room for what came and some more, or where that is too little as much as is needed; and the rest."""
    room = len(octets) + 16
    while True:
        out, answer = ctypes.create_string_buffer(room), c.Answer()
        call(out, room, answer)
        if done(answer).status == c.DONE:
            return out.raw[: answer.written], octets[answer.consumed:]
        room = answer.written


def canonicalise(word: str, octets: bytes, mode: int = OER, levels: int = LEVELS) -> Tuple[bytes, bytes]:
    """The canonical octets of the value whose encoding begins the octets, and the octets behind it. Raises Refused."""
    name, octets = word.encode(), bytes(octets)
    call = c.library().jilgomt_canonicalise
    return _with_room(octets, lambda out, room, answer: call(name, len(name), mode, levels, octets, len(octets), out, room, answer))


def check(word: str, octets: bytes, mode: int = COER, levels: int = LEVELS) -> Checked:
    """How many octets the encoding takes that begins the octets, and whether it is canonical. Raises Refused."""
    name, octets, answer = word.encode(), bytes(octets), c.Answer()
    c.library().jilgomt_check(name, len(name), mode, levels, octets, len(octets), answer)
    done(answer)
    return Checked(answer.consumed, answer.written, answer.flag == 1)


def convert(sent: str, wanted: str, octets: bytes, mode: int = COER, levels: int = LEVELS) -> Tuple[bytes, bytes]:
    """The canonical octets, as another version of the type, of the value whose encoding begins the octets, and the octets behind
    it. Raises Refused."""
    old, new, octets = sent.encode(), wanted.encode(), bytes(octets)
    call = c.library().jilgomt_convert
    return _with_room(octets, lambda out, room, answer: call(old, len(old), new, len(new), mode, levels, octets, len(octets), out, room, answer))


def version() -> str:
    """The version of the library that was loaded."""
    return c.text_of("jilgomt_version")
