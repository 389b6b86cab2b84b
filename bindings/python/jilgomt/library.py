"""The functions of libjilgomt, as jilgomt.h declares them."""
from __future__ import annotations

import ctypes
import functools
import os

DONE, UNREAD, UNWRITTEN, NO_ROOM, NO_TYPE, NO_OPTIONS, UNREAD_AS_OTHER, UNWRITTEN_AS_OTHER = range(8)


class Answer(ctypes.Structure):
    """What a call answers."""

    _fields_ = [("status", ctypes.c_uint32), ("kind", ctypes.c_uint32), ("consumed", ctypes.c_size_t), ("written", ctypes.c_size_t),
                ("size", ctypes.c_size_t), ("number", ctypes.c_ssize_t), ("tag_class", ctypes.c_uint32), ("tag_number", ctypes.c_uint32),
                ("flag", ctypes.c_uint32), ("reserved", ctypes.c_uint32)]


class Node(ctypes.Structure):
    """A part of a value, and where it lies."""

    _fields_ = [("name", ctypes.c_uint32), ("type_number", ctypes.c_uint32), ("kind", ctypes.c_uint32), ("level", ctypes.c_uint32),
                ("around", ctypes.c_size_t), ("start", ctypes.c_size_t), ("content", ctypes.c_size_t), ("end", ctypes.c_size_t)]


@functools.lru_cache(maxsize=None)
def library() -> ctypes.CDLL:
    """The shared library, loaded at the first call."""
    it = ctypes.CDLL(os.environ.get("JILGOMT") or "libjilgomt.so.0")
    octets, size, number, answer = ctypes.c_char_p, ctypes.c_size_t, ctypes.c_uint32, ctypes.POINTER(Answer)
    calls = {
        "jilgomt_canonicalise": [octets, size, number, size, octets, size, octets, size, answer],
        "jilgomt_check": [octets, size, number, size, octets, size, answer],
        "jilgomt_convert": [octets, size, octets, size, number, size, octets, size, octets, size, answer],
        "jilgomt_walk": [ctypes.POINTER(number), size, number, number, octets, size, ctypes.POINTER(Node), size, answer],
        "jilgomt_kind_name": [number, number, octets, size],
        "jilgomt_version": [octets, size],
    }
    for name, parameters in calls.items():
        getattr(it, name).argtypes = parameters
        getattr(it, name).restype = size if name in ("jilgomt_kind_name", "jilgomt_version") else number
    return it


def text_of(call: str, *numbers: int) -> str:
    """What a function copies that answers a text's length."""
    room = ctypes.create_string_buffer(64)
    length = getattr(library(), call)(*numbers, room, len(room))
    return room.raw[:length].decode()
