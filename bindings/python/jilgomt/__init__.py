"""OER and COER (ITU-T X.696) by Jilgomt's proved library: `canonicalise`, `check`, `convert`, and `Module` for values.

>>> import jilgomt
>>> jilgomt.canonicalise("seq1", bytes.fromhex("80ff0206c001ff01ff"))
(b'\\x00\\xff', b'')

The shared library is found as the system finds libjilgomt.so.0, or where the environment's JILGOMT names it.
"""
from .calls import COER, LEVELS, OER, Checked, Refused, canonicalise, check, convert, version
from .walks import Module, Node, Part

__all__ = ["COER", "LEVELS", "OER", "Checked", "Module", "Node", "Part", "Refused", "canonicalise", "check", "convert", "version"]
