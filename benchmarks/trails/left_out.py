"""Fingers of one row that are left out on some gates, as docs/FORMATS.md has them for version 3 of certificates by trails.

It shares no code with the program.
"""
from collections import namedtuple

from fingers import columns_of

LeftOut = namedtuple("LeftOut", "row gates")                 # "P" or "N"; gates in ascending order


def gates_with(fingers, row):
    """The gates with fingers of this row."""
    return sorted({one.gate for one in getattr(fingers, row.lower())})


def staying(fingers, out):
    """The fingers that stay: all of them, where `out` is None."""
    if out is None:
        return fingers
    name = out.row.lower()
    return fingers._replace(**{name: [one for one in getattr(fingers, name) if one.gate not in out.gates]})


def columns_lost(fingers, stay):
    """How many columns less the fingers that stay need: those on which none stays."""
    return columns_of(fingers) - columns_of(stay)
