"""Further contacts on gates, for pins whose own contact is shut in by its neighbours. Lengths are in grid units."""
from __future__ import annotations

from collections.abc import Iterable

from gdsii import Box, Structure
from leads import CUT, PAD, square
from plane import nearer

GATE, POLY = 4, 5           # the width of a gate's poly, and half the width of poly round a contact (5.2)
POLY_SPACING, POLY_TO_ACTIVE, CONTACT_SPACING, METAL1_SPACING, VIA_TO_POLY = 6, 2, 6, 6, 4  # 3.2, 3.5, 5.3, 7.2, 8.5


def shapes(x: int, y: int) -> dict[str, Box]:
    """A contact on poly."""
    return {"poly": square(x, y, POLY), "contact": square(x, y, CUT), "metal1": square(x, y, PAD)}


def gates(structure: Structure, metal1: list[Box]) -> list[Box]:
    """The upright poly under metal1 of a net: its gates, from row to row."""
    reached = [box for box in structure.on("contact") if any(box.overlaps(it) for it in metal1)]
    return [box for box in structure.on("poly")
            if box.x1 - box.x0 == GATE and any(box.overlaps(it) for it in reached)]


def places(structure: Structure, own: list[Box], metal1: list[Box], vias: list[Box],
           rows: Iterable[int]) -> list[tuple[int, int]]:
    """Where a further contact may be on a gate under `own` metal1, at heights of `rows`: its poly and its metal1 are
    near to nothing else there. `metal1` and `vias` are all those of the cell."""
    here = gates(structure, own)
    if not here:
        return []
    near = ((metal1, METAL1_SPACING + PAD), (vias, VIA_TO_POLY + POLY),
            ([box for box in structure.on("poly") if box not in here], POLY_SPACING + POLY),
            (structure.on("contact"), CONTACT_SPACING + CUT), (structure.on("active"), POLY_TO_ACTIVE + POLY))
    width, height = max(box.x1 for box in here), max(box.y1 for box in here)
    shut = [nearer(width, height, boxes, distance) for boxes, distance in near]
    return [((box.x0 + box.x1) // 2, y) for box in here for y in rows
            if box.y0 <= y <= box.y1 and not any(plane.has((box.x0 + box.x1) // 2, y) for plane in shut)]
