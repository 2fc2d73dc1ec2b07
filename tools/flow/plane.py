"""Sets of points of a small area, one integer for each row of points."""
from __future__ import annotations

from collections.abc import Callable, Iterable, Iterator

from gdsii import Box


class Plane:
    """Points with x from 0 to width and y from 0 to height."""

    def __init__(self, width: int, height: int, rows: list[int] | None = None) -> None:
        self.width, self.height = width, height
        self.rows = rows or [0] * (height + 1)

    def add(self, x0: int, y0: int, x1: int, y1: int) -> None:
        """Adds the points from (x0, y0) to (x1, y1), as far as they are in the area."""
        x0, x1 = max(x0, 0), min(x1, self.width)
        if x0 > x1:
            return
        run = (1 << x1 + 1) - (1 << x0)
        for y in range(max(y0, 0), min(y1, self.height) + 1):
            self.rows[y] |= run

    def has(self, x: int, y: int) -> bool:
        return bool(self.rows[y] >> x & 1)

    def __or__(self, other: Plane) -> Plane:
        return Plane(self.width, self.height, [a | b for a, b in zip(self.rows, other.rows)])

    def __sub__(self, other: Plane) -> Plane:
        return Plane(self.width, self.height, [a & ~b for a, b in zip(self.rows, other.rows)])

    def _along(self, by: int, join: Callable[[int, int], int]) -> Plane:
        """Joins each point with those to its right and above it, `by` points far."""
        rows = self.rows
        for step in steps(by):
            rows = [join(row, row >> step) for row in rows]
        for step in steps(by):
            rows = [join(row, rows[y + step] if y + step < len(rows) else 0) for y, row in enumerate(rows)]
        return Plane(self.width, self.height, rows)

    def closed(self, by: int) -> Plane:
        """The set with all clefts of fewer than `by` points filled."""
        reach = by - 1
        rows = [0] * reach + [row << reach for row in self.rows] + [0] * reach
        wide = Plane(self.width + 2 * reach, self.height + 2 * reach, rows)._along(reach, int.__or__)
        return Plane(self.width, self.height, wide._along(reach, int.__and__).rows[:self.height + 1])

    def bytes(self) -> bytearray:
        """A byte for each point, row by row."""
        width = self.width + 1
        return bytearray(b"".join(format(row, f"0{width}b")[::-1].encode().translate(BITS) for row in self.rows))

    def rectangles(self) -> Iterator[Box]:
        """Rectangles that together are the set, where each point is a unit square up and right of it."""
        open_runs: dict[tuple[int, int], int] = {}
        for y, row in enumerate([*self.rows, 0]):
            here = set(runs(row))
            for run in [run for run in open_runs if run not in here]:
                yield Box(run[0], open_runs.pop(run), run[1], y)
            for run in here:
                open_runs.setdefault(run, y)


BITS = bytes.maketrans(b"01", b"\0\1")


def steps(by: int) -> Iterator[int]:
    """Steps that double the reach: shifts by these join `by` + 1 neighbours."""
    reached = 1
    while reached <= by:
        step = min(reached, by + 1 - reached)
        yield step
        reached += step


def runs(row: int) -> Iterator[tuple[int, int]]:
    at = 0
    while row:
        skip = (row & -row).bit_length() - 1
        row, at = row >> skip, at + skip
        long = (~row & row + 1).bit_length() - 1
        yield at, at + long
        row, at = row >> long, at + long


def nearer(width: int, height: int, boxes: Iterable[Box], distance: int) -> Plane:
    """The points nearer than `distance` to one of the boxes, the larger of the differences of x and y counting."""
    plane = Plane(width, height)
    for x0, y0, x1, y1 in boxes:
        plane.add(x0 - distance + 1, y0 - distance + 1, x1 + distance - 1, y1 + distance - 1)
    return plane


def cells(width: int, height: int, boxes: Iterable[Box]) -> Plane:
    """The unit squares of the boxes."""
    plane = Plane(width, height)
    for x0, y0, x1, y1 in boxes:
        plane.add(x0, y0, x1 - 1, y1 - 1)
    return plane
