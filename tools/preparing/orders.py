"""The orders in which transistors in series may stand: a row computes the same in all of them. Python 3.8.

A block is a transistor, blocks in series or blocks in parallel. A net is inside a series where nothing but two blocks
of one row meets it: no pin, no rail, no gate, no transistor of the other row.
"""
from __future__ import annotations

import itertools
import math
from collections import defaultdict
from dataclasses import dataclass, replace
from typing import Dict, Iterator, List, Sequence, Set, Tuple

from flat import Flat, Transistor

Ends = Tuple[str, str]


@dataclass(frozen=True)
class One:
    """A transistor by its place in the cell; `ends` are its drain and its source, or turned."""
    at: int
    ends: Ends
    is_turned: bool = False

    def turned(self) -> One:
        return One(self.at, self.ends[::-1], not self.is_turned)


@dataclass(frozen=True)
class Series:
    """Blocks from the first end to the second, and the nets between them."""
    parts: tuple
    nets: Tuple[str, ...]
    ends: Ends

    def turned(self) -> Series:
        return Series(tuple(part.turned() for part in self.parts[::-1]), self.nets[::-1], self.ends[::-1])


@dataclass(frozen=True)
class Parallel:
    parts: tuple
    ends: Ends

    def turned(self) -> Parallel:
        return Parallel(tuple(part.turned() for part in self.parts), self.ends[::-1])


def joined(first, second, net: str) -> Series:
    """Two blocks in series at a net."""
    first = first if first.ends[1] == net else first.turned()
    second = second if second.ends[0] == net else second.turned()
    parts, nets = (), ()
    for block in (first, second):
        if nets or parts:
            nets += (net,)
        parts += block.parts if isinstance(block, Series) else (block,)
        nets += block.nets if isinstance(block, Series) else ()
    return Series(parts, nets, (first.ends[0], second.ends[1]))


def beside(blocks: list) -> Parallel:
    first = blocks[0].ends
    parts = []
    for block in blocks:
        block = block if block.ends == first else block.turned()
        parts += block.parts if isinstance(block, Parallel) else (block,)
    return Parallel(tuple(parts), first)


def reduced(blocks: list, fixed: Set[str]) -> list:
    """The blocks of a row, joined as long as two of them are in series or in parallel."""
    while True:
        pairs = defaultdict(list)
        for block in blocks:
            if block.ends[0] != block.ends[1]:
                pairs[frozenset(block.ends)].append(block)
        same = next((group for group in pairs.values() if len(group) > 1), None)
        if same:
            blocks = [block for block in blocks if block not in same] + [beside(same)]
            continue
        met = defaultdict(list)
        for block in blocks:
            for net in set(block.ends):
                met[net].append(block)
        net = next((net for net, at in met.items() if net not in fixed and len(at) == 2
                    and all(block.ends[0] != block.ends[1] for block in at)), None)
        if net is None:
            return blocks
        blocks = [block for block in blocks if block not in met[net]] + [joined(*met[net], net)]


def row(cell: Flat, kind: str) -> list:
    """The blocks of the P or of the N row."""
    fixed = set(cell.pins).union(t.gate for t in cell.transistors)
    fixed |= {net for t in cell.transistors if t.kind != kind for net in (t.drain, t.source)}
    ones = [One(at, (t.drain, t.source)) for at, t in enumerate(cell.transistors) if t.kind == kind]
    return reduced(ones, fixed)


def series_of(blocks: Sequence) -> Iterator[Series]:
    for block in blocks:
        if isinstance(block, Series):
            yield block
        if not isinstance(block, One):
            yield from series_of(block.parts)


class Orders:
    """The series of a cell, and the cell with each of them in an order."""

    def __init__(self, cell: Flat) -> None:
        self.cell = cell
        self.blocks = row(cell, "p") + row(cell, "n")
        self.series: List[Series] = list(series_of(self.blocks))

    @property
    def count(self) -> int:
        return math.prod(math.factorial(len(it.parts)) for it in self.series)

    @property
    def plain(self) -> Tuple[Tuple[int, ...], ...]:
        return tuple(tuple(range(len(it.parts))) for it in self.series)

    def of(self, at: int) -> Iterator[Tuple[int, ...]]:
        return itertools.permutations(range(len(self.series[at].parts)))

    def all(self) -> Iterator[Tuple[Tuple[int, ...], ...]]:
        return itertools.product(*(self.of(at) for at in range(len(self.series))))

    def drawn(self, orders: Sequence[Tuple[int, ...]]) -> Flat:
        """The cell with its series in these orders."""
        self.ends: Dict[int, Ends] = {}
        self.by_series = dict(zip(self.series, orders))
        for block in self.blocks:
            self.place(block, *block.ends)
        transistors = [self.moved(at, t) for at, t in enumerate(self.cell.transistors)]
        return replace(self.cell, transistors=transistors)

    def moved(self, at: int, t: Transistor) -> Transistor:
        drain, source = self.ends[at]
        return replace(t, drain=drain, source=source)

    def place(self, block, first: str, second: str) -> None:
        """Puts a block between two nets."""
        if isinstance(block, One):
            self.ends[block.at] = (second, first) if block.is_turned else (first, second)
        elif isinstance(block, Parallel):
            for part in block.parts:
                self.place(part, first, second)
        else:
            nets = [first, *block.nets, second]
            for at, which in enumerate(self.by_series[block]):
                self.place(block.parts[which], nets[at], nets[at + 1])
