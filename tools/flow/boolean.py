"""Short expressions for small tables of truth, by Quine and McCluskey's prime terms."""
from __future__ import annotations

import itertools
from typing import Dict, Optional, Tuple

Table = Dict[Tuple[int, ...], int]
Term = Tuple[Optional[int], ...]       # for each input 0, 1, or None where it plays no part


def covers(term: Term, point: tuple[int, ...]) -> bool:
    return all(want is None or want == have for want, have in zip(term, point))


def primes(points: set[Term]) -> set[Term]:
    """The terms that no shorter one contains."""
    found: set[Term] = set()
    while points:
        merged, used = set(), set()
        for a, b in itertools.combinations(points, 2):
            differ = [at for at in range(len(a)) if a[at] != b[at]]
            if len(differ) == 1 and None not in (a[differ[0]], b[differ[0]]):
                merged.add(a[:differ[0]] + (None,) + a[differ[0] + 1:])
                used |= {a, b}
        found |= points - used
        points = merged
    return found


def cover(table: Table, value: int) -> list[Term]:
    """Few prime terms that together are true exactly where the table has this value."""
    wanted = {point for point, told in table.items() if told == value}
    terms = sorted(primes(set(wanted)), key=lambda term: [2 if at is None else at for at in term])
    chosen: list[Term] = []
    while wanted:
        best = max(terms, key=lambda term: sum(covers(term, point) for point in wanted))
        chosen.append(best)
        wanted = {point for point in wanted if not covers(best, point)}
    return chosen


def length(terms: list[Term]) -> int:
    """How long the sum is: each input counts, and once more where it is negated."""
    return sum(2 - at for term in terms for at in term if at is not None)


def sum_of(terms: list[Term], pins: tuple[str, ...], no: str) -> str:
    words = []
    for term in terms:
        factors = [pin if at else no + pin for pin, at in zip(pins, term) if at is not None]
        words.append("&".join(factors) if len(terms) == 1 or len(factors) == 1 else f"({'&'.join(factors)})")
    return "|".join(words)


def expression(table: Table, pins: tuple[str, ...], no: str = "!") -> str:
    """The table as an expression: a sum of products, of the function or of its complement, whichever is shorter."""
    if len(set(table.values())) == 1:
        return str(next(iter(table.values())))
    true, false = cover(table, 1), cover(table, 0)
    if length(true) <= length(false) + 1:
        return sum_of(true, pins, no)
    inside = sum_of(false, pins, no)
    return no + (inside if inside.isalnum() else f"({inside})")


def sense(table: Table, at: int) -> str:
    """How the table goes by an input: `positive_unate`, `negative_unate` or `non_unate`."""
    ways = set()
    for point, value in table.items():
        if not point[at]:
            ways.add(table[point[:at] + (1,) + point[at + 1:]] - value)
    if 1 in ways and -1 in ways:
        return "non_unate"
    return "negative_unate" if -1 in ways else "positive_unate"
