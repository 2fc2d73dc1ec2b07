#!/usr/bin/env python3
"""Asks a solver of propositional logic whether some fingers have an arrangement with at most N gaps.

    benchmarks/trails/encode.py SPICE CELL GAPS > cell.cnf          # DIMACS; a solver says yes where there is such an arrangement

The columns are numbered from left to right. The row that has the most fingers on a gate is that gate's full row: its fingers
stand in different columns and fill them all. Variables say in which column a finger stands, whether it is turned, which gate a
column has, which net the left and the right end of a place has, and where a gap is. Equal fingers stand in their order, and the
first finger of a full row in the left half, since a row read from right to left has the same gaps.

What follows from these clauses is said too, since solvers are slow to find it: a row with g gaps is g + 1 trails through its
columns, where a column is an edge between two pairs of a P net and an N net, so at most 2 (g + 1) pairs have an odd number of ends.
"""
import pathlib
import sys

from clauses import Clauses
from fingers import columns_of, columns_on, fingers_of, of_one_width


class Row:
    """The variables of one row: `stands[finger][column]`, `turned[finger]`, and the nets at both ends of each place."""

    def __init__(self, out, fingers, columns):
        self.fingers = of_one_width(fingers)
        self.nets = sorted({net for one in fingers for net in (one.lo, one.hi)})
        self.stands = [out.several(columns) for _ in fingers]
        self.turned = out.several(len(fingers))
        self.left = [dict(zip(self.nets, out.several(len(self.nets)))) for _ in range(columns)]
        self.right = [dict(zip(self.nets, out.several(len(self.nets)))) for _ in range(columns)]
        self.filled = out.several(columns)


def place_fingers(out, row, columns):
    """Each finger stands in one column, each place has at most one finger, and equal fingers stand in their order."""
    for stands in row.stands:
        out.exactly_one(stands)
    for column in range(columns):
        here = [stands[column] for stands in row.stands]
        out.at_most_one(here)
        out.add(-row.filled[column], *here)
        for variable in here:
            out.add(-variable, row.filled[column])
    for at, (one, other) in enumerate(zip(row.fingers, row.fingers[1:])):
        if one == other:
            for column in range(columns):
                out.add(-row.stands[at + 1][column], *row.stands[at][:column])


def name_nets(out, row, columns):
    """The nets at the ends of each place are those of the finger that stands there."""
    for one, stands, turned in zip(row.fingers, row.stands, row.turned):
        if one.lo == one.hi:
            out.add(-turned)
        for column in range(columns):
            for sign, left, right in ((turned, one.lo, one.hi), (-turned, one.hi, one.lo)):
                out.add(-stands[column], sign, row.left[column][left])
                out.add(-stands[column], sign, row.right[column][right])
    for column in range(columns):
        for ends in (row.left[column], row.right[column]):
            out.at_most_one(list(ends.values()))
            for variable in ends.values():
                out.add(-variable, row.filled[column])


def full_rows(rows):
    """For each gate the row that has the most fingers on it."""
    gates = {one.gate for row in rows for one in row.fingers}
    return {gate: max(rows, key=lambda row, gate=gate: sum(one.gate == gate for one in row.fingers)) for gate in gates}


def join_rows(out, fingers, rows, columns):
    """A column has one gate, that of its fingers."""
    on = columns_on(fingers)
    gates = [dict(zip(on, out.several(len(on)))) for _ in range(columns)]
    for column in range(columns):
        out.exactly_one(list(gates[column].values()))
    for row in rows:
        for one, stands in zip(row.fingers, row.stands):
            for column in range(columns):
                out.add(-stands[column], gates[column][one.gate])
    full = full_rows(rows)
    most = [stands for row in rows for one, stands in zip(row.fingers, row.stands) if full[one.gate] is row]
    for column in range(columns):
        out.exactly_one([stands[column] for stands in most])
    out.add(*most[0][: (columns + 1) // 2])


def mark_gaps(out, rows, columns):
    """A variable for each two neighbouring columns, which is true where a gap stands between them."""
    gaps = out.several(columns - 1)
    for row in rows:
        for column, gap in enumerate(gaps):
            for net in row.nets:
                right, left = row.right[column][net], row.left[column + 1][net]
                out.add(-right, -row.filled[column + 1], left, gap)
                out.add(-left, -row.filled[column], right, gap)
    return gaps


class Edge:
    """A finger of a full row as an edge: its own nets, and variables for the nets that face them in the other row."""

    def __init__(self, out, one, facing):
        self.lo, self.hi = one.lo, one.hi
        self.at_lo, self.at_hi = (dict(zip(facing, out.several(len(facing)))) for _ in range(2))
        out.exactly_one(list(self.at_lo.values()))
        out.exactly_one(list(self.at_hi.values()))

    def meet(self, out, one, together, turned, other_turned):
        """Where it stands together with a finger of the other row, that finger's nets face its own."""
        for sign, other_sign in ((1, 1), (1, -1), (-1, 1), (-1, -1)):
            lo, hi = (one.lo, one.hi) if sign == other_sign else (one.hi, one.lo)
            for at, net in ((self.at_lo, lo), (self.at_hi, hi)):
                out.add(-together, sign * turned, other_sign * other_turned, at[net])

    def ends(self, is_p):
        """Each pair of nets that may be one of its ends, with the variable that says so."""
        for own, at in ((self.lo, self.at_lo), (self.hi, self.at_hi)):
            for net, variable in at.items():
                yield (own, net) if is_p else (net, own), variable


def edge_of(out, row, other, at, count):
    """The edge of a finger of a full row, of which the other row has that many on its gate."""
    one = row.fingers[at]
    mates = [mate for mate, finger in enumerate(other.fingers) if finger.gate == one.gate]
    nets = {net for mate in mates for net in (other.fingers[mate].lo, other.fingers[mate].hi)}
    edge = Edge(out, one, sorted(nets) if len(mates) == count else other.nets or [0])
    for mate in mates:
        together = out.new()
        for column, here in enumerate(row.stands[at]):
            out.add(-here, -other.stands[mate][column], together)
        edge.meet(out, other.fingers[mate], together, row.turned[at], other.turned[mate])
    return edge


def count_ends(out, rows, full, most):
    """At most 2 (most + 1) pairs of nets have an odd number of ends."""
    meets = {}
    for row, other in (rows, rows[::-1]):
        for at, one in enumerate(row.fingers):
            if full[one.gate] is row:
                count = sum(finger.gate == one.gate for finger in row.fingers)
                for pair, variable in edge_of(out, row, other, at, count).ends(row is rows[0]):
                    meets.setdefault(pair, []).append(variable)
    out.at_most([out.odd(variables) for variables in meets.values()], 2 * (most + 1))


def encode(fingers, most):
    """The clauses that some arrangement of the fingers with at most N gaps satisfies, and nothing else."""
    out, columns = Clauses(), columns_of(fingers)
    rows = [Row(out, row, columns) for row in (fingers.p, fingers.n)]
    for row in rows:
        place_fingers(out, row, columns)
        name_nets(out, row, columns)
    join_rows(out, fingers, rows, columns)
    out.at_most(mark_gaps(out, rows, columns), most)
    count_ends(out, rows, full_rows(rows), most)
    return out


def main():
    if {"-h", "--help"} & set(sys.argv[1:]):
        print(__doc__)
        return
    if len(sys.argv) != 4:
        sys.exit(__doc__)
    path, name, most = sys.argv[1:]
    sys.stdout.write(encode(fingers_of(pathlib.Path(path).read_text(), name.lower()), int(most)).dimacs())


if __name__ == "__main__":
    main()
