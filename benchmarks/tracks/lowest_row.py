"""The lowest row of a small cell from its meaning: all rows are listed that have as few gaps as a row that can be
wired, and all legal routings are tried.

It has no states, bounds or lemmas. A row is a list of columns; a place of a column is a pair of a kind's number and a
flip, or None. Lengths are in grid units.
"""
import itertools
from collections import Counter, namedtuple

Column = namedtuple("Column", "gate p n")
# nodes: line, side and net of each node place; spans: net to its first and last line; above: pairs of nets
Channel = namedtuple("Channel", "units wide nodes spans above")
Stretch = namedtuple("Stretch", "left right net")                  # a trunk, or a piece of one
# least: the fewest gaps of all rows; gaps: of those that can be wired; rows: how many have no more; wired: the first of
# these that can be wired; routing: stretches to their tracks
Lowest = namedtuple("Lowest", "least gaps rows wired row tracks routing")


class Cell:
    """The fingers of both rows by kind, and which nets are pins and rails."""

    def __init__(self, fingers, pins, rails):
        self.nets, self.pins, self.rails = fingers.nets, pins, rails
        counts = [Counter(row) for row in (fingers.p, fingers.n)]
        self.kinds = [sorted(count) for count in counts]           # by gate, lesser end, greater end, width
        self.counts = [[count[kind] for kind in kinds] for count, kinds in zip(counts, self.kinds)]
        self.gates = sorted({kind.gate for kinds in self.kinds for kind in kinds})
        gates = [Counter(one.gate for one in row) for row in (fingers.p, fingers.n)]
        self.columns = sum(max(count[gate] for count in gates) for gate in self.gates)

    def ends(self, at, place):
        """The nets at the left and at the right of a place of the P row (0) or the N row (1)."""
        kind, flip = place
        one = self.kinds[at][kind]
        return (one.hi, one.lo) if flip else (one.lo, one.hi)

    def width(self, at, place):
        return self.kinds[at][place[0]].width


def places_left(cell, at, left, gate):
    """The places that may come next on a gate, in the order of rows."""
    for kind, one in enumerate(cell.kinds[at]):
        if left[kind] and one.gate == gate:
            yield kind, 0
            if one.lo != one.hi:
                yield kind, 1


def next_columns(cell, left):
    """The columns that may come next, in the order of rows: an empty place comes after all others."""
    for gate in cell.gates:
        p, n = ([*places_left(cell, at, left[at], gate)] for at in (0, 1))
        more = sum(left[0][kind] for kind, flip in p if not flip) - sum(left[1][kind] for kind, flip in n if not flip)
        for p_place in p:
            yield from (Column(gate, p_place, n_place) for n_place in n)
            if more > 0:
                yield Column(gate, p_place, None)
        if more < 0:
            yield from (Column(gate, None, n_place) for n_place in n)


def is_gap(cell, column, following):
    """In some row both places are filled and the nets that face each other differ."""
    return any(place is not None and other is not None and cell.ends(at, place)[1] != cell.ends(at, other)[0]
               for at, (place, other) in enumerate(zip(column[1:], following[1:])))


def rows(cell, gaps, begun=(), left=None):
    """The arrangements with at most that many gaps, in order."""
    left = left or tuple(map(tuple, cell.counts))
    if len(begun) == cell.columns:
        yield begun
        return
    for column in next_columns(cell, left):
        cost = int(bool(begun) and is_gap(cell, begun[-1], column))
        if cost <= gaps:
            rest = tuple(tuple(count - (place is not None and kind == place[0]) for kind, count in enumerate(counts))
                         for counts, place in zip(left, column[1:]))
            yield from rows(cell, gaps - cost, (*begun, column), rest)


def channel(cell, row):
    """The units of the row (column or gap), the lines of wide contacts, and trunks and constraints between them."""
    units, nodes, gates = [], set(), []
    for at, column in enumerate(row):
        if at and is_gap(cell, row[at - 1], column):
            units.append("gap")
        line = 2 * len(units)
        units.append("column")
        gates.append((line + 1, column.gate))
        for side, place in enumerate(column[1:]):
            if place is not None:
                left, right = cell.ends(side, place)
                nodes |= {(line, side, left), (line + 2, side, right)}
    lines = {}
    for line, net in [(line, net) for line, _, net in nodes] + gates:
        lines.setdefault(net, []).append(line)
    spans = {net: (min(at), max(at)) for net, at in sorted(lines.items())
             if net not in cell.rails and (len(at) > 1 or net < cell.pins)}
    above = {(p, n) for line, side, p in nodes if side == 0 for other, at, n in nodes
             if at == 1 and other == line and p != n and p in spans and n in spans}
    wide = {line for line, _, net in nodes if net in cell.rails or net in spans}
    return Channel(units, wide, nodes, spans, above)


def first_routing(spans, above, tracks, given=()):
    """The first legal routing on exactly that many tracks, compared in order of net, or None."""
    nets = list(spans)
    if len(given) == len(nets):
        return dict(zip(nets, given)) if set(given) == set(range(tracks)) else None
    net = nets[len(given)]
    left, right = spans[net]
    for track in range(tracks):
        for other, at in zip(nets, given):
            meets = spans[other][0] <= right and left <= spans[other][1]
            if meets and at == track or (net, other) in above and track <= at or (other, net) in above and at <= track:
                break
        else:
            found = first_routing(spans, above, tracks, (*given, track))
            if found is not None:
                return found
    return None


def has_cycle(nets, above):
    """Whether each of some nets is above another one of them."""
    nets = set(nets)
    while kept := {net for net in nets if any((net, other) in above for other in nets)}:
        if kept == nets:
            return True
        nets = kept
    return False


def crossing(spans):
    """How many trunks cross a line at most; these need different tracks."""
    return max((sum(left <= line <= right for left, right in spans.values()) for line, _ in spans.values()), default=0)


def wired_rows(cell, gaps):
    """How many rows have at most that many gaps, and those of them that can be wired: row, channel, trunks that cross."""
    count, found = 0, []
    for row in rows(cell, gaps):
        it = channel(cell, row)
        count += 1
        if not has_cycle(it.spans, it.above):
            found.append((row, it, crossing(it.spans)))
    return count, found


def fewest_gaps(cell):
    return next(gaps for gaps in itertools.count() if any(True for _ in rows(cell, gaps)))


def lowest(cell):
    """Of the rows that can be wired with the fewest gaps the first on the fewest tracks, with its first routing. The row
    is None where no row can be wired; then the gaps are one less than the columns."""
    least = gaps = fewest_gaps(cell)
    count, wired = wired_rows(cell, gaps)
    while not wired and gaps + 1 < cell.columns:
        gaps += 1
        count, wired = wired_rows(cell, gaps)
    for tracks in range(len(cell.nets) + 1 if wired else 0):
        for row, it, crossed in wired:
            routing = first_routing(it.spans, it.above, tracks) if crossed <= tracks else None
            if routing is not None:
                trunks = {Stretch(*it.spans[net], net): track for net, track in routing.items()}
                return Lowest(least, gaps, count, wired[0][0], row, tracks, trunks)
    return Lowest(least, gaps, count, None, None, None, None)


def lines_of(it, routing):
    """Where the lines are, each as far left as the distances between lines allow."""
    asked = {}                                                     # pairs of lines to their distance
    for at, unit in enumerate(it.units):
        for line in (2 * at, 2 * at + 1):
            node = line + line % 2
            asked[line, line + 1] = 11 if unit == "column" and node in it.wide else 8
    for (one, at), (other, track) in itertools.product(routing.items(), repeat=2):
        if at == track and one.right < other.left:
            asked[one.right, other.left] = max(14, asked.get((one.right, other.left), 0))
    xs = [8]
    for line in range(1, 2 * len(it.units) + 1):
        xs.append(max([0, *(xs[before] + least for (before, after), least in asked.items() if after == line)]))
    return xs


def needed_height(cell, row, tracks):
    """The least height of the row's cell on that many tracks."""
    rows_of = [[10, *(cell.width(at, column[1 + at]) for column in row if column[1 + at])] for at in (0, 1)]
    return 24 + max(rows_of[1]) + 40 + 16 * max(tracks - 1, 0) + max(rows_of[0]) + 24
