"""Tracks along the rows of a cell, and lemmas on them, as crates/track_ways and crates/track_log say it. It is plain
and slow, and shares no code with the program.

A row is built column by column. Its state after some columns is how many fingers of each kind are left, and the net
at the open end of each row. A net is open there if it has a place before the last node line and one at it or later.
"""
import functools
import itertools
from collections import Counter, namedtuple

Kind = namedtuple("Kind", "gate lo hi width")
State = namedtuple("State", "p n p_end n_end")               # fingers left by kind; nets, or None
Place = namedtuple("Place", "kind gate left right")
Line = namedtuple("Line", "p n gate")                        # the net of each place, or None
Lemma = namedtuple("Lemma", "gaps state tracks")             # tracks: pairs of a net and its track


def kinds_of(row):
    """The kinds of the fingers of a row in order, and how many fingers each has."""
    count = Counter(Kind(one.gate, one.lo, one.hi, one.width) for one in row)
    return sorted(count), [count[kind] for kind in sorted(count)]


def trails_of(fingers, end):
    """The trails that the fingers of a row need, beside the one that goes on from the open end or begins the row."""
    odd, part = Counter(), {}

    def top(net):
        while part.setdefault(net, net) != net:
            net = part[net]
        return net
    for one in fingers:
        odd[one.lo] ^= 1
        odd[one.hi] ^= 1
        part[top(one.lo)] = top(one.hi)
    own = None
    if end is not None:
        odd[end] ^= 1
        own = top(end)
    trails = 0
    for each in {top(net) for net in tuple(part)}:
        ends = sum(odd[net] for net in tuple(part) if top(net) == each)
        trails += max(ends - 1, 0) // 2 if each == own else max(1, ends // 2)
    return trails - (end is None)


class Cell:
    """The kinds of both rows, and which nets are pins and rails."""

    def __init__(self, fingers, pins, rails):
        (self.p, p_counts), (self.n, n_counts) = kinds_of(fingers.p), kinds_of(fingers.n)
        self.pins, self.rails, self.nets = pins, rails, len(fingers.nets)
        self.start = State(tuple(p_counts), tuple(n_counts), None, None)
        self.all = self.touched(self.start)

    def left_on(self, state):
        """How many fingers each gate has left, in both rows."""
        rows = []
        for kinds, counts in ((self.p, state.p), (self.n, state.n)):
            rows.append(Counter())
            for kind, count in zip(kinds, counts):
                rows[-1][kind.gate] += count
        return rows

    def touched(self, state):
        """How many places each net has at the last node line and later."""
        count = Counter(net for net in (state.p_end, state.n_end) if net is not None)
        for kind, left in itertools.chain(zip(self.p, state.p), zip(self.n, state.n)):
            for net in (kind.gate, kind.lo, kind.hi):
                count[net] += left
        return +count

    def behind(self, state):
        """The nets with a place before the last node line."""
        here = self.touched(state)
        return {net for net, count in self.all.items() if here[net] < count}

    def open_at(self, state):
        return self.behind(state) & set(self.touched(state)) - self.rails

    def is_state(self, state):
        """Counts in range, and no gate has more left in the row that began with no more."""
        if (len(state.p), len(state.n)) != (len(self.p), len(self.n)):
            return False
        if any(left > all_ for left, all_ in zip(state.p + state.n, self.start.p + self.start.n)):
            return False
        (p_left, n_left), (p_all, n_all) = self.left_on(state), self.left_on(self.start)
        for gate in p_all | n_all:
            if p_all[gate] >= n_all[gate] and p_left[gate] < n_left[gate]:
                return False
            if n_all[gate] >= p_all[gate] and n_left[gate] < p_left[gate]:
                return False
        return True

    def has_ends(self, state):
        """The open ends are ends of fingers that were used."""
        return all(count <= self.all[net] for net, count in self.touched(state).items())

    @functools.lru_cache(maxsize=None)
    def bound(self, state):
        """Gaps that one of the rows needs by itself: its trails, less the places that stay empty in it."""
        p_left, n_left = self.left_on(state)
        rows = ((self.p, state.p, state.p_end, n_left - p_left), (self.n, state.n, state.n_end, p_left - n_left))
        return max(0, *(trails_of([kind for kind, left in zip(kinds, counts) for _ in range(left)], end) - sum(empty.values())
                        for kinds, counts, end, empty in rows))

    def places(self, kinds, counts):
        """The fingers that may stand in a place, each way round."""
        for at, (kind, left) in enumerate(zip(kinds, counts)):
            if left:
                yield Place(at, kind.gate, kind.lo, kind.hi)
                if kind.lo != kind.hi:
                    yield Place(at, kind.gate, kind.hi, kind.lo)

    def columns(self, state):
        """The columns that may come next."""
        above, below = (list(self.places(*row)) for row in ((self.p, state.p), (self.n, state.n)))
        p_left, n_left = self.left_on(state)
        yield from ((one, other) for one in above for other in below if one.gate == other.gate)
        yield from ((one, None) for one in above if p_left[one.gate] > n_left[one.gate])
        yield from ((None, one) for one in below if n_left[one.gate] > p_left[one.gate])


def cost(state, column):
    """1 if a gap stands before the column."""
    return int(any(end is not None and place is not None and end != place.left
                   for end, place in zip((state.p_end, state.n_end), column)))


def after(state, column):
    """The state after a column more."""
    rows = [state.p, state.n]
    for row, place in enumerate(column):
        if place:
            rows[row] = tuple(left - (at == place.kind) for at, left in enumerate(rows[row]))
    return State(*rows, *(place.right if place else None for place in column))


def lines_to(state, column):
    """The lines from the last node line to the gate of a column."""
    left = [place.left if place else None for place in column]
    ends = [state.p_end, state.n_end]
    gate = Line(None, None, next(place.gate for place in column if place))
    if cost(state, column):
        return [Line(*ends, None), Line(None, None, None), Line(*left, None), gate]
    return [Line(*(end if end is not None else net for end, net in zip(ends, left)), None), gate]


def nets_at(line):
    return {net for net in line if net is not None}


def held(cell, before, line, later):
    """The nets whose trunks hold a line."""
    here = nets_at(line)
    own = {net for net in here if net in before or net in later or line.p == line.n == net or net < cell.pins}
    return (before & later | own) - cell.rails


def ways_at(cell, limit, before, line, later, tracks):
    """Each way to give tracks to the nets that hold a line, where some have one already."""
    holding = held(cell, before, line, later)
    if len(set(tracks.values())) < len(tracks):
        return
    missing = sorted(holding - set(tracks))
    free = [track for track in range(limit) if track not in tracks.values()]
    for chosen in itertools.permutations(free, len(missing)):
        way = {**tracks, **dict(zip(missing, chosen))}
        both = line.p in holding and line.n in holding and line.p != line.n
        if all(track < limit for track in way.values()) and not (both and way[line.p] < way[line.n]):
            yield way


def passes(cell, limit, before, lines, later, tracks, rule):
    """The tracks of the open nets after some lines, where `later` are the nets with a place after them. The rule gives the
    tracks with which nets go on from a line: `ways_at`, or that of `turning` where nets may turn."""
    if not lines:
        yield {net: track for net, track in tracks.items() if net in before & later}
        return
    line, rest = lines[0], lines[1:]
    ahead = later.union(*map(nets_at, rest))
    for way in rule(cell, limit, before, line, ahead, tracks):
        beyond = before | nets_at(line)
        yield from passes(cell, limit, beyond, rest, later, {net: track for net, track in way.items() if net in beyond & ahead}, rule)


def ways_after(cell, limit, state, tracks, column, rule=ways_at):
    """The tracks of the open nets after a column."""
    later = set(cell.touched(after(state, column)))
    return passes(cell, limit, cell.behind(state), lines_to(state, column), later, dict(tracks), rule)


def ways_to_end(cell, limit, state, tracks, rule=ways_at):
    """The same through the last line, where no finger is left."""
    return passes(cell, limit, cell.behind(state), [Line(state.p_end, state.n_end, None)], set(), dict(tracks), rule)


def covers(lemma, state, gaps, way):
    return lemma.state == state and lemma.gaps >= gaps and all(way.get(net) == track for net, track in lemma.tracks)


def is_valid(cell, lemma):
    return cell.is_state(lemma.state) and cell.has_ends(lemma.state) and {net for net, _ in lemma.tracks} <= cell.open_at(lemma.state)


def is_refuted(cell, earlier, state, gaps, way):
    return any(covers(lemma, state, gaps, way) for lemma in earlier.get(state, ()))


def is_justified(cell, limit, earlier, lemma, rule=ways_at):
    """Whether a lemma follows: by the bound of a row, or since each column leads to earlier lemmas."""
    if not is_valid(cell, lemma):
        return False
    state = lemma.state
    if cell.bound(state) > lemma.gaps:
        return True
    if not any(state.p + state.n):
        return not any(True for _ in ways_to_end(cell, limit, state, lemma.tracks, rule))
    for column in cell.columns(state):
        left, here = lemma.gaps - cost(state, column), after(state, column)
        if left < 0 or cell.bound(here) > left:
            continue
        ways = ways_after(cell, limit, state, lemma.tracks, column, rule)
        if not all(is_refuted(cell, earlier, here, left, way) for way in ways):
            return False
    return True


def first_wrong(cell, limit, gaps, lemmas, rule=ways_at):
    """The place of the first lemma that does not follow from those before it, or whether one speaks of all rows."""
    earlier = {}
    for at, lemma in enumerate(lemmas):
        if not is_justified(cell, limit, earlier, lemma, rule):
            return at, False
        earlier.setdefault(lemma.state, []).append(lemma)
    return None, is_refuted(cell, earlier, cell.start, gaps, {})


class Search:
    """Looks for a row with so few gaps and tracks below a limit, and keeps a lemma for each state that has none."""

    def __init__(self, cell, limit, rule=ways_at):
        self.cell, self.limit, self.rule, self.lemmas, self.known = cell, limit, rule, [], {}

    def finds(self, state, gaps, tracks):
        key = state, tuple(sorted(tracks.items()))
        if self.known.get(key, -1) >= gaps:
            return False
        if self.cell.bound(state) <= gaps and self.goes_on(state, gaps, tracks):
            return True
        self.known[key] = gaps
        self.lemmas.append(Lemma(gaps, *key))
        return False

    def goes_on(self, state, gaps, tracks):
        if not any(state.p + state.n):
            return any(True for _ in ways_to_end(self.cell, self.limit, state, tracks, self.rule))
        for column in self.cell.columns(state):
            left, here = gaps - cost(state, column), after(state, column)
            if left < 0 or self.cell.bound(here) > left:
                continue
            for way in ways_after(self.cell, self.limit, state, tracks, column, self.rule):
                if self.finds(here, left, way):
                    return True
        return False


def fewest_gaps(cell):
    """The fewest gaps of a row."""
    failed = set()

    def has(state, gaps):
        if gaps < 0 or (state, gaps) in failed or cell.bound(state) > gaps:
            return False
        if not any(state.p + state.n):
            return True
        found = any(has(after(state, column), gaps - cost(state, column)) for column in cell.columns(state))
        if not found:
            failed.add((state, gaps))
        return found
    return next(gaps for gaps in itertools.count() if has(cell.start, gaps))


def fewest_tracks(cell, gaps, most, rule=ways_at):
    """The fewest tracks of the rows with N gaps, and the lemmas that fewer are not enough; no more than `most`."""
    lemmas = []
    for tracks in range(most + 1):
        search = Search(cell, tracks, rule)
        if search.finds(cell.start, gaps, {}):
            return tracks, lemmas
        lemmas = search.lemmas
    return None, lemmas
