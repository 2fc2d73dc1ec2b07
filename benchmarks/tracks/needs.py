"""The need of a state: the fewest further gaps of its completions. It depends on what the state has left of the fingers
and on its open ends, so a table has for each leftover how few gaps its rows have, and the ends from which such a row
goes on without a gap. Written from the meaning of the certificate's text; it shares no code with the program.
"""
import itertools
import math

from tracks import State, after

MOST_LEFT = 1 << 20                                                # different leftovers of states, in a table


def of_gate(cell, gate, state):
    """The fingers of one gate that a state has left."""
    return tuple(tuple(count if kind.gate == gate else 0 for kind, count in zip(kinds, counts))
                 for kinds, counts in ((cell.p, state.p), (cell.n, state.n)))


def left_of(cell, gate):
    """What columns leave of the fingers of a gate, none first; and for each the columns that may come next, by what
    these leave."""
    nexts, front = {}, [of_gate(cell, gate, cell.start)]
    while front:
        state = State(*front.pop(), None, None)
        if state[:2] not in nexts:
            columns = nexts[state[:2]] = {}
            for column in cell.columns(state):
                columns.setdefault(after(state, column)[:2], []).append(column)
            front += columns
    return dict(sorted(nexts.items(), key=lambda item: sum(map(sum, item[0]))))


class Needs:
    """The needs of the states of a cell. Columns lead from the start to states with `leftovers` different leftovers:
    any of one gate with any of the others. There is a table if these are at most so many."""

    def __init__(self, cell, most=MOST_LEFT):
        self.cell, self.gates = cell, sorted({kind.gate for kind in (*cell.p, *cell.n)})
        left = [left_of(cell, gate) for gate in self.gates]
        self.leftovers = math.prod(map(len, left))
        self.places = [{one: at * math.prod(map(len, left[gate + 1:])) for at, one in enumerate(of)} for gate, of in enumerate(left)]
        self.rests = self.table(left) if self.leftovers <= most else []

    def bit(self, p, n):
        """A bit for the nets at two ends."""
        return 1 << (self.cell.nets + 1) * (0 if p is None else p + 1) + (0 if n is None else n + 1)

    def before(self, column):
        """The bits of the open ends from which a column goes on without a gap."""
        nets = (None, *range(self.cell.nets))
        ends = [(None, place.left) if place else nets for place in column]
        return sum(self.bit(*pair) for pair in itertools.product(*ends))

    def behind(self, column):
        return self.bit(*(place and place.right for place in column))

    def table(self, left):
        """For each leftover how few gaps its rows have, and the bits of the ends from which one of these goes on."""
        nexts = [[[(places[one] - places[to], [(self.behind(column), self.before(column)) for column in columns])
                   for to, columns in of[one].items()] for one in of] for places, of in zip(self.places, left)]
        rests, same = [(0, -1)], {}                                # no finger left: from all ends
        for code, parts in enumerate(itertools.islice(itertools.product(*nexts), 1, None), 1):
            fewest, here = math.inf, 0
            for back, columns in itertools.chain(*parts):
                least, ends = rests[code - back]
                for behind, before in columns:
                    gaps = least + (not ends & behind)
                    if gaps < fewest:
                        fewest, here = gaps, before
                    elif gaps == fewest:
                        here |= before
            rests.append((fewest, same.setdefault(here, here)))
        return rests

    def bound(self, state):
        """The need of a state. Where there is no table, or it has not what is left, what one of the rows needs."""
        places = [of.get(of_gate(self.cell, gate, state)) for gate, of in zip(self.gates, self.places)]
        if not self.rests or None in places:
            return self.cell.bound(state)
        fewest, ends = self.rests[sum(places)]
        return fewest + (not ends & self.bit(state.p_end, state.n_end))
