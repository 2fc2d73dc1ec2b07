"""Lemmas on cycles: which nets the node lines of a row put above others, and states each of whose completions has a
cycle of such pairs. Written from the meaning of the certificate's text; it shares no code with the program.

A node line with a net in the P row and another one in the N row, neither of them a rail, asks for the pair of them: the
P net has to be above the N net. Nets that are above each other in a cycle have no legal tracks. How many further gaps a
state needs at least is its exact need (`needs.py`).
"""
import functools
from collections import namedtuple

from needs import Needs
from tracks import Line, after, cost, lines_to

CycleLemma = namedtuple("CycleLemma", "gaps state above")       # above: pairs of an upper and a lower net


@functools.lru_cache(maxsize=8)
def needs_of(cell):
    return Needs(cell)


def asked_at(cell, line):
    """The pair that a line asks for, if any."""
    nets = {line.p, line.n}
    return {(line.p, line.n)} if None not in nets and len(nets) == 2 and not nets & cell.rails else set()


def asked_to(cell, state, column):
    """The pairs of the lines from the last node line to the gate of a column."""
    return set().union(*(asked_at(cell, line) for line in lines_to(state, column)))


def asked_at_end(cell, state):
    """The pair of the last node line, where no finger is left."""
    return asked_at(cell, Line(state.p_end, state.n_end, None))


def below(pairs):
    """For each upper net of the pairs, the nets that it is above, at once or by nets between."""
    down = {}
    for upper, lower in pairs:
        down.setdefault(upper, set()).add(lower)
    for net in down:                                               # paths through this net as well
        for upper in down:
            if net in down[upper]:
                down[upper] |= down[net]
    return down


def follow(down, above):
    """Whether each pair of `above` is a path down."""
    return all(lower in down.get(upper, ()) for upper, lower in above)


def has_cycle(down):
    return any(net in nets for net, nets in down.items())


def is_refuted(cell, earlier, state, gaps, pairs):
    """By the need of the state, by a cycle that is there already, or by an earlier lemma; `earlier` is by state."""
    down = below(pairs)
    return (needs_of(cell).bound(state) > gaps or has_cycle(down)
            or any(lemma.gaps >= gaps and follow(down, lemma.above) for lemma in earlier.get(state, ())))


def next_states(cell, state, gaps, pairs):
    """The columns that may come next within the gaps: each with the state, the gaps left and the pairs after it."""
    for column in cell.columns(state):
        left = gaps - cost(state, column)
        if left >= 0:
            yield column, after(state, column), left, pairs | asked_to(cell, state, column)


def is_justified(cell, earlier, lemma):
    """Whether a lemma follows: by the need of its state, or since each next column leads to what is refuted."""
    state, pairs = lemma.state, set(lemma.above)
    if not cell.is_state(state):
        return False
    if needs_of(cell).bound(state) > lemma.gaps:
        return True
    if not any(state.p + state.n):
        return has_cycle(below(pairs | asked_at_end(cell, state)))
    return all(is_refuted(cell, earlier, *to) for _, *to in next_states(cell, state, lemma.gaps, pairs))


def first_wrong(cell, gaps, lemmas):
    """The place of the first lemma that does not follow from those before it, or whether one speaks of all rows."""
    earlier = {}
    for at, lemma in enumerate(lemmas):
        if not is_justified(cell, earlier, lemma):
            return at, False
        earlier.setdefault(lemma.state, []).append(lemma)
    return None, any(lemma.gaps >= gaps and not lemma.above for lemma in earlier.get(cell.start, ()))


class Search:
    """Looks for a row with so few gaps and no cycle, and keeps a lemma for each state that has none."""

    def __init__(self, cell, is_least=True):
        self.cell, self.is_least = cell, is_least
        self.lemmas, self.known = [], {}

    def kept(self, state, pairs):
        """The pairs, and those that follow, of nets that have a place at the last node line or later."""
        ahead = set(self.cell.touched(state)) - self.cell.rails
        return {(upper, lower) for upper, nets in below(pairs).items() if upper in ahead for lower in nets & ahead}

    def row(self, state, gaps, pairs=frozenset()):
        """The columns of a completion without a cycle, or None; then a lemma is kept that says so."""
        if is_refuted(self.cell, self.known, state, gaps, pairs):
            return None
        kept = self.kept(state, pairs)
        if not any(state.p + state.n) and not has_cycle(below(kept | asked_at_end(self.cell, state))):
            return []
        for column, *to in next_states(self.cell, state, gaps, kept):
            rest = self.row(*to)
            if rest is not None:
                return [column, *rest]
        self.keep(CycleLemma(gaps, state, tuple(sorted(kept))))
        return None

    def keep(self, lemma):
        """Keeps a lemma, without the pairs that it does not need."""
        for pair in lemma.above if self.is_least else ():
            fewer = lemma._replace(above=tuple(one for one in lemma.above if one != pair))
            if is_justified(self.cell, self.known, fewer):
                lemma = fewer
        self.lemmas.append(lemma)
        self.known.setdefault(lemma.state, []).append(lemma)


def certified(cell, gaps, is_least=True):
    """The lemmas that no row with at most so many gaps can be wired, and the columns of such a row where one can."""
    search = Search(cell, is_least)
    row = search.row(cell.start, gaps)
    if row is None and not search.lemmas:                          # the bound says it: a lemma on the start says so too
        search.keep(CycleLemma(gaps, cell.start, ()))
    return search.lemmas, row
