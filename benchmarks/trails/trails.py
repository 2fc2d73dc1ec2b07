"""Ends of trails, gate by gate, as docs/FORMATS.md has them: the choices of a gate, what they leave open, lemmas, and their check.

A node is a pair of nets, P net and N net. An edge is a column with both places filled: its two nodes in order. Where gates are left open,
nodes are merged. It is plain and slow, and shares no code with the program.
"""
import itertools
from collections import Counter, namedtuple
from functools import lru_cache

from fingers import columns_on, has_more_p

State = namedtuple("State", "odd classes")                   # nodes; classes as (nodes, flagged)
Lemma = namedtuple("Lemma", "bound done state")

START = State(frozenset(), frozenset())


def edge(p_left, n_left, p_right, n_right):
    return tuple(sorted([(p_left, n_left), (p_right, n_right)]))


def nets_of(row):
    """The nets that fill the empty places of a row."""
    return sorted({net for one in row for net in (one.lo, one.hi)}) or [0]


def edges_of(fingers, above, below):
    """The edges of a column: turned alike or not; an empty place has any two nets of its row."""
    if above and below:
        return [edge(above.lo, below.lo, above.hi, below.hi), edge(above.lo, below.hi, above.hi, below.lo)]
    pairs = list(itertools.product(nets_of(fingers.n if above else fingers.p), repeat=2))
    if above:
        return [edge(above.lo, left, above.hi, right) for left, right in pairs]
    return [edge(left, below.lo, right, below.hi) for left, right in pairs]


def choices_of(fingers, gate):
    """Each list of edges that the columns of a gate can be, once."""
    above, below = ([one for one in row if one.gate == gate] for row in (fingers.p, fingers.n))
    above += [None] * (len(below) - len(above))
    below += [None] * (len(above) - len(below))
    found = {}
    for order in itertools.permutations(below):
        for choice in itertools.product(*(edges_of(fingers, *pair) for pair in zip(above, order))):
            found[tuple(sorted(choice))] = None
    return list(found)


class Open:
    """Gates whose half columns are left open, and the nodes that are one then: those with the same net of the row that has more fingers on these gates."""

    def __init__(self, fingers, fill):
        self.gates = [gate for gate in filled(fingers) if gate not in fill]
        longer = {has_more_p(fingers, gate) for gate in self.gates}
        if len(longer) > 1:
            raise ValueError("the gates that are left open have more fingers in different rows")
        self.in_p = longer != {False}
        self.fingers = [one for one in (fingers.p if self.in_p else fingers.n) if one.gate in self.gates]
        self.nets = {net for one in self.fingers for net in (one.lo, one.hi)}

    def node(self, net):
        return (net, 0) if self.in_p else (0, net)

    def merged(self, node):
        net = node[not self.in_p]
        return self.node(net) if net in self.nets else node

    def choices(self, fingers, gate):
        """One choice of a gate that is left open: an edge for each finger of the longer row. Else its choices with merged nodes, each once."""
        if gate in self.gates:
            return [tuple(sorted(edge(*self.node(one.lo), *self.node(one.hi)) for one in self.fingers if one.gate == gate))]
        each = (tuple(sorted(edge(*self.merged(a), *self.merged(b)) for a, b in choice)) for choice in choices_of(fingers, gate))
        return list(dict.fromkeys(each))


def joined(classes, one):
    """The classes, given as lists of nodes and whether they are flagged, with an edge more."""
    mine = [each for each in classes if set(each[0]) & set(one)]
    rest = [each for each in classes if each not in mine]
    return rest + [(frozenset(one).union(*(nodes for nodes, _ in mine)), any(flagged for _, flagged in mine))]


def after(later, state, choice):
    """The state behind a choice, where `later` are the nodes that later gates can meet, and the ends that are certain now."""
    odd, classes, ends, left = set(state.odd), list(state.classes), 0, []
    for one in choice:
        for node in one:
            odd ^= {node}
        classes = joined(classes, one)
    for nodes, flagged in classes:
        here, kept = len(odd & nodes - later), frozenset(nodes & later)
        ends += here
        if kept:
            left.append((kept, flagged or here > 0))
        elif not here and not flagged:
            ends += 2
    return State(frozenset(odd & later), frozenset(left)), ends


class Levels:
    """The gates of an order: the choices of each, and the nodes that later ones can meet."""

    def __init__(self, fingers, order, fill):
        opened = Open(fingers, fill)
        self.choices = [opened.choices(fingers, gate) for gate in order]
        nodes = [{node for choice in choices for one in choice for node in one} for choices in self.choices]
        self.later = [set().union(*nodes[at + 1:]) for at in range(len(order))]

    def behind(self, done, state):
        """What each choice of the next gate comes to."""
        return [after(self.later[done], state, choice) for choice in self.choices[done]]

    def ends_of(self, choices):
        """The ends of a list of choices, one of each gate."""
        state, ends = START, 0
        for later, choice in zip(self.later, choices):
            state, more = after(later, state, choice)
            ends += more
        return ends

    def counts(self):
        """How many lists of choices come to each number of ends."""
        return Counter(map(self.ends_of, itertools.product(*self.choices)))

    def lemmas(self):
        """Lemmas with the greatest bounds, each behind those that it rests on; the last one is on the start."""
        found = []

        @lru_cache(maxsize=None)
        def least(done, state):
            if done == len(self.choices):
                return 0
            bound = min(ends + least(done + 1, next_state) for next_state, ends in self.behind(done, state))
            if bound:
                found.append(Lemma(bound, done, state))
            return bound
        least(0, START)
        return found

    def first_unproved(self, lemmas):
        """The place of the first lemma that does not follow from those before it, and the ends that are proved of the start."""
        best = {}
        for at, (bound, done, state) in enumerate(lemmas):
            if done >= len(self.choices) or any(ends + best.get((done + 1, next_state), 0) < bound for next_state, ends in self.behind(done, state)):
                return at, None
            best[done, state] = max(bound, best.get((done, state), 0))
        return None, best.get((0, START), 0)


def filled(fingers):
    """The gates with half columns."""
    return [gate for gate, (_, halves) in columns_on(fingers).items() if halves]


def gaps_proved(ends):
    """A row with g gaps has 2 (g + 1) ends."""
    return max(ends - 1, 0) // 2
