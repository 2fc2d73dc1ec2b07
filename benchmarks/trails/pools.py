"""Ends of trails where half columns stay open, as docs/FORMATS.md has them for version 2 of certificates: choices, open places, states, lemmas.

A node is a pair of nets, P net and N net. A pool is the pair of its row, P_POOL or N_POOL, and its net. So places ascend as in a text. It is
plain and slow, and shares no code with the program.
"""
from collections import defaultdict, namedtuple
from functools import lru_cache

from fingers import columns_on, has_more_p
from trails import Lemma, edges_of, joined, nets_of

P_POOL, N_POOL = 256, 257                                    # above each net
MOST_WAYS = 65_536

Choice = namedtuple("Choice", "edges halves")                # edges in order; the nets of each finger that is alone
State = namedtuple("State", "odd classes balances")          # odd nodes and pools; classes as (places, has an end); pools with balances other than 0
Open = namedtuple("Open", "places nodes")                    # what some gates can meet: places, and the nodes of pools among it

START = State(frozenset(), frozenset(), frozenset())


class TooManyWays(Exception):
    """The fingers of a gate pair in too many ways."""


def is_pool(place):
    return place[0] in (P_POOL, N_POOL)


def nets_on(row, gate):
    return {net for one in row if one.gate == gate for net in (one.lo, one.hi)}


def ends_shut(balance):
    """Odd nodes that wait stay odd. Free ends turn one node each: an odd number of them leaves one odd."""
    return balance if balance >= 0 else -balance % 2


def without(items, item):
    at = items.index(item)
    return items[:at] + items[at + 1:]


def each_once(ways):
    """The ways, each once. More than MOST_WAYS are too many."""
    found = {}
    for way in ways:
        found[way] = None
        if len(found) > MOST_WAYS:
            raise TooManyWays
    return list(found)


def with_edges(edges, more):
    """The edges with each of some more in turn."""
    return (tuple(sorted((*edges, one))) for one in more)


class Gates:
    """The gates of an order, of which some stay open, all with more fingers in one row: their choices, and what they can meet."""

    def __init__(self, fingers, order, fill):
        with_more = [[gate for gate in uneven(fingers) if gate in order and has_more_p(fingers, gate) == in_p] for in_p in (True, False)]
        left_open = [[gate for gate in gates if gate not in fill] for gates in with_more]
        if all(left_open):
            raise ValueError("the gates that are left open have more fingers in different rows")
        self.fingers, self.in_p, self.open = fingers, not left_open[1], {*left_open[0], *left_open[1]}
        self.counted = fingers.p if self.in_p else fingers.n
        self.pools = set().union(*(nets_on(self.counted, gate) for gate in self.open))
        self.numbers, self.columns = {}, {}                  # each edge has a number, and each column those of its edges
        self.fewer = with_more[::-1]                         # the gates with fewer P fingers, and those with fewer N fingers

    def pool(self, net):
        return (P_POOL if self.in_p else N_POOL), net

    def place(self, node):
        net = node[0 if self.in_p else 1]
        return self.pool(net) if net in self.pools else node

    def meets(self, gate):
        """The nodes that a gate can meet."""
        nets = []
        for row, fewer in zip((self.fingers.p, self.fingers.n), self.fewer):
            nets.append(nets_of(row) if gate in fewer and gate not in self.open else nets_on(row, gate))
        return {(p, n) for p in nets[0] for n in nets[1]}

    def can_meet(self, gates):
        """The places that some of the gates can meet or end free in, and the nodes of pools that they can meet."""
        nodes = set().union(*map(self.meets, gates))
        free = {self.pool(net) for gate in gates if gate in self.open for net in nets_on(self.counted, gate)}
        return Open(frozenset(map(self.place, nodes)) | free, frozenset(node for node in nodes if self.place(node) != node))

    def choices(self, gate):
        """Each choice of the gate, once."""
        rows = [[one._replace(width=0) for one in row if one.gate == gate] for row in (self.fingers.p, self.fingers.n)]
        return self.open_choices(*(rows if self.in_p else rows[::-1])) if gate in self.open else self.filled_choices(*rows)

    def open_choices(self, counted, facing):
        """Each finger of the facing row shares a column with one of those that are alone so far."""
        ways = [((), tuple(counted))]
        for one in facing:
            ways = self.with_columns((edges, without(alone, other), (other, one) if self.in_p else (one, other))
                                     for edges, alone in ways for other in dict.fromkeys(alone))
        return self.named(ways)

    def filled_choices(self, above, below):
        """Each P finger shares a column with one of the N fingers left, or is alone where fewer are left. Then each N finger left is alone."""
        ways = [((), tuple(below))]
        for at, one in enumerate(above):
            pairs = [(edges, without(left, other), (one, other)) for edges, left in ways for other in dict.fromkeys(left)]
            pairs += [(edges, left, (one, None)) for edges, left in ways if len(left) < len(above) - at]
            ways = self.with_columns(pairs)
        for _ in range(len(below) - len(above)):
            ways = self.with_columns((edges, left[1:], (None, left[0])) for edges, left in ways)
        return self.named(ways)

    def with_columns(self, pairs):
        return each_once((more, left) for edges, left, column in pairs for more in with_edges(edges, self.edges_in(column)))

    def edges_in(self, column):
        """The numbers of a column's edges."""
        if column not in self.columns:
            self.columns[column] = [self.numbers.setdefault(edge, len(self.numbers)) for edge in edges_of(self.fingers, *column)]
        return self.columns[column]

    def named(self, ways):
        """The choices with their edges in place of numbers, and with the nets of the fingers that are alone."""
        edges = list(self.numbers)
        return [Choice(tuple(sorted(edges[number] for number in numbers)), tuple((one.lo, one.hi) for one in alone)) for numbers, alone in ways]


def settled(classes, odd, balances, later):
    """What stays open of the classes, and how many ends are certain now."""
    left, certain = [], 0
    for places, ended in classes:
        ends = sum(ends_shut(balances[place]) if is_pool(place) else place in odd for place in places - later)
        certain += ends
        if places & later:
            left.append((places & later, ended or ends > 0))
        elif not ended and not ends:
            certain += 2
    return frozenset(left), certain


class PoolLevels:
    """The gates of an order: the choices of each, and what is open before it and behind it."""

    def __init__(self, fingers, order, fill):
        self.gates = Gates(fingers, order, fill)
        self.crowded, self.choices = None, []
        for gate in order:
            try:
                self.choices.append(self.gates.choices(gate))
            except TooManyWays:
                self.crowded = gate
                return
        self.open = [self.gates.can_meet(order[at:]) for at in range(len(order) + 1)]

    def after(self, done, state, choice):
        """The state behind a choice of the next gate, and the ends that are certain then."""
        later, place = self.open[done + 1], self.gates.place
        odd, classes, balances = set(state.odd), list(state.classes), defaultdict(int, state.balances)
        for edge in choice.edges:
            classes = joined(classes, list(map(place, edge)))
            for node in edge:
                odd ^= {node, place(node)}
        for half in choice.halves:
            pools = list(map(self.gates.pool, half))
            classes = joined(classes, pools)
            for pool in pools:
                odd ^= {pool}
                balances[pool] -= 1
        for node in odd - later.nodes:
            if place(node) != node:
                balances[place(node)] += 1
        kept, ends = settled(classes, odd, balances, later.places)
        left = frozenset((pool, balance) for pool, balance in balances.items() if balance and pool in later.places)
        return State(frozenset(odd & (later.places | later.nodes)), kept, left), ends

    def behind(self, done, state):
        """What each choice of the next gate comes to."""
        return (self.after(done, state, choice) for choice in self.choices[done])

    def least(self):
        """The fewest ends of all lists of choices, one of each gate."""
        @lru_cache(maxsize=None)
        def rest(done, state):
            if done == len(self.choices):
                return 0
            return min(ends + rest(done + 1, next_state) for next_state, ends in self.behind(done, state))
        return rest(0, START)

    def lemmas(self, ends):
        """Lemmas by which so many ends come, each behind those that it rests on; none, where some list of choices has fewer ends."""
        found, known, failed = [], {}, {}

        def come(done, state, need):
            at = done, state
            if need <= known.get(at, 0):
                return True
            if done == len(self.choices) or need >= failed.get(at, need + 1):
                return False
            if not all(come(done + 1, next_state, need - more) for next_state, more in self.behind(done, state)):
                failed[at] = need
                return False
            known[at] = need
            found.append(Lemma(need, done, state))
            return True
        return found if come(0, START, ends) else None

    def first_unproved(self, lemmas):
        """The place of the first lemma that does not follow from those before it, and the ends that are proved of the start."""
        best = {}
        for at, (bound, done, state) in enumerate(lemmas):
            if done >= len(self.choices):
                return at, None
            if any(ends + best.get((done + 1, next_state), 0) < bound for next_state, ends in self.behind(done, state)):
                return at, None
            best[done, state] = max(bound, best.get((done, state), 0))
        return None, best.get((0, START), 0)


def uneven(fingers):
    """The gates with half columns."""
    return [gate for gate, (_, halves) in columns_on(fingers).items() if halves]


def may_fill(fingers, fill):
    """Whether each of these gates has half columns, and all others that have some have more fingers in one row."""
    gates = uneven(fingers)
    return set(fill) <= set(gates) and len({has_more_p(fingers, gate) for gate in gates if gate not in fill}) < 2


def short_order(fingers, fill):
    """An order of the gates: after each as few places as possible are open that it or an earlier gate can meet."""
    left, met, order = set(columns_on(fingers)), set(), []
    gates = Gates(fingers, sorted(left), fill)
    while left:
        def width(gate):
            return len((met | gates.can_meet([gate]).places) & gates.can_meet(left - {gate}).places), gate
        order.append(min(left, key=width))
        left.remove(order[-1])
        met |= gates.can_meet([order[-1]]).places
    return order
