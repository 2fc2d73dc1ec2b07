"""What a check says of certificates by trails of versions 2 and 3, as docs/FORMATS.md has it. It shares no code with the program."""
from collections import Counter

from fingers import columns_of, columns_on
from left_out import columns_lost, staying
from pool_text import Fault, Reader
from pools import PoolLevels, State, is_pool, may_fill
from trails import Lemma, gaps_proved


def places_in(line):
    """The places that the classes list."""
    return [place for places, _ in line.classes for place in places]


def is_own_text(levels, line):
    """Whether the line lists nothing but its state: open places, each once; odd nodes of classes and open ones of pools; balances of open pools."""
    gates, (places, nodes) = levels.gates, levels.open[min(line.done, len(levels.choices))]
    listed = places_in(line)
    return (places.issuperset(listed) and len(set(listed)) == len(listed)
            and all(node in listed or node in nodes for node in line.odd)
            and all(line.done > 0 and gates.pool(net) in places for net in line.free))


def state_of(gates, line):
    """The state of such a line. A pool is odd if its odd nodes and its balance have an odd sum."""
    def is_odd(pool):
        return (sum(gates.place(node) == pool for node in line.odd) + line.free.get(pool[1], 0)) % 2 == 1
    odd = {*line.odd, *(place for place in places_in(line) if is_pool(place) and is_odd(place))}
    classes = frozenset((frozenset(places), ended) for places, ended in line.classes)
    return State(frozenset(odd), classes, frozenset((gates.pool(net), balance) for net, balance in line.free.items()))


def check_row(fingers, certificate, proved):
    """The row that is listed: an arrangement of the fingers, with so many gaps, and no more than the lemmas prove."""
    if certificate.columns is None:
        raise Fault(f"trails NoRow best {proved}")
    for row, fingers_in in enumerate((fingers.p, fingers.n)):
        placed = [(gate, sides[row]) for gate, sides in certificate.columns if sides[row]]
        if Counter(one for _, (one, _) in placed) != Counter(fingers_in):
            raise Fault("trails NotArrangement")
        if any(one.gate != gate or (flipped and one.lo == one.hi) for gate, (one, flipped) in placed):
            raise Fault("trails NotArrangement")
    if len(certificate.columns) != columns_of(fingers):
        raise Fault("trails NotArrangement")
    counted = gaps_in(certificate.columns)
    if counted != certificate.gaps:
        raise Fault(f"trails Gaps said {certificate.gaps} counted {counted}")
    if certificate.gaps > proved:
        raise Fault(f"trails NotLeast best {proved} said {certificate.gaps}")


def ends_of(side):
    """The left and the right net of what stands in a place."""
    one, flipped = side
    return (one.hi, one.lo) if flipped else (one.lo, one.hi)


def gaps_in(columns):
    sides = [column for _, column in columns]
    return sum(any(a and b and ends_of(a)[1] != ends_of(b)[0] for a, b in zip(left, right)) for left, right in zip(sides, sides[1:]))


def check(fingers, name, text):
    """The certificate and the gaps that it proves; a Fault tells what `check` reports of any other text."""
    certificate = Reader(fingers, name).read(text)
    stay = staying(fingers, certificate.out)
    if sorted(certificate.order) != list(columns_on(stay)) or not may_fill(stay, certificate.fill):
        raise Fault("trails Gates")
    levels = PoolLevels(stay, certificate.order, certificate.fill)
    if levels.crowded is not None:
        raise Fault(f"trails Choices gate {fingers.nets[levels.crowded]}")
    first = 5 if certificate.out is None else 7
    for at, line in enumerate(certificate.lines, first):
        if not is_own_text(levels, line):
            raise Fault(f"trails Line line {at}")
    wrong, ends = levels.first_unproved([Lemma(line.bound, line.done, state_of(levels.gates, line)) for line in certificate.lines])
    if wrong is not None:
        raise Fault(f"trails Unproved line {first + wrong}")
    proved = max(0, gaps_proved(ends) - columns_lost(fingers, stay))
    check_row(fingers, certificate, proved)
    return certificate, proved
