"""The least gaps of some fingers by plain search: every arrangement is looked at, those with the same rest once.

An arrangement is what docs/MANUAL.md says: as few columns as the gates allow, any order, each finger turned either way, any pairing of
P and N fingers of a gate, half columns anywhere. A gap stands where in some row both places are filled and the facing nets differ.
"""
from collections import Counter
from functools import lru_cache

from fingers import of_one_width

NO_NET = None


def turned(fingers, gate):
    """The ways to place one of the fingers that are left on a gate: the finger, its left and its right net."""
    for one in dict.fromkeys(finger for finger in fingers if finger.gate == gate):
        yield one, one.lo, one.hi
        if one.lo != one.hi:
            yield one, one.hi, one.lo


def without(fingers, one):
    at = fingers.index(one)
    return fingers[:at] + fingers[at + 1:]


def next_columns(p, n):
    """Each column that may come next, as what is placed in the P row and in the N row."""
    on_p, on_n = Counter(one.gate for one in p), Counter(one.gate for one in n)
    nothing = (None, NO_NET, NO_NET)
    for gate in on_p | on_n:
        above = list(turned(p, gate)) + [nothing] * (on_p[gate] < on_n[gate])
        below = list(turned(n, gate)) + [nothing] * (on_n[gate] < on_p[gate])
        yield from ((a, b) for a in above for b in below if a[0] or b[0])


def least_gaps(fingers):
    @lru_cache(maxsize=None)
    def rest(p, n, ends):
        """The fewest gaps that are still to come behind a column with these right ends."""
        if not p and not n:
            return 0
        fewest = len(p) + len(n)
        for above, below in next_columns(p, n):
            gap = any(NO_NET not in (end, left) and end != left for end, left in zip(ends, (above[1], below[1])))
            p_left = without(p, above[0]) if above[0] else p
            n_left = without(n, below[0]) if below[0] else n
            fewest = min(fewest, gap + rest(p_left, n_left, (above[2], below[2])))
        return fewest
    return rest(tuple(of_one_width(fingers.p)), tuple(of_one_width(fingers.n)), (NO_NET, NO_NET))
