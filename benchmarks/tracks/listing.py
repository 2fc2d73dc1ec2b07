"""The fewest tracks of all rows of a small cell, by listing all rows and trying tracks net by net: what the search of
`tracks` is compared with. It goes by whole rows, not by states. Lemmas on cycles and needs are compared with all
completions of their states.
"""
import functools
import itertools

from tracks import after, cost


def rows_of(cell, state, gaps):
    """All rows from a state on with at most N gaps, as lists of columns and whether a gap stands before each."""
    if not any(state.p + state.n):
        yield []
        return
    for column in cell.columns(state):
        gap = cost(state, column)
        if gap <= gaps:
            yield from ([(column, gap)] + rest for rest in rows_of(cell, after(state, column), gaps - gap))


def places_of(row):
    """The nets of each line: P nets, N nets, gates."""
    places, line = {}, 0

    def put(at, row_at, net):
        places.setdefault(at, [None, None, None])[row_at] = net
    for column, gap in row:
        line += 2 * gap
        for row_at, place in enumerate(column):
            if place:
                put(line, row_at, place.left)
                put(line + 1, 2, place.gate)
                put(line + 2, row_at, place.right)
        line += 2
    return places


def trunks_of(cell, places):
    """The first and the last line of each net that needs a trunk."""
    found = {}
    for line in sorted(places):
        for net in places[line]:
            if net is not None and net not in cell.rails:
                found.setdefault(net, []).append(line)
    return {net: (lines[0], lines[-1]) for net, lines in found.items() if len(lines) > 1 or net < cell.pins}


def has_tracks(trunks, above, most):
    """Whether tracks below a number serve all trunks: those that share a line apart, and each upper net above its lower."""
    tracks = {}

    def fits(net, track):
        first, last = trunks[net]
        for other, at in tracks.items():
            if at == track and trunks[other][0] <= last and first <= trunks[other][1]:
                return False
            if (net, other) in above and track <= at or (other, net) in above and at <= track:
                return False
        return True

    def go(nets):
        if not nets:
            return True
        for track in range(most):
            if fits(nets[0], track):
                tracks[nets[0]] = track
                if go(nets[1:]):
                    return True
                del tracks[nets[0]]
        return False
    return go(sorted(trunks))


def is_wired(cell, row, most):
    places = places_of(row)
    trunks = trunks_of(cell, places)
    above = {(p, n) for p, n, _ in places.values() if p in trunks and n in trunks and p != n}
    return has_tracks(trunks, above, most)


def fewest_tracks(cell, gaps, most):
    """The fewest tracks of the rows with at most N gaps, no more than `most`."""
    rows = list(rows_of(cell, cell.start, gaps))
    return next((tracks for tracks in range(most + 1) if any(is_wired(cell, row, tracks) for row in rows)), None)


def asked_by(cell, state, row):
    """The pairs of nets that the node lines of a completion ask for, from the state's last node line on."""
    nets, line = {0: [state.p_end, state.n_end]}, 0
    for column, gap in row:
        line += 2 * gap
        for row_at, place in enumerate(column):
            if place:
                nets.setdefault(line, [None, None])[row_at] = place.left
                nets.setdefault(line + 2, [None, None])[row_at] = place.right
        line += 2
    return {(p, n) for p, n in nets.values() if None not in (p, n) and p != n and not {p, n} & cell.rails}


def is_cyclic(pairs):
    """Whether nets are left once those that are above no other one are taken away, again and again."""
    nets = set(itertools.chain(*pairs))
    while (kept := {upper for upper, lower in pairs if upper in nets and lower in nets}) != nets:
        nets = kept
    return bool(nets)


@functools.lru_cache(maxsize=None)
def asked_from(cell, state, gaps):
    """The sets of pairs that the completions with at most so many further gaps ask for."""
    return {frozenset(asked_by(cell, state, row)) for row in rows_of(cell, state, gaps)}


def is_true(cell, lemma):
    """Whether each completion of a lemma on cycles has one, with at most so many further gaps."""
    return all(is_cyclic(pairs | set(lemma.above)) for pairs in asked_from(cell, lemma.state, lemma.gaps))


def need_of(cell, state):
    """The fewest further gaps of the completions of a state."""
    return min(sum(gap for _, gap in row) for row in rows_of(cell, state, 63))


def leftovers_of(cell):
    """What the states have left of the fingers that columns lead to from the start."""
    found, front = set(), [cell.start]
    while front:
        state = front.pop()
        if state[:2] not in found:
            found.add(state[:2])
            front += (after(state, column) for column in cell.columns(state))
    return found
