"""The lowest row of a small cell where nets may change their tracks, from its meaning: all rows with the fewest gaps are
listed, and all legal routings by pieces are tried.

A trunk is cut at the node lines of its net. A piece is the part between two neighbouring cuts or ends. Pieces of
different nets that share a line are on different tracks. Where a P net is over an N net, their pieces that end there
keep that order. Tracks are compared piece by piece: by first line, then by last line, then by net.
"""
import itertools
from collections import namedtuple

from lowest_row import Lowest, Stretch, channel, crossing, fewest_gaps, has_cycle, rows

Cut = namedtuple("Cut", "row it pieces above")                     # a row, its channel, its pieces, pairs of their places


def pieces_of(it):
    """The pieces in the order in which tracks are compared."""
    found = []
    for net, (first, last) in it.spans.items():
        marks = sorted({first, last, *(line for line, _, other in it.nodes if other == net)})
        found += [Stretch(*ends, net) for ends in zip(marks, marks[1:])] or [Stretch(first, last, net)]
    return sorted(found)


def above_of(it, pieces):
    """Pairs of places in the list: the first piece has to be above the second."""
    over = {(line, p, n) for line, side, p in it.nodes if side == 0 for other, at, n in it.nodes
            if at == 1 and other == line and p != n and p in it.spans and n in it.spans}

    def ending(net, line):
        return [at for at, piece in enumerate(pieces) if piece.net == net and line in (piece.left, piece.right)]
    return {(upper, lower) for line, p, n in over for upper in ending(p, line) for lower in ending(n, line)}


def cut(cell, row):
    it = channel(cell, row)
    pieces = pieces_of(it)
    return Cut(row, it, pieces, above_of(it, pieces))


def is_wired(one):
    return not has_cycle(range(len(one.pieces)), one.above)


def meets(one, other):
    """Whether two pieces need different tracks: they are of different nets and share a line."""
    return one.net != other.net and one.left <= other.right and other.left <= one.right


def first_routing(one, tracks):
    """The first legal routing by pieces on exactly that many tracks, as tracks in order, or None."""
    pieces, above, failed = one.pieces, one.above, set()

    def fits(given, at, track):
        for other, taken in enumerate(given):
            if meets(pieces[other], pieces[at]) and taken == track or (at, other) in above and track <= taken or (other, at) in above and taken <= track:
                return False
        return True

    def go(given):
        at = len(given)
        if at == len(pieces):
            return given if set(given) == set(range(tracks)) else None
        if tracks - len(set(given)) > len(pieces) - at:
            return None
        # what is to come depends on the tracks that are taken at this line and later, and on those that have a piece
        key = at, tuple((other, track) for other, track in enumerate(given) if pieces[other].right >= pieces[at].left), frozenset(given)
        for track in range(tracks) if key not in failed else ():
            found = go((*given, track)) if fits(given, at, track) else None
            if found is not None:
                return found
        failed.add(key)
        return None
    return go(())


def wired_cuts(cell, gaps):
    """How many rows have at most that many gaps, and those of them that can be wired, with the trunks that cross."""
    cuts = [cut(cell, row) for row in rows(cell, gaps)]
    return len(cuts), [(one, crossing(one.it.spans)) for one in cuts if is_wired(one)]


def first_on(wired, tracks):
    """The first of these rows with a routing on that many tracks, and the first one, or None."""
    for one, crossed in wired:
        routing = first_routing(one, tracks) if crossed <= tracks else None
        if routing is not None:
            return one, dict(zip(one.pieces, routing))
    return None


def fewest_tracks(cell, gaps):
    """The fewest tracks of the rows with at most that many gaps; None where none can be wired."""
    wired = wired_cuts(cell, gaps)[1]
    return next(tracks for tracks in itertools.count() if first_on(wired, tracks)) if wired else None


def lowest_turning(cell):
    """Of the rows with the fewest gaps the first on the fewest tracks, with the first of its routings: pieces to tracks.
    The row is None where none can be wired."""
    least = fewest_gaps(cell)
    count, wired = wired_cuts(cell, least)
    if not wired:
        return Lowest(least, least, count, None, None, None, None)
    tracks, found = next((tracks, found) for tracks in itertools.count() if (found := first_on(wired, tracks)))
    return Lowest(least, least, count, wired[0][0].row, found[0].row, tracks, found[1])
