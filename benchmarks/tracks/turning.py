"""Tracks of nets that may turn: at a node line a net may go on, on another track, where it has a place in one of the
rows there. Written from docs/FORMATS.md; it shares no code with the program.

At a line such a net may have two tracks, that with which it comes and that on which it goes on. Each of them has to
differ from all tracks of other nets there. Each track of the P net has to be higher than each of the N net.
"""
from tracks import held


def agree(line, one, other):
    """Whether two nets may have these tracks at a line, or a net both of them."""
    (net, track), (beside, taken) = one, other
    if net == beside:
        return True
    if net == line.p and beside == line.n:
        return track > taken
    if net == line.n and beside == line.p:
        return track < taken
    return track != taken


def given(limit, line, nets, some, others):
    """Each way to give tracks to nets at a line, where some have theirs, beside the tracks of others."""
    pairs = list(some.items())
    if not all(track < limit and all(agree(line, (net, track), other) for other in pairs + others) for net, track in pairs):
        return
    missing = [net for net in nets if net not in some]
    if not missing:
        yield dict(some)
        return
    for track in range(limit):
        yield from given(limit, line, nets, {**some, missing[0]: track}, others)


def ways_at(cell, limit, before, line, later, tracks):
    """The tracks on which nets go on from a line, where some of those that come to it have theirs."""
    holding, seen = held(cell, before, line, later), set()
    coming, going = sorted(holding & before), sorted(holding - before | holding & later)
    for into in given(limit, line, coming, tracks, []):
        straight = {net: into[net] for net in going if net in before and net not in (line.p, line.n)}
        for out in given(limit, line, going, straight, list(into.items())):
            key = tuple(sorted(out.items()))
            if key not in seen:
                seen.add(key)
                yield out
