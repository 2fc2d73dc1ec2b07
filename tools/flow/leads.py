"""Leads of wires and vias from a net to a pad, found as cheapest paths. Lengths are in grid units."""
from __future__ import annotations

from dataclasses import dataclass, field

from gdsii import Box

METAL1, METAL2 = 0, 1
WIRE, PAD, CUT = 3, 4, 2    # half the width of a wire (7.1, 9.1), of metal round a via (8.3, 9.3), of a via (8.1)
NEAR, TURN_COST, VIA_COST = 8, 12, 60   # of a step beside metal of the same net, a turn and a via, in steps of wire


def square(x: int, y: int, half: int) -> Box:
    return Box(x - half, y - half, x + half, y + half)


@dataclass
class Lead:
    """What was added for a pin: its pad, and wires and vias to it."""
    pad: Box
    metal: list[tuple[int, Box]] = field(default_factory=list)
    vias: list[Box] = field(default_factory=list)


@dataclass
class Maps:
    """Where a lead of one net may go: for wires the cost of a step to a point (0: none), for vias and pads 1 or 0."""
    step: bytearray
    via: bytearray
    land: bytearray
    places: int


def cheapest(starts: list[int], maps: Maps, width: int, plane: int) -> list[int]:
    """The cheapest path of points from one of `starts` to a landing on metal1, the landing first; none: no path.

    A point is metal * plane + y * width + x, and 2 * plane more where the wire goes up or down: a turn has its cost.
    Costs are small, so the points wait in a ring of lists by their cost.
    """
    ring: list[list[tuple[int, int]]] = [[] for _ in range(VIA_COST + 1)]
    came: dict[int, int] = {}
    ring[0] = [(at, -1) for at in starts]
    cost, waiting, upright, size = 0, len(starts), 2 * plane, len(ring)
    step, land, via = maps.step, maps.land, maps.via
    while waiting:
        slot = ring[cost % size]
        while slot:
            at, before = slot.pop()
            waiting -= 1
            if at in came:
                continue
            came[at] = before
            point = at % upright
            if point < plane and land[point]:
                return [at % upright for at in trace(came, at)]
            ahead = width if at >= upright else 1
            for to in (at - ahead, at + ahead):
                if step[to % upright] and to not in came:
                    ring[(cost + step[to % upright]) % size].append((to, at))
                    waiting += 1
            to = at + upright if at < upright else point
            if to not in came:
                ring[(cost + TURN_COST) % size].append((to, at))
                waiting += 1
            to = at + plane if point < plane else at - plane
            if not via[point % plane] and to not in came:
                ring[(cost + VIA_COST) % size].append((to, at))
                waiting += 1
        cost += 1
    return []


def trace(came: dict[int, int], at: int) -> list[int]:
    path = [at]
    while came[at] >= 0:
        at = came[at]
        path.append(at)
    return path


def unturned(path: list[int]) -> list[int]:
    """The path with each point once, where it turns too."""
    return [at for at, before in zip(path, [-1, *path]) if at != before]


def lead_of(nodes: list[tuple[int, int, int]]) -> Lead:
    """Wires and vias along a path of (metal, x, y), the pad first."""
    _, x, y = nodes[0]
    lead = Lead(square(x, y, PAD), [(METAL1, square(x, y, PAD))])
    begin = 0
    for at in range(1, len(nodes)):
        is_last = at + 1 == len(nodes)
        if nodes[at][0] != nodes[at - 1][0]:
            _, x, y = nodes[at]
            lead.vias.append(square(x, y, CUT))
            lead.metal += [(METAL1, square(x, y, PAD)), (METAL2, square(x, y, PAD))]
            begin = at
        elif is_last or not is_straight(*nodes[at - 1:at + 2]):
            lead.metal.append((nodes[at][0], wire(nodes[begin], nodes[at])))
            begin = at
    return lead


def is_straight(a: tuple[int, int, int], b: tuple[int, int, int], c: tuple[int, int, int]) -> bool:
    return a[0] == b[0] == c[0] and (b[1] - a[1], b[2] - a[2]) == (c[1] - b[1], c[2] - b[2])


def wire(a: tuple[int, int, int], b: tuple[int, int, int]) -> Box:
    return Box(min(a[1], b[1]), min(a[2], b[2]), max(a[1], b[1]), max(a[2], b[2])).grown(WIRE)
