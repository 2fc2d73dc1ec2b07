"""Landing pads: leads each signal pin of a made cell to a pad of metal1 on a routing grid, by metal1, vias and metal2.

Lengths are in grid units. The rules are those of docs/FORMATS.md, The rules; what comes out is to be checked by
`extract`.
"""
from __future__ import annotations

import copy
from collections.abc import Iterable, Iterator
from typing import NamedTuple

import contacts
from gdsii import LAYERS, Box, Structure
from leads import CUT, METAL1, METAL2, NEAR, PAD, WIRE, Lead, Maps, cheapest, lead_of, unturned
from lef import Macro, Pin
from plane import Plane, cells, nearer

NAMES = ("metal1", "metal2")
SPACING = (6, 8)            # 7.2, 9.2
CUT_SPACING, CUT_TO_EDGE = 6, 4     # 8.2; 8.4 and 8.5
BORDER = 4                  # metal of a pad's wires to the cell's side edges: half of 9.2, so that any two cells abut
RAIL = 16


class Grid(NamedTuple):
    """Vias of the router are at x = pitch_x / 2 + i * pitch_x, and so do y."""
    pitch_x: int
    pitch_y: int

    def points(self, width: int, height: int) -> Iterator[tuple[int, int]]:
        for x in range(self.pitch_x // 2, width, self.pitch_x):
            for y in range(self.pitch_y // 2, height, self.pitch_y):
                yield x, y


class Piece(NamedTuple):
    """A rectangle of metal1 or metal2, and its net: a number of its own."""
    metal: int
    box: Box
    net: int


class NoPlace(Exception):
    """There is no room for a pad of a pin."""

    def __init__(self, pin: str, places: int, shut: int) -> None:
        of_these = f", {shut} of them shut in once the leads are drawn" if shut else ""
        super().__init__(f"no landing pad for pin {pin}: {places} places where one could stand{of_these}")
        self.pin = pin


def pieces_of(structure: Structure) -> list[Piece]:
    """All metal with its nets: what touches, or has a via in common, is one net. Poly and diffusion play no part."""
    metals = [(metal, box) for metal in (METAL1, METAL2) for box in structure.on(NAMES[metal])]
    parent = list(range(len(metals)))

    def root(at: int) -> int:
        while parent[at] != at:
            at = parent[at]
        return at

    for at, (metal, box) in enumerate(metals):
        for before, (other, near) in enumerate(metals[:at]):
            if metal == other and box.touches(near):
                parent[root(at)] = root(before)
    for via in structure.on("via"):
        joined = [at for at, (_, box) in enumerate(metals) if box.overlaps(via)]
        for at in joined[1:]:
            parent[root(at)] = root(joined[0])
    return [Piece(metal, box, root(at)) for at, (metal, box) in enumerate(metals)]


class Padder:
    """One cell while it gets its pads."""

    def __init__(self, structure: Structure, macro: Macro, grid: Grid, reach: int) -> None:
        self.structure, self.macro, self.grid, self.reach = structure, macro, grid, reach
        self.width, self.height = macro.width, macro.height
        self.pieces = pieces_of(structure)
        self.fixed = [box for layer in ("poly", "active", "contact") for box in structure.on(layer)]
        self.vias = structure.on("via")
        self.leads: dict[str, Lead] = {}
        self.contacts: list[tuple[int, Box]] = []       # shapes of contacts that pins got besides, by layer
        self.shut: set[tuple[int, int, int]] = set()    # nets with places from which their leads leave no way out

    def net_of(self, pin: Pin) -> int:
        return next(p.net for p in self.pieces if (NAMES[p.metal], p.box) == pin.port[0])

    def near(self, boxes: Iterable[Box], distance: int) -> Plane:
        return nearer(self.width, self.height, boxes, distance)

    def metal(self, metal: int, net: int, is_own: bool) -> list[Box]:
        return [p.box for p in self.pieces if p.metal == metal and (p.net == net) == is_own]

    def no_via(self) -> Plane:
        """Where the centre of a via is too near to poly, active, a contact or another via."""
        return self.near(self.fixed, CUT + CUT_TO_EDGE) | self.near(self.vias, CUT + CUT_SPACING)

    def no_pad(self, net: int) -> Plane:
        """Where a via of this net would be too near to something."""
        pads = self.no_via()
        for metal in (METAL1, METAL2):
            pads = pads | self.near(self.metal(metal, net, False), SPACING[metal] + PAD)
        return pads

    def places(self, net: int) -> list[tuple[int, int]]:
        """The points of the grid where a pad of this net may stand: a via has room, and a way out on metal2."""
        shut = self.no_pad(net) | self.near(self.metal(METAL2, net, True), SPACING[METAL2] + PAD)
        column = self.near([p.box for p in self.pieces if p.metal == METAL2], SPACING[METAL2] + WIRE)
        points = self.grid.points(self.width, self.height)
        return [at for at in points if not shut.has(*at) and self.is_open(column, *at)]

    def maps(self, net: int) -> Maps:
        inside = Plane(self.width, self.height)
        inside.add(BORDER + PAD, RAIL + PAD, self.width - BORDER - PAD, self.height - RAIL - PAD)
        all_of_it = Plane(self.width, self.height)
        all_of_it.add(0, 0, self.width, self.height)
        outside = all_of_it - inside
        step = bytearray()
        for metal in (METAL1, METAL2):
            blocked = self.near(self.metal(metal, net, False), SPACING[metal] + WIRE) | outside
            beside = self.near(self.metal(metal, net, True), SPACING[metal] + WIRE)
            step += bytes(0 if b else NEAR if n else 1 for b, n in zip(blocked.bytes(), beside.bytes()))
        free, landing = self.places(net), Plane(self.width, self.height)
        for x, y in self.apart(free):
            if (net, x, y) not in self.shut:
                landing.add(x, y, x, y)
        return Maps(step, (self.no_pad(net) | outside).bytes(), landing.bytes(), len(free))

    def apart(self, places: list[tuple[int, int]]) -> list[tuple[int, int]]:
        """Those in columns of the grid that have no pad yet: pads of one column are in each other's way on metal2."""
        taken = {lead.pad.x0 + PAD for lead in self.leads.values()}
        return [(x, y) for x, y in places if x not in taken]

    def is_open(self, column: Plane, x: int, y: int) -> bool:
        """Whether the router gets away from a pad on metal2, up or down."""
        for way in (1, -1):
            ys = range(y, y + way * (self.reach + 1), way)
            if 0 <= ys[-1] <= self.height and not any(column.has(x, at) for at in ys):
                return True
        return False

    def shut_in(self, lead: Lead) -> bool:
        """Whether with this lead the router would get away no more from its pad, or from one before it."""
        metal2 = [p.box for p in self.pieces if p.metal == METAL2] + [box for at, box in lead.metal if at == METAL2]
        column = self.near(metal2, SPACING[METAL2] + WIRE)
        pads = [it.pad for it in self.leads.values()] + [lead.pad]
        return not all(self.is_open(column, pad.x0 + PAD, pad.y0 + PAD) for pad in pads)

    def with_contact(self, net: int, x: int, y: int) -> Padder:
        """The cell as it is so far, with another contact of a net."""
        it, shapes = copy.copy(self), contacts.shapes(x, y)
        it.contacts = [*self.contacts, *((LAYERS[layer], box) for layer, box in shapes.items())]
        it.fixed = [*self.fixed, shapes["poly"], shapes["contact"]]
        it.pieces = [*self.pieces, Piece(METAL1, shapes["metal1"], net)]
        it.leads, it.vias, it.shut = dict(self.leads), list(self.vias), set(self.shut)
        return it

    def with_lead(self, pin: Pin, has_contacts: bool) -> Padder:
        """The cell with a lead for a pin too. A pin whose contact is shut in by its neighbours may get another one."""
        try:
            self.lead(pin)
            return self
        except NoPlace:
            net = self.net_of(pin)
            metal1 = [p.box for p in self.pieces if p.metal == METAL1]
            own = self.metal(METAL1, net, True)
            rows = range(self.grid.pitch_y // 2, self.height, self.grid.pitch_y)
            places = contacts.places(self.structure, own, metal1, self.vias, rows)
            for place in places if has_contacts else []:
                it = self.with_contact(net, *place)
                try:
                    it.lead(pin)
                    return it
                except NoPlace:
                    continue
            raise

    def lead(self, pin: Pin) -> Lead:
        """Finds the cheapest lead from a pin's net to a place for a pad that can be reached, and takes it down."""
        while True:
            lead, net = self.cheapest_lead(pin), self.net_of(pin)
            if not self.shut_in(lead):
                break
            self.shut.add((net, lead.pad.x0 + PAD, lead.pad.y0 + PAD))
        self.pieces += [Piece(metal, box, net) for metal, box in lead.metal]
        self.vias = self.vias + lead.vias
        self.leads[pin.name] = lead
        return lead

    def cheapest_lead(self, pin: Pin) -> Lead:
        net = self.net_of(pin)
        maps = self.maps(net)
        width = self.width + 1
        plane = width * (self.height + 1)
        starts = [metal * plane + y * width + x for metal in (METAL1, METAL2)
                  for box in self.metal(metal, net, True)
                  for y in range(box.y0 + WIRE, box.y1 - WIRE + 1) for x in range(box.x0 + WIRE, box.x1 - WIRE + 1)]
        path = cheapest(starts, maps, width, plane)
        if not path:
            raise NoPlace(pin.name, maps.places, sum(1 for at, *_ in self.shut if at == net))
        nodes = [(at // plane, at % plane % width, at % plane // width) for at in unturned(path)]
        lead = lead_of(nodes)
        self.fill_clefts(net, lead)
        return lead

    def fill_clefts(self, net: int, lead: Lead) -> None:
        """Fills what is too narrow between metal of one net (7.2 and 9.2 hold there too)."""
        for metal in (METAL1, METAL2):
            boxes = self.metal(metal, net, True) + [box for at, box in lead.metal if at == metal]
            drawn = cells(self.width, self.height, boxes)
            lead.metal += [(metal, box) for box in (drawn.closed(SPACING[metal]) - drawn).rectangles()]
