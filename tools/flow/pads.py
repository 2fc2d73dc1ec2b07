"""A made cell with a landing pad for each signal pin, as narrow as possible. Lengths are in grid units."""
from __future__ import annotations

from dataclasses import replace

from gdsii import LAYERS, Box, Structure
from lef import Macro, Pin
from padding import Grid, NoPlace, Padder

MOST_COLUMNS = 5            # of the grid, by which a cell is made wider for its pads


def widened(structure: Structure, macro: Macro, width: int) -> tuple[Structure, Macro]:
    """The cell with rails, well and selects led on to a greater width."""
    old = macro.width
    more = width - old

    def longer(layer: int, box: Box) -> Box:
        is_rail = layer == LAYERS["metal1"] and box.x0 == 0 and box.x1 == old
        is_band = layer in (LAYERS["well"], LAYERS["pselect"], LAYERS["nselect"]) and box.x0 < 0
        return box._replace(x1=box.x1 + more) if is_rail or is_band else box

    wide = Structure(structure.name, [(layer, longer(layer, box)) for layer, box in structure.boxes], structure.labels)
    pins = [replace(pin, port=[(layer, longer(LAYERS[layer], box)) for layer, box in pin.port]) for pin in macro.pins]
    return wide, Macro(macro.name, width, macro.height, pins, macro.obstructions)


def has_columns(padder: Padder) -> bool:
    """Whether there are as many columns of the grid with places as there are pins."""
    columns = set()
    for pin in padder.macro.signals:
        columns |= {x for x, _ in padder.places(padder.net_of(pin))}
    return len(columns) >= len(padder.macro.signals)


def ordered(cell: tuple[Structure, Macro], grid: Grid, reach: int, has_contacts: bool) -> Padder:
    """The cell with a pad for each signal pin. A pin that finds no place comes first at the next try, until an order of
    the pins comes again."""
    order = sorted(cell[1].signals, key=lambda pin: pin.port[0][1].x1 - pin.port[0][1].x0)
    tried: list[list[Pin]] = []
    while True:
        tried.append(order)
        padder = Padder(*cell, grid, reach)
        try:
            for pin in order:
                padder = padder.with_lead(pin, has_contacts)
            return padder
        except NoPlace as fault:
            order = sorted(order, key=lambda pin: pin.name != fault.pin)
            if order in tried:
                raise


def padded(structure: Structure, macro: Macro, grid: Grid, reach: int) -> Padder:
    """The cell with its pads, on as few columns of the grid as possible; pins get further contacts only where that
    saves a column."""
    least = -(-macro.width // grid.pitch_x)
    for more in range(MOST_COLUMNS + 1):
        cell = widened(structure, macro, (least + more) * grid.pitch_x)
        if more < MOST_COLUMNS and not has_columns(Padder(*cell, grid, reach)):
            continue
        for has_contacts in (False, True):
            try:
                return ordered(cell, grid, reach, has_contacts)
            except NoPlace as found:
                fault = found
    raise fault
