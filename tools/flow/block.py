"""A placed and routed block: from its DEF file and the cells' drawings to GDSII. Lengths are in nanometres."""
from __future__ import annotations

import re
from collections.abc import Iterator
from dataclasses import dataclass, field
from pathlib import Path

import gdsii
from gdsii import LAYERS, Box, Label, Orientation, Reference, Structure

ORIENTATIONS = {"N": Orientation(False, 0), "S": Orientation(False, 2),
                "FN": Orientation(True, 2), "FS": Orientation(True, 0)}
RAIL = 16               # the height of a cell's rail, and the width of the bars that join the rails, in grid units
BAR_SPACE = 12          # between the rows and a bar, in grid units


@dataclass(frozen=True)
class Component:
    name: str
    cell: str
    x: int
    y: int
    orientation: str

    @property
    def is_upright(self) -> bool:
        return self.orientation in ("N", "FN")


@dataclass(frozen=True)
class Port:
    """A pin of the block."""
    name: str
    layer: str
    x: int
    y: int


@dataclass
class Wiring:
    """A net's wires, as pairs of points on a layer, and its vias."""
    wires: list[tuple[str, tuple[int, int], tuple[int, int]]] = field(default_factory=list)
    vias: list[tuple[str, int, int]] = field(default_factory=list)


@dataclass
class Placed:
    """What a DEF file says."""
    components: list[Component]
    ports: list[Port]
    nets: dict[str, Wiring]


def section(text: str, name: str) -> list[str]:
    """The statements of a section, each without its `- `."""
    found = re.search(rf"^{name} \d+ ;\n(.*?)^END {name}", text, re.S | re.M)
    return re.split(r"^- ", found.group(1), flags=re.M)[1:] if found else []


def routed(statement: str, scale: float) -> Wiring:
    """The wiring of one net: `ROUTED LAYER ( x y ) ( * y ) VIA NEW LAYER ..`."""
    wiring = Wiring()
    begin = re.search(r"\+ ROUTED\s+(.*?);", statement, re.S)
    for path in re.split(r"\s+NEW\s+", begin.group(1)) if begin else []:
        layer, *rest = re.findall(r"\([^)]*\)|[^\s()]+", path)
        at: tuple[int, int] | None = None
        for word in rest:
            if word.startswith("("):
                x, y = word.strip("() ").split()[:2]
                to = (at[0] if x == "*" else round(float(x) * scale), at[1] if y == "*" else round(float(y) * scale))
                if at:
                    wiring.wires.append((layer, at, to))
                at = to
            elif at:
                wiring.vias.append((word, *at))
    return wiring


def read_def(path: Path) -> Placed:
    text = path.read_text()
    scale = 1000 / int(re.search(r"UNITS DISTANCE MICRONS (\d+)", text).group(1))
    place = r"\( (\S+) (\S+) \)"
    components, ports, nets = [], [], {}
    for statement in section(text, "COMPONENTS"):
        found = re.match(rf"(\S+) (\S+) .*?(?:PLACED|FIXED) {place} (\w+)", statement, re.S)
        name, cell, x, y, orientation = found.groups()
        components.append(Component(name, cell, round(float(x) * scale), round(float(y) * scale), orientation))
    for statement in section(text, "PINS"):
        name, layer, x, y = re.match(rf"(\S+) .*?LAYER (\S+) .*?PLACED {place}", statement, re.S).groups()
        ports.append(Port(name, layer, round(float(x) * scale), round(float(y) * scale)))
    for statement in section(text, "NETS"):
        nets[statement.split()[0]] = routed(statement, scale)
    return Placed(components, ports, nets)


@dataclass(frozen=True)
class Technology:
    """Widths of wires and the shapes of vias, of a LEF file."""
    widths: dict[str, int]
    vias: dict[str, list[tuple[str, Box]]]


def read_technology(text: str) -> Technology:
    widths = {name: round(float(width) * 1000)
              for name, width in re.findall(r"^LAYER (metal\d)\n.*?WIDTH (\S+) ;", text, re.S | re.M)}
    vias = {}
    for name, body in re.findall(r"^VIA (\S+) DEFAULT\n(.*?)^END \1", text, re.S | re.M):
        shapes = re.findall(r"LAYER (\S+) ;\s*RECT (.*?) ;", body)
        vias[name] = [(layer, Box(*(round(float(at) * 1000) for at in box.split()))) for layer, box in shapes]
    return Technology(widths, vias)


class Drawer:
    """Draws a block over the structures of its cells."""

    def __init__(self, name: str, placed: Placed, technology: Technology, sizes: dict[str, tuple[int, int]],
                 unit: int) -> None:
        self.block, self.placed, self.technology = Structure(name), placed, technology
        self.sizes, self.unit = sizes, unit

    def snapped(self, at: int) -> int:
        return round(at / self.unit) * self.unit

    def add(self, layer: str, box: Box) -> None:
        self.block.add(layer, Box(*map(self.snapped, box)))

    def place(self) -> None:
        for it in self.placed.components:
            turned = ORIENTATIONS[it.orientation]
            low = turned.box(Box(0, 0, *self.sizes[it.cell]))
            self.block.references.append(Reference(it.cell, turned, it.x - low.x0, it.y - low.y0))

    def wire(self) -> None:
        for wiring in self.placed.nets.values():
            for layer, a, b in wiring.wires:
                half = self.technology.widths[layer] // 2
                self.add(layer, Box(min(a[0], b[0]), min(a[1], b[1]), max(a[0], b[0]), max(a[1], b[1])).grown(half))
            for via, x, y in wiring.vias:
                for layer, box in self.technology.vias[via]:
                    self.add(layer, box.moved(x, y))

    def label_ports(self) -> None:
        for port in self.placed.ports:
            x, y = self.snapped(port.x), self.snapped(port.y)
            self.add(port.layer, Box(x, y, x, y).grown(self.technology.widths[port.layer] // 2))
            self.block.labels.append(Label(LAYERS[port.layer], port.name, x, y))

    def rails(self) -> Iterator[tuple[bool, int]]:
        """For each row whether it is the rail vdd, and the lower edge of that rail."""
        for y, is_upright in sorted({(it.y, it.is_upright) for it in self.placed.components}):
            height = next(iter(self.sizes.values()))[1]
            upper = y + height - RAIL * self.unit
            yield is_upright, upper
            yield not is_upright, y

    def join_rails(self, vdd: str, gnd: str) -> None:
        """One bar of metal1 joins the rails vdd at the left of the rows, one the rails gnd at their right."""
        left = min(it.x for it in self.placed.components)
        right = max(it.x + self.sizes[it.cell][0] for it in self.placed.components)
        thick, space = RAIL * self.unit, BAR_SPACE * self.unit
        bars = ((True, vdd, left - space - thick, left), (False, gnd, right, right + space + thick))
        for is_vdd, name, x0, x1 in bars:
            ys = sorted(y for is_upper, y in self.rails() if is_upper == is_vdd)
            for y in ys:
                self.add("metal1", Box(x0, y, x1, y + thick))
            bar = (x0, x0 + thick) if is_vdd else (x1 - thick, x1)
            self.add("metal1", Box(bar[0], ys[0], bar[1], ys[-1] + thick))
            self.block.labels.append(Label(LAYERS["metal1"], name, bar[0] + thick // 2, ys[0] + thick // 2))


def draw(name: str, placed: Placed, technology: Technology, sizes: dict[str, tuple[int, int]], unit: int,
         rails: tuple[str, str]) -> Structure:
    """The block as references to its cells, with its wires, its rails joined, and labels at its pins and rails."""
    drawer = Drawer(name, placed, technology, sizes, unit)
    drawer.place()
    drawer.wire()
    drawer.label_ports()
    drawer.join_rails(*rails)
    return drawer.block


def for_extract(structures: dict[str, Structure], name: str) -> Structure:
    """The block flat, with labels of the rails alone, on the layers that `cellgen extract` reads: without
    metal3, so a net that goes over it is in parts."""
    whole = gdsii.flat(structures, name)
    upper = (LAYERS["via2"], LAYERS["metal3"])
    rails = {label.text for label in structures[name].labels if label.layer == LAYERS["metal1"]}
    return Structure(name, [(layer, box) for layer, box in whole.boxes if layer not in upper],
                     [label for label in whole.labels if label.text in rails])
