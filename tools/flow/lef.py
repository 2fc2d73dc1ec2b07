"""LEF macros as `cellgen make` writes them: pins with one port, obstructions. Lengths are in grid units."""
from __future__ import annotations

import re
from collections.abc import Iterable
from dataclasses import dataclass, field
from pathlib import Path

from gdsii import Box

HEAD = """VERSION 5.8 ;
BUSBITCHARS "[]" ;
DIVIDERCHAR "/" ;
UNITS
  DATABASE MICRONS 1000 ;
END UNITS
"""
RAILS = ("POWER", "GROUND")


@dataclass
class Pin:
    name: str
    direction: str
    use: str
    port: list[tuple[str, Box]] = field(default_factory=list)

    @property
    def is_rail(self) -> bool:
        return self.use in RAILS


@dataclass
class Macro:
    """The abstract of a cell."""
    name: str
    width: int
    height: int
    pins: list[Pin] = field(default_factory=list)
    obstructions: list[tuple[str, Box]] = field(default_factory=list)

    @property
    def signals(self) -> list[Pin]:
        return [pin for pin in self.pins if not pin.is_rail]


def rectangles(lines: str, unit: float) -> list[tuple[str, Box]]:
    """The rectangles of a port or an obstruction, each with the layer before it."""
    found, layer = [], ""
    for words in map(str.split, lines.splitlines()):
        if words[:1] == ["LAYER"]:
            layer = words[1]
        elif words[:1] == ["RECT"]:
            found.append((layer, Box(*(round(float(word) / unit) for word in words[1:5]))))
    return found


def read(path: Path, unit: float) -> list[Macro]:
    """The macros of a file; `unit_um` is a unit in microns."""
    macros = []
    for name, body in re.findall(r"^MACRO (\S+)\n(.*?)^END \1\n", path.read_text(), re.S | re.M):
        width, height = re.search(r"SIZE (\S+) BY (\S+) ;", body).groups()
        macro = Macro(name, round(float(width) / unit), round(float(height) / unit))
        for pin, inside in re.findall(r"^  PIN (\S+)\n(.*?)^  END \1\n", body, re.S | re.M):
            direction, use = (re.search(rf"{key} (\S+) ;", inside).group(1) for key in ("DIRECTION", "USE"))
            macro.pins.append(Pin(pin, direction, use, rectangles(inside, unit)))
        blocked = re.search(r"^  OBS\n(.*?)^  END\n", body, re.S | re.M)
        macro.obstructions = rectangles(blocked.group(1), unit) if blocked else []
        macros.append(macro)
    return macros


def layer_lines(shapes: list[tuple[str, Box]], unit: float, indent: str) -> Iterable[str]:
    for layer in sorted({layer for layer, _ in shapes}):
        yield f"{indent}LAYER {layer} ;"
        for at, box in shapes:
            if at == layer:
                yield f"{indent}RECT " + " ".join(f"{value * unit:.3f}" for value in box) + " ;"


def macro_lines(macro: Macro, unit: float, site: str) -> Iterable[str]:
    yield f"MACRO {macro.name}"
    yield "  CLASS CORE ;"
    yield f"  FOREIGN {macro.name} 0.000 0.000 ;"
    yield "  ORIGIN 0.000 0.000 ;"
    yield f"  SIZE {macro.width * unit:.3f} BY {macro.height * unit:.3f} ;"
    yield "  SYMMETRY X Y ;"
    yield f"  SITE {site} ;"
    for pin in macro.pins:
        yield f"  PIN {pin.name}"
        yield f"    DIRECTION {pin.direction} ;"
        yield f"    USE {pin.use} ;"
        yield "    PORT"
        yield from layer_lines(pin.port, unit, "      ")
        yield "    END"
        yield f"  END {pin.name}"
    if macro.obstructions:
        yield "  OBS"
        yield from layer_lines(macro.obstructions, unit, "    ")
        yield "  END"
    yield f"END {macro.name}"


def text(macros: Iterable[Macro], unit: float, site: str = "core", head: str = HEAD) -> str:
    """A LEF library of these macros, each with FOREIGN and SITE, which place-and-route tools ask for."""
    body = "".join(f"{line}\n" for macro in macros for line in macro_lines(macro, unit, site))
    return head + body + "END LIBRARY\n"
