"""The subcircuits of a SPICE file, unchanged. Python 3.8."""
from __future__ import annotations

from collections import Counter
from pathlib import Path
from typing import Dict, List, Optional, Set

from lines import Line, Reader, Said
from values import NoValue, Scope


class Cell:
    """A subcircuit: its pins, the lines inside, parameters with their plain values, and directions of pins."""

    def __init__(self, line: Line) -> None:
        words = [word for word in line.words[1:] if word not in ("params:", "/")]
        self.place = line.place
        self.name = words[0] if words else ""
        self.pins = [word for word in words[1:] if "=" not in word]
        self.values: Dict[str, object] = pairs(words[1:])
        self.lines: List[Line] = []
        self.directions: Dict[str, str] = {}
        self.is_ended = False

    def take(self, line: Line) -> None:
        first = line.words[0]
        if first in (".param", ".params"):
            self.values.update(pairs(line.words[1:]))
        elif first.lstrip("* ").startswith(".pininfo"):
            self.directions.update(word.split(":", 1) for word in line.words if ":" in word)
        else:
            self.lines.append(line)


def pairs(words: List[str]) -> Dict[str, object]:
    return dict(word.split("=", 1) for word in words if "=" in word)


class Library:
    """What a file holds: subcircuits by name, rails for all, parameters, kinds of models, the scale of sizes."""

    def __init__(self, said: Said) -> None:
        self.said = said
        self.cells: Dict[str, Cell] = {}
        self.rails: Set[str] = set()
        self.values: Dict[str, object] = {}
        self.models: Dict[str, str] = {}
        self.scale = 1.0
        self.passed: Counter = Counter()

    def read(self, path: Path) -> None:
        inside: Optional[Cell] = None
        for line in Reader(self.said).lines(path):
            first = line.words[0]
            if first == ".subckt":
                inside = Cell(line)
                self.add(inside)
            elif first == ".ends":
                if inside is not None:
                    inside.is_ended = True
                inside = None
            elif first in (".global", ".options", ".option", ".model"):
                self.take(line)
            elif inside is not None:
                inside.take(line)
            else:
                self.take(line)
        for what, count in self.passed.items():
            self.said.add("file", f"{count} lines {what} outside subcircuits ignored")

    def add(self, cell: Cell) -> None:
        if not cell.name:
            self.said.add(cell.place, "a subcircuit without a name ignored")
        elif cell.name in self.cells:
            self.said.add(cell.name, f"{cell.place}: a second subcircuit of this name ignored")
        else:
            self.cells[cell.name] = cell

    def take(self, line: Line) -> None:
        first, rest = line.words[0], line.words[1:]
        if first == ".global":
            self.rails.update(rest)
        elif first in (".param", ".params"):
            self.values.update(pairs(rest))
        elif first in (".option", ".options"):
            self.options(line.place, pairs(rest))
        elif first == ".model" and len(rest) > 1:
            kind = rest[1].split("(")[0]
            if kind in ("nmos", "pmos"):
                self.models[rest[0]] = kind[0]
        elif first not in (".end", "*.pininfo"):
            self.passed[first if first.startswith(".") else first[:1].upper()] += 1

    def options(self, place: str, given: Dict[str, object]) -> None:
        if "scale" in given:
            try:
                self.scale = Scope(None, self.values).value(str(given["scale"]))
            except NoValue as fault:
                self.said.add(place, f"the scale has no value ({fault}), ignored")
