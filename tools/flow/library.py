"""A library of made cells for a flow: all of one height, with pads on the routing grid, a filler, and views."""
from __future__ import annotations

import shutil
from dataclasses import dataclass, replace
from pathlib import Path

import gdsii
import lef
import parts
import project
import spice
import technology
import tools
from gdsii import Structure
from lef import Macro
from technology import Technology
from tools import Failed

LAMBDA = 300


@dataclass
class Library:
    """The folder of a library, and how it is made. Lengths are in grid units."""
    folder: Path
    spice: Path
    given: Path
    room: int
    grid: tuple[int, int]
    jobs: int
    has_taps: bool
    is_low: bool = False
    has_trails: bool = False
    seconds: int = 0
    tech: Technology = Technology()

    @property
    def height(self) -> Path:
        """The technology file with the height of all cells."""
        return self.folder / "cells" / "height.toml"

    @property
    def pads(self) -> Path:
        return self.folder / "pads"

    @property
    def views(self) -> Path:
        return self.folder / "views" / project.NAME

    def taps(self) -> list[str]:
        return ["--taps"] if self.has_taps else []

    @property
    def filler(self) -> str:
        """The filler's name: qflow takes each cell for a filler whose name begins so."""
        names = [cell.name for cell in spice.read(self.spice)]
        tries = ("fill", "flowfill", *(f"flowfill{number}" for number in range(1000)))
        return next(name for name in tries if not any(it.startswith(name) for it in names))

    def parts(self) -> parts.Parts:
        return parts.found(self.views.with_suffix(".lib").read_text())

    def make(self) -> str:
        """Every subcircuit of the SPICE file as a cell, all of one height."""
        self.folder.mkdir(parents=True, exist_ok=True)
        how = [word for word, is_on in (("--low", self.is_low), ("--trails", self.has_trails)) if is_on]
        words = ["--one-height", *self.taps(), *how, "--room", self.room, "--grid", self.grid[1],
                 "--seconds", self.seconds, self.given, self.spice, self.folder / "cells", f"-j{self.jobs}"]
        told = tools.script("make-library", words, self.folder / "cells.log", may_lack=True)
        self.tech = technology.read(self.height)
        if self.tech.lambda_nm != LAMBDA:
            raise Failed(f"lambda is {self.tech.lambda_nm} nm; Magic's technologies here are those of {LAMBDA} nm")
        return f"{told}, {self.tech.height} units high"

    def add_pads(self) -> str:
        """Pads on the routing grid for all made cells, and the filler."""
        made, done = self.folder / "cells", self.pads / "done"
        paths = sorted(path for path in made.glob("*.gds") if path.stem != "library")
        if not done.exists() or any(path.stat().st_mtime > done.stat().st_mtime for path in paths):
            shutil.rmtree(self.pads, ignore_errors=True)
            self.pads.mkdir()
            tools.script("filler", [self.height, self.pads / self.filler, "--width", self.grid[0], *self.taps()],
                         self.folder / "filler.log")
            told = tools.script("pin-pads", [self.height, made, self.pads, "--grid", *self.grid, "--jobs", self.jobs,
                                             *self.taps()], self.folder / "pads.log", may_lack=True)
            done.write_text(told)
        lost = done.read_text().partition("; ")[2].strip()
        macros = self.macros()
        pins, count = sum(len(macro.signals) for macro in macros), len(macros) - 1
        if not count:
            raise Failed(f"no cell has pads: {lost}")
        return (f"{pins} pins of {count} cells, each cell with its old netlist and no broken rule; a filler"
                + (f"; left out: {lost}" if lost else ""))

    def write_views(self) -> str:
        """Liberty, Verilog, SPICE and LEF of the cells with pads."""
        self.views.parent.mkdir(parents=True, exist_ok=True)
        told = tools.script("liberty", [self.height, self.spice, self.pads, self.views], self.views.with_suffix(".log"),
                            may_lack=True)
        head = self.views.with_name("tech.lef")
        tools.script("tech-lef", [self.height, "--grid", *self.grid], head)
        text = lef.text(self.macros(), self.tech.unit_um, head=head.read_text().replace("END LIBRARY\n", ""))
        self.views.with_suffix(".lef").write_text(text)
        found = self.parts()
        if "buffer" in found.missing or "inverter" in found.missing:
            raise Failed(f"{told}; synthesis needs a buffer and an inverter, and the library has no "
                         + ", ".join(found.missing))
        parts_told = ", ".join(f"{part} {name}" for part, name in found.cells.items())
        return f"{told}; for synthesis: {parts_told}"

    def macros(self) -> list[Macro]:
        return [macro for path in sorted(self.pads.glob("*.lef")) for macro in lef.read(path, self.tech.unit_um)]

    def structures(self) -> dict[str, Structure]:
        """The drawings of the cells with pads."""
        return {name: cell for path in sorted(self.pads.glob("*.gds")) for name, cell in gdsii.read(path).items()}

    def transistors(self) -> dict[str, int]:
        return {cell.name: len(cell.transistors) for cell in spice.read(self.views.with_suffix(".sp"))}

    def subcircuits(self) -> str:
        """The cells as SPICE, with the names of models that a drawing's netlist has."""
        models = {**dict.fromkeys(self.tech.p_models, "p"), **dict.fromkeys(self.tech.n_models, "n")}
        end = "fet" if self.has_taps else ""
        cells = spice.read(self.views.with_suffix(".sp"))
        for cell in cells:
            cell.transistors = [replace(t, model=models[t.model] + end) for t in cell.transistors]
        return "".join(map(spice.text, cells))
