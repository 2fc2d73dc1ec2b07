"""Delays and slopes of a cell by ngspice, over loads and slopes, for the tables of a Liberty file.

Which changes of the inputs bring an output up or down is found at the level of switches; ngspice then goes through the
same changes, the last of them at each slope and with each load.
"""
from __future__ import annotations

import concurrent.futures
import itertools
import re
import subprocess
import tempfile
from collections.abc import Iterator
from dataclasses import dataclass, replace
from pathlib import Path
from typing import TYPE_CHECKING

import spice
from spice import Subcircuit
from storage import Stored
from switches import Combinational, Network, NotKnown, State

if TYPE_CHECKING:
    from views import Cell

LOADS, SLOPES = (0.01, 0.05, 0.2), (0.1, 0.5, 1.5)  # picofarads; nanoseconds from LOW to HIGH
LOW, HIGH = 0.2, 0.8                # of the supply: where Liberty takes slopes, if no other levels are given
DEPTH = 4                           # changes of inputs until an output answers: set up, clock, set up, clock
PHASES = (20.0, 100.0)              # nanoseconds that each change may take; the longer one where the first is too short
FAULT = r"^.*(?:could not find a valid modelname|unknown model|can't find model|\.include).*$"      # of ngspice
EDGE = 0.2                          # nanoseconds of the changes before the last

Vector = dict[str, int]


@dataclass(frozen=True)
class Measured:
    """Nanoseconds, a row for each load, with a column for each slope."""
    delays: list[list[float]]
    slopes: list[list[float]]


class NotMeasured(Exception):
    """Why a delay was not found."""


def changes(network: Network, related: str, output: str, level: int) -> list[Vector]:
    """The fewest changes of one input each whose last one is of `related` and brings the output to this level; none
    where no such change is found."""
    front = [([at], network.settled({}, at)[0]) for at in network.vectors(network.inputs)]
    seen: set[tuple] = set()
    for _ in range(DEPTH):
        later: list[tuple[list[Vector], State]] = []
        for path, before in front:
            for pin in network.inputs:
                at = {**path[-1], pin: 1 - path[-1][pin]}
                state, _ = network.settled(before, at)
                if pin == related and (before[output], state[output]) == (1 - level, level):
                    return [*path, at]
                key = (tuple(at.values()), tuple(sorted((net, it) for net, it in state.items() if it is not None)))
                if key not in seen:
                    seen.add(key)
                    later.append(([*path, at], state))
        front = later
    return []


def ramp(path: list[Vector], pin: str, volts: float, phase: float, last: float) -> str:
    """An input through all changes; `last` is how long its last change takes, in nanoseconds."""
    points = [f"0 {path[0][pin] * volts:g}"]
    for number, (before, after) in enumerate(itertools.pairwise(path), 1):
        if before[pin] != after[pin]:
            long = last if number == len(path) - 1 else EDGE
            points += [f"{number * phase:g}n {before[pin] * volts:g}",
                       f"{number * phase + long:g}n {after[pin] * volts:g}"]
    return f"pwl({' '.join(points)})"


def renamed(cell: Subcircuit) -> Subcircuit:
    """The cell with other names of nets: ngspice takes one that is named as a model for the model."""
    def ends(t: spice.Transistor) -> dict[str, str]:
        return {key: f"net_{getattr(t, key)}" for key in ("drain", "gate", "source", "bulk")}

    pins, transistors = [f"net_{pin}" for pin in cell.pins], [replace(t, **ends(t)) for t in cell.transistors]
    return Subcircuit(cell.name, pins, {}, transistors)


def in_rows(values: list[float]) -> list[list[float]]:
    return [values[at:at + len(SLOPES)] for at in range(0, len(values), len(SLOPES))]


@dataclass(frozen=True)
class Bench:
    """ngspice with a file of models, which has the models of the cells by their names."""
    models: Path
    volts: float
    vdd: str
    gnd: str

    def deck(self, cell: Subcircuit, path: list[Vector], related: str, output: str, phase: float) -> str:
        """A copy of the cell for each load and slope."""
        begun = (len(path) - 1) * phase
        ways = {pin: ramp(path, pin, self.volts, phase, EDGE) for pin in path[0] if pin != related}
        lines = [f"* {cell.name}: {related} to {output}", f".include {self.models.resolve()}",
                 spice.text(renamed(cell)), f"vsupply supply 0 {self.volts:g}"]
        lines += [f"v{number} in{number} 0 {way}" for number, way in enumerate(ways.values())]
        shared = {pin: f"in{number}" for number, pin in enumerate(ways)}
        rails = {self.vdd: "supply", self.gnd: "0"}
        edge, half = "rise" if path[-1][related] else "fall", self.volts / 2
        for number, (load, slope) in enumerate(itertools.product(LOADS, SLOPES)):
            nets, name = {**shared, related: f"x{number}", **rails}, f"o{number}_{output}"
            way = ramp(path, related, self.volts, phase, slope / (HIGH - LOW))
            lines.append(f"vx{number} x{number} 0 {way}")
            pins = " ".join(nets.get(pin, f"o{number}_{pin}") for pin in cell.pins)
            lines += [f"xc{number} {pins} {cell.name}", f"cl{number} {name} 0 {load:g}p"]
            out = f"v({name})"
            lines.append(f".measure tran d{number} trig v(x{number}) val={half:g} td={begun:g}n {edge}=1 "
                         f"targ {out} val={half:g} td={begun:g}n cross=last")
            lines.append(f".measure tran lo{number} when {out}={LOW * self.volts:g} td={begun:g}n cross=last")
            lines.append(f".measure tran hi{number} when {out}={HIGH * self.volts:g} td={begun:g}n cross=last")
        return "\n".join([*lines, f".tran {phase / 400:g}n {len(path) * phase:g}n", ".end", ""])

    def found(self, deck: str) -> dict[str, float]:
        """What the deck's measures say, in nanoseconds."""
        with tempfile.TemporaryDirectory() as folder:
            file = Path(folder) / "deck.sp"
            file.write_text(deck)
            try:
                ended = subprocess.run(["ngspice", "-b", str(file)], cwd=folder, stdin=subprocess.DEVNULL, timeout=600,
                                       stdout=subprocess.PIPE, stderr=subprocess.STDOUT, text=True, check=False)
            except subprocess.TimeoutExpired:
                raise NotMeasured("ngspice took more than 600 seconds") from None
        fault = re.search(FAULT, ended.stdout, re.M | re.I)
        if fault:
            raise NotMeasured(f"ngspice: {fault.group(0).strip()}")
        return {key: float(value) * 1e9 for key, value in
                re.findall(r"^\s*((?:d|lo|hi)\d+)\s*=\s*([-+0-9.e]+)", ended.stdout, re.M)}

    def measured(self, cell: Subcircuit, path: list[Vector], related: str, output: str) -> Measured:
        for phase in PHASES:
            told = self.found(self.deck(cell, path, related, output, phase))
            count = len(LOADS) * len(SLOPES)
            if all(f"{key}{number}" in told for key in ("d", "lo", "hi") for number in range(count)):
                delays = [told[f"d{number}"] for number in range(count)]
                slopes = [abs(told[f"hi{number}"] - told[f"lo{number}"]) for number in range(count)]
                return Measured(in_rows(delays), in_rows(slopes))
        raise NotMeasured(f"ngspice finds no answer of {output} in {PHASES[-1]:g} ns")


Arc = tuple[str, str, int]


def arcs(cell: Cell) -> Iterator[Arc]:
    """The delays that the cell's tables have: from an input to an output, which goes to a level."""
    it = cell.function
    for output in cell.outputs:
        if not isinstance(it, Stored):
            related = [pin for pin in cell.inputs if not isinstance(it, Combinational) or depends(cell, output, pin)]
            yield from itertools.product(related, [output], (1, 0))
            continue
        yield from itertools.product([it.control, *(it.data_pins if it.is_latch else ())], [output], (1, 0))
        for force, value in ((it.clear, 0), (it.preset, 1)):
            if force:
                yield force.pin, output, value ^ it.is_inverted[output]


def depends(cell: Cell, output: str, pin: str) -> bool:
    table, at = cell.function.tables[output], cell.inputs.index(pin)
    return any(table[point] != table[point[:at] + (1 - point[at],) + point[at + 1:]] for point in table)


def measure(cells: list[Cell], bench: Bench, jobs: int) -> list[str]:
    """Fills in what ngspice finds; what it does not find is named."""
    def one(job: tuple[Cell, Arc]) -> str:
        cell, arc = job
        try:
            if path := changes(cell.network, *arc):
                cell.measured[arc] = bench.measured(cell.subcircuit, path, *arc[:2])
        except (NotMeasured, NotKnown) as fault:
            return f"{cell.name}: {arc[0]} to {arc[1]}, to {arc[2]}: estimated: {fault}"
        return ""

    with concurrent.futures.ThreadPoolExecutor(jobs) as pool:
        return [line for line in pool.map(one, [(cell, arc) for cell in cells for arc in arcs(cell)]) if line]
