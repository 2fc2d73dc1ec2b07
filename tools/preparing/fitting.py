"""Makes a flat cell one that cellgen takes: rails, bulks, names, sizes. Reports each change. Python 3.8."""
from __future__ import annotations

import math
import re
from dataclasses import dataclass, field, replace
from typing import Callable, Dict, List, Set

from flat import Flat, Refused, Transistor, micron
from tech import CHANNEL, GROUND, MOST, NAME, NARROWEST, SUPPLY, Technology

FORBIDDEN = re.compile(r"[=;#'\"(){},\\]|[^\x21-\x7e]")


@dataclass
class Fitting:
    """How cells are made to fit; `supply` and `ground` are further names of rails."""
    tech: Technology
    rails: Set[str]
    supply: List[str] = field(default_factory=list)
    ground: List[str] = field(default_factory=list)
    bulks: bool = False
    plain: bool = False
    report: Callable[[str, str], None] = print

    def fit(self, cell: Flat) -> None:
        """All of it, in an order in which each step finds what the one before it made."""
        if not cell.transistors:
            raise Refused("it has no transistor (tools/filler makes a filler)")
        self.report_flattening(cell)
        self.name_rails(cell)
        self.tie_bulks(cell)
        self.name_nets(cell)
        self.round_sizes(cell)
        self.look(cell)

    def report_flattening(self, cell: Flat) -> None:
        listed = [f"{count} of {name}" for name, count in cell.calls.items()]
        if listed:
            self.report(cell.name, f"calls flattened: {', '.join(listed)}")
        if cell.devices:
            self.report(cell.name, f"{cell.devices} X lines of models written as transistors")
        if cell.capacitors:
            self.report(cell.name, f"{cell.capacitors} C lines taken out")
        if cell.values:
            listed = [f"{word} is {value}" for word, value in cell.values.items()]
            self.report(cell.name, f"expressions evaluated: {', '.join(listed)}")
        for what, count in cell.copies.items():
            self.report(cell.name, f"{what} in {count} line{'s' if count > 1 else ''}")

    def rename(self, cell: Flat, names: Dict[str, str]) -> None:
        cell.pins = list(dict.fromkeys(names.get(pin, pin) for pin in cell.pins))
        cell.directions = {names.get(pin, pin): way for pin, way in cell.directions.items()}
        cell.transistors = [replace(t, drain=names.get(t.drain, t.drain), gate=names.get(t.gate, t.gate),
                                    source=names.get(t.source, t.source), bulk=names.get(t.bulk, t.bulk))
                            for t in cell.transistors]

    def name_rails(self, cell: Flat) -> None:
        """Gives the rails the technology's names, and makes each a pin."""
        rows = (("p", self.tech.vdd, [*self.supply, *SUPPLY]), ("n", self.tech.gnd, [*self.ground, *GROUND]))
        for kind, rail, known in rows:
            nets = cell.nets
            if rail not in nets:
                old = self.rail_of(cell, kind, [net for net in known if net in nets])
                if old:
                    self.rename(cell, {old: rail})
                    self.report(cell.name, f"rail {old} is {rail} now")
            if rail in cell.nets and rail not in cell.pins:
                cell.pins.append(rail)
                self.report(cell.name, f"rail {rail} is a pin now")

    def rail_of(self, cell: Flat, kind: str, known: List[str]) -> str:
        """The net that is the rail of this row: one of a usual name, else the common bulk where it feeds the row."""
        if len(known) > 1:
            raise Refused(f"its rail may be {' or '.join(known)}: rename one")
        if known:
            return known[0]
        row = [t for t in cell.transistors if t.kind == kind]
        bulks = {t.bulk for t in row if t.bulk}
        ends = {net for t in row for net in (t.drain, t.source)}
        outside = self.rails.union(cell.pins)
        return next(iter(bulks)) if len(bulks) == 1 and bulks <= ends & outside else ""

    def tie_bulks(self, cell: Flat) -> None:
        """Joins bulks to the rails where that was asked for, and takes out pins that are bulks alone."""
        found: List[str] = []
        for t in cell.transistors:
            rail = self.tech.vdd if t.kind == "p" else self.tech.gnd
            if t.bulk != rail:
                is_other = t.bulk in (self.tech.vdd, self.tech.gnd)
                if is_other or not self.bulks:
                    why = f"the bulk is {t.bulk}, not {rail}" if t.bulk else "no bulk is given"
                    raise Refused(f"{t.place}: {why}" + ("" if is_other else "; --bulks makes it the rail"))
                found.append(t.bulk or "none")
                t.bulk = rail
        if found:
            self.report(cell.name, f"bulks joined to the rails: {', '.join(sorted(set(found)))}")
        used = {net for t in cell.transistors for net in (t.drain, t.gate, t.source, t.bulk)}
        for pin in [pin for pin in cell.pins if pin in found and pin not in used]:
            cell.pins.remove(pin)
            cell.directions.pop(pin, None)
            self.report(cell.name, f"pin {pin} taken out: it was a bulk alone")

    def name_nets(self, cell: Flat) -> None:
        names: Dict[str, str] = {}
        taken = set(cell.nets)
        for net in cell.nets:
            new = FORBIDDEN.sub("_", net)[:64]
            if self.plain:
                new = re.sub(r"[^a-z0-9_]", "_", new)
                new = new if re.match("[a-z]", new) else f"n{new}"
            if new != net:
                names[net] = unused(new, taken)
                taken.add(names[net])
        if names:
            self.rename(cell, names)
            self.report(cell.name, "nets renamed: " + ", ".join(f"{old} to {new}" for old, new in names.items()))

    def round_sizes(self, cell: Flat) -> None:
        """Widths as they are drawn, in whole units; a channel that is not drawn with its length is refused."""
        drawn_as: Dict[str, str] = {}
        for t in cell.transistors:
            units = self.units(t.width)
            if units < NARROWEST * t.nf:
                raise Refused(f"{t.place}: the width of {micron(t.width)} is {units} units, "
                              f"and {NARROWEST * t.nf} are the least")
            if self.units(t.length) != CHANNEL:
                raise Refused(f"{t.place}: the channel is {micron(t.length)}, not the technology's "
                              f"{micron(CHANNEL * self.tech.unit_nm * 1e-9)}")
            for key, size, drawn in (("w", t.width, units), ("l", t.length, CHANNEL)):
                if not math.isclose(size, drawn * self.tech.unit_nm * 1e-9, rel_tol=1e-6):
                    drawn_as[f"{key}={micron(size)}"] = micron(drawn * self.tech.unit_nm * 1e-9)
            t.width, t.length = (at * self.tech.unit_nm * 1e-9 for at in (units, CHANNEL))
        if drawn_as:
            listed = [f"{old} is {new}" for old, new in drawn_as.items()]
            self.report(cell.name, f"sizes as they are drawn: {', '.join(listed)}")

    def units(self, metres: float) -> int:
        """The nearest whole number of units, ties upward."""
        return math.floor(metres * 1e9 / self.tech.unit_nm + 0.5 + 1e-6)

    def look(self, cell: Flat) -> None:
        """Refuses what cellgen would refuse."""
        vdd, gnd = self.tech.vdd, self.tech.gnd
        if not re.fullmatch(rf"[a-z0-9_$?]{{1,{NAME}}}", cell.name):
            raise Refused(f"its name has {len(cell.name)} letters, and {NAME} are the most: "
                          "--strip takes its front away")
        for t in cell.transistors:
            self.look_at(t, vdd, gnd)
        counts = {"pins": len(cell.pins), "devices": sum(t.m for t in cell.transistors), "nets": len(cell.nets)}
        for what, count in counts.items():
            if count > MOST[what]:
                raise Refused(f"it has {count} {what}, and {MOST[what]} are the most")
        for rail in (vdd, gnd):
            if rail not in cell.pins:
                raise Refused(f"it has no rail {rail}")
        used = {net for t in cell.transistors for net in (t.drain, t.gate, t.source)}
        idle = [pin for pin in cell.pins if pin not in used and pin not in (vdd, gnd)]
        if idle:
            raise Refused(f"pin {idle[0]} is at no drain, gate or source: take it out")

    @staticmethod
    def look_at(t: Transistor, vdd: str, gnd: str) -> None:
        if t.gate in (vdd, gnd):
            raise Refused(f"{t.place}: a gate on the rail {t.gate}: no such cell is made")
        wrong = gnd if t.kind == "p" else vdd
        if wrong in (t.drain, t.source):
            raise Refused(f"{t.place}: a {t.kind.upper()} transistor on {wrong}: no such cell is made")


def unused(name: str, taken: Set[str]) -> str:
    """The name, or one near to it that no net has yet."""
    new, number = name, 1
    while new in taken:
        number += 1
        new = f"{name[:60]}_{number}"
    return new


def text(cell: Flat) -> str:
    """The cell as SPICE."""
    lines = [f".subckt {cell.name} {' '.join(cell.pins)}"]
    ways = {pin: cell.directions[pin] for pin in cell.pins if pin in cell.directions}
    if ways:
        lines.append("*.PININFO " + " ".join(f"{pin}:{way.upper()}" for pin, way in ways.items()))
    for t in cell.transistors:
        more = "".join(f" {key}={count}" for key, count in (("m", t.m), ("nf", t.nf)) if count > 1)
        nets = f"{t.name} {t.drain} {t.gate} {t.source} {t.bulk}"
        lines.append(f"{nets} {t.model} w={micron(t.width)} l={micron(t.length)}{more}")
    return "\n".join([*lines, f".ends {cell.name}", ""])
