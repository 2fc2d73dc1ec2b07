"""A subcircuit as transistors alone: calls replaced by their transistors, sizes as numbers. Python 3.8."""
from __future__ import annotations

import re
from collections import Counter
from dataclasses import dataclass, field
from typing import Dict, List, Optional

from circuit import Cell, Library, pairs
from lines import Line
from tech import GROUND, SUPPLY, Technology
from values import NoValue, Scope, is_plain

DEEPEST = 20            # calls within calls
COPIES = ("m", "mult", "nfin")
FINGERS = ("nf", "ng")


class Refused(Exception):
    """Why a cell is left out."""


@dataclass
class Transistor:
    """Sizes in metres; `m` equal ones in parallel, each cut into `nf` fingers. No bulk: the file gives none."""
    name: str
    drain: str
    gate: str
    source: str
    bulk: str
    model: str
    kind: str
    width: float
    length: float
    m: int
    nf: int
    place: str


@dataclass
class Flat:
    """A cell while it is prepared, with what was done on the way."""
    name: str
    pins: List[str]
    directions: Dict[str, str]
    transistors: List[Transistor] = field(default_factory=list)
    calls: Counter = field(default_factory=Counter)
    values: Dict[str, str] = field(default_factory=dict)
    devices: int = 0
    capacitors: int = 0
    copies: Counter = field(default_factory=Counter)
    bare: int = 0

    @property
    def nets(self) -> List[str]:
        """All nets, the pins first, each once."""
        inside = (net for t in self.transistors for net in (t.drain, t.gate, t.source, t.bulk) if net)
        return list(dict.fromkeys([*self.pins, *inside]))


@dataclass
class Settings:
    """What the caller said of the file; `kinds` are models that the technology does not name."""
    tech: Technology
    scale: Optional[float] = None
    is_finger: bool = False
    kinds: Dict[str, str] = field(default_factory=dict)


class Flattener:
    """Makes the flat form of one cell."""

    def __init__(self, library: Library, settings: Settings, cell: Cell) -> None:
        self.library, self.settings = library, settings
        self.scale = settings.scale or library.scale
        self.flat = Flat(cell.name, list(cell.pins), dict(cell.directions))
        self.put(cell, {}, {pin: pin for pin in cell.pins}, "", 0)

    def put(self, cell: Cell, given: Dict[str, object], nets: Dict[str, str], at: str, depth: int) -> None:
        """Adds the cell's transistors with its nets by the names that they have outside."""
        if depth > DEEPEST:
            raise Refused(f"calls are nested more than {DEEPEST} deep, or {cell.name} calls itself")
        if not cell.is_ended:
            raise Refused(f"{cell.place}: no .ends follows before the next .subckt or the file's end")
        scope = Scope(Scope(None, self.library.values), {**cell.values, **given})
        for line in cell.lines:
            first = line.words[0]
            if first[0] == "m":
                self.transistor(line, line.words[0], line.words[1:], scope, nets, at)
            elif first[0] == "x":
                self.call(line, scope, nets, at, depth)
            elif first[0] == "c":
                self.flat.capacitors += 1
            else:
                raise Refused(f"{line.place}: {first} is no transistor and no call of a subcircuit")

    def net(self, name: str, nets: Dict[str, str], at: str) -> str:
        """The net's name in the flat cell. A rail inside a call has to be a pin or global: else it would hang free."""
        if name in nets or name in self.library.rails or name == "0" or not at:
            return nets.get(name, name)
        if name in SUPPLY or name in GROUND:
            raise Refused(f"the rail {name} in the call {at} is neither a pin there nor named by a .global line")
        return f"{at}.{name}"

    def call(self, line: Line, scope: Scope, nets: Dict[str, str], at: str, depth: int) -> None:
        plain = [word for word in line.words[1:] if "=" not in word and word not in ("params:", "/")]
        if not plain:
            raise Refused(f"{line.place}: a call without a name")
        *joined, name = plain
        cell = self.library.cells.get(name)
        if cell is None and self.kind(name):
            self.flat.devices += 1
            self.transistor(line, "m" + line.words[0], line.words[1:], scope, nets, at)
            return
        if cell is None:
            raise Refused(f"{line.place}: {name} is neither a subcircuit of the file nor a model of the technology")
        if len(joined) != len(cell.pins):
            raise Refused(f"{line.place}: {name} has {len(cell.pins)} pins, and {len(joined)} nets are given")
        given = {key: self.value(word, scope, line) for key, word in pairs(line.words).items() if key != "m"}
        outside = {pin: self.net(net, nets, at) for pin, net in zip(cell.pins, joined)}
        copies = self.whole("m", pairs(line.words).get("m", "1"), scope, line)
        self.flat.calls[name] += copies
        for copy in range(copies):
            within = line.words[0] + (f"_{copy}" if copy else "")
            self.put(cell, given, outside, f"{at}.{within}" if at else within, depth + 1)

    def kind(self, model: str) -> str:
        return self.settings.tech.kind(model) or self.settings.kinds.get(model) or self.library.models.get(model, "")

    def value(self, word: object, scope: Scope, line: Line) -> float:
        try:
            return scope.value(str(word))
        except NoValue as fault:
            raise Refused(f"{line.place}: {word} can't be evaluated: {fault}") from None

    def size(self, key: str, sizes: Dict[str, object], scope: Scope, line: Line) -> float:
        """A width or a length in metres."""
        if key not in sizes:
            raise Refused(f"{line.place}: no {key}=")
        word = str(sizes[key])
        found = self.value(word, scope, line) * self.scale
        if not is_plain(word):
            self.flat.values[f"{key}={word}"] = micron(found)
        if found <= 0 or found >= 1e-3:
            unit = "; sizes in other units? --scale 1e-6 makes them millionths" if found >= 1e-3 else ""
            raise Refused(f"{line.place}: {key}={word} is {found:g} m{unit}")
        return found

    def whole(self, key: str, word: object, scope: Scope, line: Line) -> int:
        found = self.value(word, scope, line)
        if abs(found - round(found)) > 1e-9 or not 1 <= round(found) <= 64:
            raise Refused(f"{line.place}: {key}={word} is no whole number from 1 to 64")
        return round(found)

    def counts(self, keys: tuple, sizes: Dict[str, object], scope: Scope, line: Line) -> int:
        product = 1
        for key in keys:
            if key in sizes:
                count = self.whole(key, sizes[key], scope, line)
                product *= count
                if key != keys[0] and count > 1:
                    self.flat.copies[f"{key} to {keys[0]}"] += 1
        return product

    def transistor(self, line: Line, name: str, words: List[str], scope: Scope, nets: Dict[str, str], at: str) -> None:
        plain, sizes = [word for word in words if "=" not in word], pairs(words)
        if len(plain) < 4 or len(plain) > 5:
            raise Refused(f"{line.place}: a transistor is 4 nets, a model, and sizes as w=.. l=..")
        kind = self.kind(plain[-1])
        if not kind:
            raise Refused(f"{line.place}: the model {plain[-1]} is neither in p_models nor in n_models of the "
                          "technology; --p-model or --n-model says what it is")
        drain, gate, source, *bulk = (self.net(net, nets, at) for net in plain[:-1])
        m, nf = (self.counts(keys, sizes, scope, line) for keys in (COPIES, FINGERS))
        width = self.size("w", sizes, scope, line) * (nf if self.settings.is_finger else 1)
        model = plain[-1]
        if not self.settings.tech.kind(model):
            model = self.settings.tech.model(kind)
            self.flat.copies[f"model {plain[-1]} to {model}"] += 1
        self.flat.bare += not bulk
        within = re.sub(r"\W", "_", f"m{at}_{name}" if at else name)
        length = self.size("l", sizes, scope, line)
        self.flat.transistors.append(Transistor(within, drain, gate, source, bulk[0] if bulk else "", model, kind,
                                                width, length, m, nf, line.place))


def micron(metres: float) -> str:
    return f"{metres * 1e6:.6g}u"
