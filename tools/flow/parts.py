"""The cells that synthesis asks for by name, found in a Liberty file by their functions."""
from __future__ import annotations

import itertools
import re
from collections.abc import Callable, Iterator
from dataclasses import dataclass, field


@dataclass
class Pins:
    """A cell of a Liberty file: area, inputs, the formulas of its outputs, clock and data of a flip-flop."""
    name: str
    area: float = 0.0
    inputs: list[str] = field(default_factory=list)
    outputs: dict[str, str] = field(default_factory=dict)
    clock: str = ""
    data: str = ""
    is_stored: bool = False
    is_forced: bool = False         # it has a set or a reset

    @property
    def output(self) -> str:
        return next(iter(self.outputs))


def groups(text: str, kind: str) -> Iterator[tuple[str, str]]:
    """The groups of one kind, as `cell(nand2) {..}`, each with its name and its content."""
    for found in re.finditer(rf"\b{kind}\s*\(([^)]*)\)\s*{{", text):
        depth, at = 1, found.end()
        while depth and at < len(text):
            depth += {"{": 1, "}": -1}.get(text[at], 0)
            at += 1
        yield found.group(1).strip('" '), text[found.end():at - 1]


def word(text: str, key: str) -> str:
    found = re.search(rf"\b{key}\s*:\s*\"?([^;\"]*)\"?\s*;", text)
    return found.group(1).strip() if found else ""


def read(text: str) -> list[Pins]:
    cells = []
    for name, body in groups(text, "cell"):
        cell = Pins(name, float(word(body, "area") or 0))
        for pin, inside in groups(body, "pin"):
            if word(inside, "direction") == "input":
                cell.inputs.append(pin)
            else:
                cell.outputs[pin] = word(inside, "function")
        for kind in ("ff", "latch"):
            for _, inside in groups(body, kind):
                cell.is_stored, cell.is_forced = True, bool(word(inside, "clear") or word(inside, "preset"))
                if kind == "ff":
                    cell.clock, cell.data = word(inside, "clocked_on"), word(inside, "next_state")
        cell.is_stored |= any(groups(body, "statetable"))
        cells.append(cell)
    return cells


def levels(cell: Pins) -> list[bool] | None:
    """The only output over all levels of the inputs; none where the cell stores or has not one function."""
    if cell.is_stored or len(cell.outputs) != 1 or len(cell.inputs) > 4 or not all(cell.outputs.values()):
        return None
    formula = cell.outputs[cell.output]
    signs = {"&": "and", "*": "and", "|": "or", "+": "or", "!": "not", "(": "(", ")": ")", "0": "False", "1": "True"}
    found = []
    for values in itertools.product((False, True), repeat=len(cell.inputs)):
        given = dict(zip(cell.inputs, map(str, values)))
        words = re.findall(r"[&*|+!()]|[^\s&*|+!()]+", formula)
        if not all(it in signs or it in given for it in words):
            return None
        try:
            found.append(bool(eval(" ".join(signs.get(it) or given[it] for it in words))))
        except SyntaxError:
            return None
    return found


def is_flop(cell: Pins) -> bool:
    is_plain = not cell.is_forced and list(cell.outputs.values()) == ["iq"]
    return is_plain and cell.clock in cell.inputs and cell.data in cell.inputs


# For each of qflow's words for a part: what the cell has to be, and the words for its inputs and its output.
ASKED: dict[str, tuple[Callable[[Pins], bool], tuple[str, ...], str]] = {
    "bufcell": (lambda it: levels(it) == [False, True], ("bufpin_in",), "bufpin_out"),
    "inverter": (lambda it: levels(it) == [True, False], ("invertpin_in",), "invertpin_out"),
    "nandgate": (lambda it: levels(it) == [True, True, True, False], ("nandpin_in1", "nandpin_in2"), "nandpin_out"),
    "norgate": (lambda it: levels(it) == [True, False, False, False], ("norpin_in1", "norpin_in2"), "norpin_out"),
    "flopcell": (is_flop, ("floppinin", "floppinclk"), "floppinout"),
}
CALLED = {"bufcell": "buffer", "inverter": "inverter", "nandgate": "NAND of two inputs", "norgate": "NOR of two inputs",
          "flopcell": "flip-flop with one data input and one clock"}


@dataclass(frozen=True)
class Parts:
    """For each of qflow's words its value, and what the library has not."""
    words: dict[str, str]
    cells: dict[str, str]
    missing: list[str]


def found(text: str) -> Parts:
    """The smallest cell for each part; of inputs that are alike the first is the first."""
    cells, words, names, missing = read(text), {}, {}, []
    for part, (fits, inputs, output) in ASKED.items():
        fitting = sorted((cell for cell in cells if fits(cell)), key=lambda cell: cell.area)
        words[part] = fitting[0].name if fitting else '""'
        first = fitting[0] if fitting else Pins("")
        pins = [first.data, first.clock] if part == "flopcell" else first.inputs
        words.update({key: pin or '""' for key, pin in itertools.zip_longest(inputs, pins)})
        words[output] = fitting[0].output if fitting else '""'
        if fitting:
            names[CALLED[part]] = fitting[0].name
        else:
            missing.append(CALLED[part])
    return Parts(words, names, missing)
