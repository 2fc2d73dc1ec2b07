"""A cell with what its views need, and its module in Verilog."""
from __future__ import annotations

from collections.abc import Iterator
from dataclasses import dataclass, field

import boolean
import lef
import spice
from measuring import Measured
from storage import Force, Kept, Stored
from switches import Combinational, Drive, Network

FARADS = 2.5e-3                     # picofarads for each square micron of gate
OWN = 1e-3                          # picofarads for each micron of width at an output


@dataclass
class Cell:
    """A cell with what its views need."""
    subcircuit: spice.Subcircuit
    macro: lef.Macro
    network: Network
    function: Combinational | Stored | Kept
    drives: dict[str, Drive]
    inputs: list[str]
    outputs: list[str]
    measured: dict[tuple[str, str, int], Measured] = field(default_factory=dict)

    @property
    def name(self) -> str:
        return self.subcircuit.name

    def capacitance(self, pin: str) -> float:
        area = sum(t.width * t.length * 1e12 for t in self.subcircuit.transistors if t.gate == pin)
        return area * FARADS

    def own(self, pin: str) -> float:
        return sum(t.width * 1e6 * OWN for t in self.subcircuit.transistors if pin in (t.drain, t.source))

    def formula(self, pin: str, no: str) -> str:
        return boolean.expression(self.function.tables[pin], tuple(self.inputs), no)


def condition(force: Force, no: str) -> str:
    return force.pin if force.level else f"{no}{force.pin}"


def stored_body(cell: Cell, it: Stored) -> Iterator[str]:
    """A reg with its set and reset; where both are active each output is as found in the transistors."""
    data = boolean.expression(it.data, it.data_pins, "~")
    forces = [(force, value) for force, value in ((it.clear, 0), (it.preset, 1)) if force]
    if it.both and it.both[0] ^ it.is_inverted[cell.outputs[0]]:
        forces.reverse()
    ifs = "".join(f"if ({condition(force, '~')}) iq <= {value}; else " for force, value in forces)
    yield "  reg iq;"
    if it.is_latch:
        yield f"  always @* {ifs}if ({'' if it.level else '~'}{it.control}) iq <= {data};"
    else:
        edges = [(it.control, it.level), *((force.pin, force.level) for force, _ in forces)]
        when = " or ".join(f"{'pos' if level else 'neg'}edge {pin}" for pin, level in edges)
        yield f"  always @({when}) {ifs}iq <= {data};"
    for pin, level in zip(cell.outputs, it.both or [None] * len(cell.outputs)):
        plain = f"{'~' if it.is_inverted[pin] else ''}iq"
        both = " & ".join(condition(force, "~") for force, _ in forces)
        yield f"  assign {pin} = " + (f"({both}) ? 1'b{level} : {plain};" if it.both else f"{plain};")


def kept_body(cell: Cell, it: Kept) -> Iterator[str]:
    for pin in cell.outputs:
        rises, falls = (boolean.expression({at: int(new == level) for at, new in it.tables[pin].items()},
                                           tuple(cell.inputs), "~") for level in (1, 0))
        yield f"  reg i{pin};"
        yield f"  always @* if ({rises}) i{pin} <= 1; else if ({falls}) i{pin} <= 0;"
        yield f"  assign {pin} = i{pin};"


def module(cell: Cell) -> str:
    it = cell.function
    ports = [f"input {pin}" for pin in cell.inputs] + [f"output {pin}" for pin in cell.outputs]
    if isinstance(it, Combinational):
        body = [f"  assign {pin} = {cell.formula(pin, '~')};" for pin in cell.outputs]
    else:
        body = list(stored_body(cell, it) if isinstance(it, Stored) else kept_body(cell, it))
    return "\n".join([f"module {cell.name}({', '.join(ports)});", *body, "endmodule", ""])
