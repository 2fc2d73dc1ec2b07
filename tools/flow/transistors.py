"""Simulation of a block's transistors, as Magic extracted them, under the inputs of a trace (ngspice)."""
from __future__ import annotations

import re
from pathlib import Path

from waveform import Trace

SUPPLY = 5.0
EDGE = 200          # picoseconds of an input's edge
STEP = 100          # picoseconds of a step of the simulation
LOAD = "20f"        # farads at each output
LOW, HIGH = 0.1 * SUPPLY, 0.9 * SUPPLY

# Level 1, by hand: of the right order for 0.6 um, and no process's own.
MODELS = """.model nfet nmos (level=1 vto=0.7 kp=110u gamma=0.45 phi=0.7 lambda=0.04 tox=14n cgso=0.2n cgdo=0.2n)
.model pfet pmos (level=1 vto=-0.9 kp=38u gamma=0.5 phi=0.7 lambda=0.05 tox=14n cgso=0.2n cgdo=0.2n)
"""


def plain(text: str) -> str:
    """Names without the signs that ngspice reads as more than a name."""
    return re.sub(r"[\[\]#/]", "_", text)


def netlist(extracted: str) -> str:
    """Magic's netlist for ngspice: without areas of diffusion, whose units it reads otherwise, and without an end."""
    lines = re.sub(r"\n\+", " ", extracted).splitlines()
    kept = [re.sub(r"\s(?:ad|as|pd|ps)=\S+", "", line) for line in lines if line.lower() != ".end"]
    # (a model may not have the name of a net)
    named = [re.sub(r"^(M\S+(?: \S+){4}) ([np]) ", r"\1 \2fet ", line) for line in kept]
    return plain("\n".join(named)) + "\n"


def source(bit: str, trace: Trace) -> str:
    """A voltage source with the edges of an input."""
    points = [(0, "0")]
    for time, level in trace.changes[bit]:
        if time == 0:
            points = [(0, level)]
        elif level != points[-1][1]:
            points += [(time, points[-1][1]), (time + EDGE, level)]
    words = " ".join(f"{time}p {SUPPLY if level == '1' else 0:g}" for time, level in points)
    return f"V{plain(bit)} {plain(bit)} 0 pwl({words})\n"


def deck(name: str, extracted: str, trace: Trace, inputs: list[str], outputs: list[str], out: str) -> str:
    pins = re.search(rf"^\.subckt {name} (.*)$", re.sub(r"\n\+", " ", extracted), re.M).group(1)
    lines = [f"* the transistors of {name}\n", MODELS, netlist(extracted), f"Vsupply vdd 0 {SUPPLY:g}\n"]
    lines += [source(bit, trace) for bit in inputs]
    lines += [f"C{plain(bit)} {plain(bit)} 0 {LOAD}\n" for bit in outputs]
    lines.append(f"Xblock {plain(pins)} {name}\n")
    told = " ".join(f"v({plain(bit)})" for bit in outputs)
    lines.append(f".control\nset wr_singlescale\ntran {STEP}p {trace.end}p\nwrdata {out} {told}\nquit\n.endc\n.end\n")
    return "".join(lines)


def level(volts: float) -> str:
    return "0" if volts < LOW else "1" if volts > HIGH else "x"


def read(path: Path, outputs: list[str]) -> Trace:
    """What ngspice wrote, as levels: x between a tenth and nine tenths of the supply."""
    trace = Trace({bit: [] for bit in outputs})
    for line in path.read_text().splitlines():
        time, *volts = map(float, line.split())
        for bit, at in zip(outputs, volts):
            changes = trace.changes[bit]
            if not changes or changes[-1][1] != level(at):
                changes.append((round(time * 1e12), level(at)))
        trace.end = round(time * 1e12)
    return trace
