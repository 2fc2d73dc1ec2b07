"""Waveforms of a design's ports, from VCD files, and the instants at which they are compared."""
from __future__ import annotations

import re
from collections.abc import Iterable
from dataclasses import dataclass, field
from pathlib import Path

PICOSECONDS = {"s": 10 ** 12, "ms": 10 ** 9, "us": 10 ** 6, "ns": 1000, "ps": 1}
SETTLED = 1000      # picoseconds before a change of an input, when all has come to rest


@dataclass
class Trace:
    """For each bit its changes in picoseconds, in the order of time, each with 0, 1, x or z; and the end of time."""
    changes: dict[str, list[tuple[int, str]]] = field(default_factory=dict)
    end: int = 0

    def at(self, bit: str, time: int) -> str:
        level = "x"
        for when, to in self.changes[bit]:
            if when > time:
                break
            level = to
        return level

    def instants(self, inputs: Iterable[str]) -> list[int]:
        """Just before each change of an input, and before the end."""
        times = {time for bit in inputs for time, _ in self.changes[bit] if time > SETTLED}
        return [time - SETTLED for time in sorted(times | {self.end})]


def bits(name: str, span: str) -> list[str]:
    """The bits of a variable, the upper one first, as `q[3]`; a variable of one bit is its name."""
    found = re.fullmatch(r"\[(\d+):(\d+)\]", span)
    if not found:
        return [name + span]
    upper, lower = map(int, found.groups())
    return [f"{name}[{at}]" for at in range(upper, lower - 1, -1)]


def read(path: Path, scope: str) -> Trace:
    """The variables of a scope of a VCD file."""
    trace, names, scopes, time = Trace(), {}, [], 0
    head, _, body = path.read_text().partition("$enddefinitions")
    amount, unit = re.search(r"\$timescale\s+(\d+)\s*(\w+)", head).groups()
    step = int(amount) * PICOSECONDS[unit]
    for line in map(str.split, head.splitlines()):
        if line[:1] == ["$scope"]:
            scopes.append(line[2])
        elif line[:1] == ["$upscope"]:
            scopes.pop()
        elif line[:1] == ["$var"] and scopes[-1] == scope:
            names.setdefault(line[3], []).append(bits(line[4], line[5] if line[5] != "$end" else ""))
    for words in map(str.split, body.splitlines()):
        if not words or words[0].startswith("$"):
            continue
        if words[0].startswith("#"):
            time = int(words[0][1:]) * step
            continue
        value, code = (words[0][1:], words[1]) if words[0][0] in "bB" else (words[0][0], words[0][1:])
        for variable in names.get(code, []):
            rest = "0" if value[0] == "1" else value[0]
            for bit, level in zip(variable, value.rjust(len(variable), rest)):
                trace.changes.setdefault(bit, []).append((time, level))
    trace.end = time
    return trace


@dataclass(frozen=True)
class Difference:
    bit: str
    time: int
    wanted: str
    found: str

    def __str__(self) -> str:
        return f"{self.bit} at {self.time / 1000:g} ns is {self.found}, not {self.wanted}"


def differences(wanted: Trace, found: Trace, instants: list[int], outputs: list[str]) -> tuple[int, list[Difference]]:
    """How many levels were compared, and where the two differ; what is not known in the first is ignored."""
    compared, wrong = 0, []
    for time in instants:
        for bit in outputs:
            want = wanted.at(bit, time)
            if want in "01":
                compared += 1
                have = found.at(bit, time)
                if have != want:
                    wrong.append(Difference(bit, time, want, have))
    return compared, wrong


def ports(verilog: str) -> tuple[list[str], list[str]]:
    """The bits of the inputs and of the outputs that a netlist in Verilog declares."""
    found: dict[str, list[str]] = {"input": [], "output": []}
    for kind, span, names in re.findall(r"^\s*(input|output)\s+(?:wire\s+)?(\[\d+:\d+\])?\s*([^;]+);", verilog, re.M):
        for name in re.split(r"\s*,\s*", names.strip()):
            found[kind] += bits(name, span) if span else [name]
    return found["input"], found["output"]
