"""Cells that store a bit, found by switch-level simulation: latches and flip-flops with set and reset, and cells whose
inputs set, clear or keep an output (SR latches, C-elements)."""
from __future__ import annotations

import itertools
from collections.abc import Iterator
from dataclasses import dataclass, replace
from typing import Dict, Optional, Tuple

from switches import Combinational, Level, Network, NotKnown, State, Table, combinational

Held = Dict[Tuple[int, ...], Optional[int]]


@dataclass(frozen=True)
class Force:
    """An input that sets or clears the stored bit while it has the level, whatever the others are."""
    pin: str
    level: int

    def active(self) -> dict[str, int]:
        return {self.pin: self.level}

    def idle(self) -> dict[str, int]:
        return {self.pin: 1 - self.level}


@dataclass(frozen=True)
class Stored:
    """A latch (open while `control` has the level) or a flip-flop (which takes its data where `control` goes to it).

    `data` is a table over the other inputs; `is_inverted` says of each output whether it has the stored complement.
    `both` has the outputs' levels while `clear` and `preset` are active together.
    """
    is_latch: bool
    control: str
    level: int
    data_pins: tuple[str, ...]
    data: Table
    is_inverted: dict[str, bool]
    clear: Force | None = None
    preset: Force | None = None
    both: tuple[Level, ...] = ()


@dataclass(frozen=True)
class Kept:
    """Each output as a table over the inputs; None where it stays as it was."""
    tables: dict[str, Held]


def keeps(network: Network, state: State, fixed: dict[str, int], pins: list[str]) -> bool:
    """Whether the outputs stay as they are while the other inputs change."""
    told = network.told(state)
    for others in network.vectors(pins):
        state, _ = network.settled(state, {**others, **fixed})
        if network.told(state) != told:
            return False
    return True


def stored(network: Network, control: str, level: int, is_latch: bool, still: dict[str, int]) -> Stored | None:
    """The cell as a latch or a flip-flop that this input controls by this level, where it is one while the inputs of
    `still` have the levels given there."""
    pins = [pin for pin in network.inputs if pin != control and pin not in still]
    active, idle = {**still, control: level}, {**still, control: 1 - level}
    tables: dict[str, Table] = {pin: {} for pin in network.outputs}
    for others in network.vectors(pins):
        state, _ = network.settled({}, {**others, **idle})
        state, _ = network.settled({} if is_latch else state, {**others, **active})
        if None in network.told(state):
            return None
        for pin in network.outputs:
            tables[pin][tuple(others.values())] = state[pin]
        if not is_latch and not keeps(network, state, active, pins):
            return None
        state, _ = network.settled(state, {**others, **idle})
        if network.told(state) != tuple(tables[pin][tuple(others.values())] for pin in network.outputs):
            return None
        if not keeps(network, state, idle, pins):
            return None
    data = tables[network.outputs[0]]
    inverse = {key: 1 - value for key, value in data.items()}
    if len(set(data.values())) == 1 or any(table not in (data, inverse) for table in tables.values()):
        return None
    return Stored(is_latch, control, level, tuple(pins), data, {pin: table != data for pin, table in tables.items()})


def forced(network: Network, given: dict[str, int]) -> tuple[Level, ...] | None:
    """The outputs' levels while some inputs have these levels, where the others change nothing."""
    pins = [pin for pin in network.inputs if pin not in given]
    told = {network.told(network.settled({}, {**others, **given})[0]) for others in network.vectors(pins)}
    one = next(iter(told))
    return one if len(told) == 1 and None not in one else None


def with_force(network: Network, it: Stored, force: Force, still: dict[str, int]) -> Stored | None:
    """The latch or flip-flop with this input as its set or reset, where it is one, and its bit stays afterwards."""
    told = forced(network, {**still, **force.active()})
    if not told or any(told[0] ^ it.is_inverted[pin] != level for pin, level in zip(network.outputs, told)):
        return None
    controls = (1 - it.level,) if it.is_latch else (0, 1)
    for level, others in itertools.product(controls, network.vectors(list(it.data_pins))):
        given = {**others, **still, it.control: level}
        state, _ = network.settled({}, {**given, **force.active()})
        state, _ = network.settled(state, {**given, **force.idle()})
        if network.told(state) != told:
            return None
    word = "preset" if told[0] else "clear"
    return None if getattr(it, word) else replace(it, **{word: force})


def with_forces(network: Network, forces: tuple[Force, ...]) -> Iterator[Stored]:
    """The cell as a latch or a flip-flop with these inputs as set and reset."""
    idle = {pin: level for force in forces for pin, level in force.idle().items()}
    alone = [{pin: level for pin, level in idle.items() if pin != force.pin} for force in forces]
    if not all(forced(network, {**still, **force.active()}) for force, still in zip(forces, alone)):
        return
    controls = [pin for pin in network.inputs if pin not in idle]
    for is_latch, control, level in itertools.product((True, False), controls, (1, 0)):
        try:
            it = stored(network, control, level, is_latch, idle)
            for force, still in zip(forces, alone):
                it = it and with_force(network, it, force, still)
            if it and len(forces) == 2:
                it = replace(it, both=forced(network, {pin: 1 - level for pin, level in idle.items()}) or ())
        except NotKnown:        # as something else than it is, it may swing to and fro
            continue
        if it:
            yield it


def held(network: Network) -> Kept | None:
    """The cell as one whose inputs set, clear or keep each output, where no change of one input does anything else."""
    first = {tuple(at.values()): network.settled({}, at)[0] for at in network.vectors(network.inputs)}
    tables: dict[str, Held] = {pin: {at: state[pin] for at, state in first.items()} for pin in network.outputs}
    if any({0, 1} - set(table.values()) for table in tables.values()):
        return None
    waiting = [(at, state) for at, state in first.items() if None not in network.told(state)]
    seen = {(at, network.told(state)) for at, state in waiting}
    while waiting:
        at, before = waiting.pop()
        for place in range(len(at)):
            new = at[:place] + (1 - at[place],) + at[place + 1:]
            state, _ = network.settled(before, dict(zip(network.inputs, new)))
            for pin in network.outputs:
                wanted = tables[pin][new]
                if state[pin] != (before[pin] if wanted is None else wanted):
                    return None
            if (new, network.told(state)) not in seen:
                seen.add((new, network.told(state)))
                waiting.append((new, state))
    return Kept(tables)


def function(network: Network) -> Combinational | Stored | Kept:
    """What the cell is: a function of its inputs, else a latch or a flip-flop, else one that keeps its outputs."""
    found = combinational(network)
    if found:
        return found
    forces = [Force(pin, level) for pin in network.inputs for level in (0, 1)]
    for count in (0, 1, 2):
        for some in itertools.combinations(forces, count):
            if len({force.pin for force in some}) == count:
                kept = next(with_forces(network, some), None)
                if kept:
                    return kept
    it = held(network)
    if it:
        return it
    raise NotKnown("it is no function of its inputs, no latch or flip-flop of one control, and keeps no output")
