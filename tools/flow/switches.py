"""What a subcircuit of transistors computes, found by switch-level simulation.

A net is 0, 1 or None (unknown). In each round every net takes what the switches that conduct now join it to; a net
that nothing drives keeps its level while others change, and loses it when all is at rest: charge alone stores nothing.
"""
from __future__ import annotations

import itertools
from collections.abc import Iterable, Iterator
from dataclasses import dataclass
from typing import Dict, Optional, Tuple

from spice import Subcircuit, Transistor
from technology import Technology

Level = Optional[int]
State = Dict[str, Level]
ROUNDS = 200


class NotKnown(Exception):
    """Why a cell has no function."""


@dataclass(frozen=True)
class Switch:
    """A transistor: it conducts between its ends where its gate has the level `on`."""
    gate: str
    ends: tuple[str, str]
    on: int
    squares: float

    def other(self, net: str) -> str:
        return self.ends[1] if net == self.ends[0] else self.ends[0]


class Network:
    """The switches of a cell, its rails, and its pins by direction."""

    def __init__(self, cell: Subcircuit, tech: Technology, inputs: list[str], outputs: list[str]) -> None:
        self.name, self.inputs, self.outputs = cell.name, inputs, outputs
        self.levels: dict[str, int] = {tech.vdd: 1, tech.gnd: 0}
        self.switches = [self.switch(t, tech) for t in cell.transistors]
        self.nets = {net for s in self.switches for net in (s.gate, *s.ends)}
        self.at: dict[str, list[Switch]] = {net: [s for s in self.switches if net in s.ends] for net in self.nets}
        self.sure: dict[tuple[int, ...], State] = {}

    @staticmethod
    def switch(t: Transistor, tech: Technology) -> Switch:
        return Switch(t.gate, (t.drain, t.source), 0 if t.model in tech.p_models else 1, t.length / t.width)

    def reached(self, sources: Iterable[str], state: State, unknown_too: bool) -> set[str]:
        """The nets that the sources are joined to by switches that conduct, or may conduct."""
        waiting, found = list(sources), set()
        while waiting:
            for switch in self.at.get(net := waiting.pop(), []):
                gate = state.get(switch.gate)
                if gate == switch.on or unknown_too and gate is None:
                    other = switch.other(net)
                    if other not in found and other not in self.levels and other not in self.inputs:
                        found.add(other)
                        waiting.append(other)
        return found

    def settled(self, state: State, inputs: State) -> tuple[State, int]:
        """The state to which the cell comes from another one with these inputs, and in how many rounds. Nets that the
        inputs alone decide, as a clock's complement, change with them: transmission gates don't overlap."""
        at = tuple(inputs[pin] for pin in self.inputs)
        if at not in self.sure:
            self.sure[at], _ = self.stepped({}, inputs)
        known = {net: level for net, level in self.sure[at].items() if level is not None}
        return self.stepped({**state, **known}, inputs)

    def stepped(self, state: State, inputs: State) -> tuple[State, int]:
        """The same where each net takes a round of its own."""
        state = {**dict.fromkeys(self.nets), **state, **inputs, **self.levels}
        fixed = {**inputs, **self.levels}
        rounds = 0
        for _ in range(ROUNDS):
            sure, maybe = [], []
            for level in (0, 1):
                sure.append(self.reached([n for n, at in fixed.items() if at == level], state, False))
                maybe.append(self.reached([n for n, at in fixed.items() if at in (level, None)], state, True))
            new = {net: state[net] if net in fixed else driven(net, state[net], sure, maybe) for net in state}
            if new != state:
                state, rounds = new, rounds + 1
                continue
            new = {net: at if net in fixed or net in maybe[0] | maybe[1] else None for net, at in state.items()}
            if new == state:
                return state, rounds
            state = new
        raise NotKnown("it does not come to rest")

    def vectors(self, pins: list[str]) -> Iterator[dict[str, int]]:
        for levels in itertools.product((0, 1), repeat=len(pins)):
            yield dict(zip(pins, levels))

    def told(self, state: State) -> tuple[Level, ...]:
        return tuple(state[pin] for pin in self.outputs)


def driven(net: str, old: Level, sure: list[set[str]], maybe: list[set[str]]) -> Level:
    low, high = net in maybe[0], net in maybe[1]
    if low and high:
        return None
    if not low and not high:
        return old
    level = int(high)
    return level if net in sure[level] or old == level else None


Table = Dict[Tuple[int, ...], int]


@dataclass(frozen=True)
class Combinational:
    """Each output as a table over the inputs."""
    tables: dict[str, Table]


def combinational(network: Network) -> Combinational | None:
    tables: dict[str, Table] = {pin: {} for pin in network.outputs}
    for inputs in network.vectors(network.inputs):
        state, _ = network.settled({}, inputs)
        for pin in network.outputs:
            if state[pin] is None:
                return None
            tables[pin][tuple(inputs.values())] = state[pin]
    return Combinational(tables)


@dataclass(frozen=True)
class Drive:
    """How an output is driven: its worst resistances up and down, in squares of channel, and the rounds to rest."""
    up: float
    down: float
    rounds: int


def drive(network: Network, output: str) -> Drive:
    worst, most = [0.0, 0.0], 0
    rails = {level: net for net, level in network.levels.items()}
    for first in network.vectors(network.inputs):
        before, _ = network.settled({}, first)
        for pin in network.inputs:
            state, rounds = changed(network, before, {**first, pin: 1 - first[pin]})
            most = max(most, rounds)
            level = state[output]
            if level is not None:
                worst[level] = max(worst[level], resistance(network, state, rails[level], output))
    return Drive(worst[1], worst[0], most)


def changed(network: Network, state: State, inputs: State) -> tuple[State, int]:
    try:
        return network.stepped(state, inputs)
    except NotKnown:
        return network.settled(state, inputs)


def resistance(network: Network, state: State, rail: str, output: str) -> float:
    """The least resistance from a rail to a net through switches that conduct, in squares; 0: there is no such path."""
    at, waiting = {}, {rail: 0.0}
    while waiting:
        net = min(waiting, key=waiting.__getitem__)
        at[net] = waiting.pop(net)
        for switch in network.at[net]:
            other = switch.other(net)
            if state[switch.gate] == switch.on and other not in at and other not in network.levels:
                waiting[other] = min(waiting.get(other, float("inf")), at[net] + switch.squares)
    return at.get(output, 0.0)
