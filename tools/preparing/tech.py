"""The keys of a technology file that say what a SPICE file has to be like. Python 3.8."""
from __future__ import annotations

import ast
from pathlib import Path
from typing import Tuple

MOST = {"pins": 64, "devices": 128, "nets": 256}
SUPPLY = ("vdd", "vdd!", "vcc", "vcc!", "vpwr", "vdd:", "vpwr!")         # usual names of rails
GROUND = ("gnd", "gnd!", "vss", "vss!", "vgnd", "0", "gnd:", "vgnd!")
CHANNEL, NARROWEST, NAME = 4, 6, 32     # units of a channel, units of a finger, letters of a cell's name


class Technology:
    """Lambda, rails and models; `-` is the plain technology."""

    def __init__(self, path: str) -> None:
        self.path = path
        self.lambda_nm, self.vdd, self.gnd = 300, "vdd", "gnd"
        self.p_models: Tuple[str, ...] = ("p", "pmos", "pch")
        self.n_models: Tuple[str, ...] = ("n", "nmos", "nch")
        if path != "-":
            self.read(Path(path).read_text())

    def read(self, text: str) -> None:
        for key, value in table(text).items():
            kinds = {"lambda_nm": int, "vdd": str, "gnd": str, "p_models": list, "n_models": list}
            if not isinstance(value, kinds.get(key, object)):
                raise ValueError(f"{self.path}: {key} has another kind of value")
            if isinstance(value, list):
                value = tuple(str(word).lower() for word in value)
            setattr(self, key, value.lower() if isinstance(value, str) else value)

    @property
    def unit_nm(self) -> int:
        return self.lambda_nm // 2

    def kind(self, model: str) -> str:
        """`p`, `n`, or nothing for a model that it does not name."""
        return "p" if model in self.p_models else "n" if model in self.n_models else ""

    def model(self, kind: str) -> str:
        return (self.p_models if kind == "p" else self.n_models)[0]


def table(text: str) -> dict:
    """The keys of a TOML document."""
    try:
        import tomllib
    except ImportError:
        return by_hand(text)
    try:
        return tomllib.loads(text)
    except tomllib.TOMLDecodeError as fault:
        raise ValueError(f"the technology file is no TOML document: {fault}") from None


def by_hand(text: str) -> dict:
    """Lines `key = value` with a number, a string or a list of strings on one line: where Python has no reader."""
    found = {}
    for line in text.splitlines():
        key, is_pair, value = line.partition("=")
        if is_pair and not line.lstrip().startswith("#"):
            try:
                found[key.strip()] = ast.literal_eval(value.strip())
            except (SyntaxError, ValueError):
                raise ValueError(f"{line}: write the value on one line") from None
    return found
