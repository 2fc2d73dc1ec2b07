"""Subcircuits of transistors of a SPICE file, in the form that cellgen reads (docs/MANUAL.md, The SPICE file)."""
from __future__ import annotations

import re
from collections.abc import Iterator
from dataclasses import dataclass, field, replace
from pathlib import Path

SCALES = {"t": 1e12, "g": 1e9, "meg": 1e6, "k": 1e3, "m": 1e-3, "u": 1e-6, "n": 1e-9, "p": 1e-12, "f": 1e-15}
NUMBER = re.compile(r"([0-9]*\.?[0-9]*(?:e[-+]?[0-9]{1,2})?)(meg|[tgkmunpf])?[a-z]*")


@dataclass(frozen=True)
class Transistor:
    """Widths and lengths in metres; the width is that of all transistors of the line together."""
    name: str
    drain: str
    gate: str
    source: str
    bulk: str
    model: str
    width: float
    length: float


@dataclass
class Subcircuit:
    name: str
    pins: list[str]
    directions: dict[str, str] = field(default_factory=dict)
    transistors: list[Transistor] = field(default_factory=list)


def number(word: str) -> float:
    digits, scale = NUMBER.fullmatch(word).groups()
    return float(digits) * SCALES.get(scale or "", 1.0)


def logical_lines(text: str) -> Iterator[str]:
    """Lines in lower case without comments, continued ones joined; a `*.PININFO` line stays as it is."""
    line = ""
    for piece in text.lower().splitlines():
        bare = re.sub(r"(^|\s)\$.*", "", piece).strip()
        if bare.startswith("+"):
            line += " " + bare[1:]
        elif bare and (not bare.startswith("*") or bare.startswith("*.pininfo")):
            if line:
                yield line
            line = bare
    if line:
        yield line


def transistor(words: list[str]) -> Transistor:
    values = dict(word.split("=", 1) for word in words[6:] if "=" in word)
    copies = round(number(values.get("m", "1")))
    return Transistor(*words[:6], number(values["w"]) * copies, number(values["l"]))


def read(path: Path) -> list[Subcircuit]:
    """The subcircuits of a file in its order; rails that a `.global` line names are pins of each, after the others."""
    found: list[Subcircuit] = []
    rails: list[str] = []
    inside = False
    for line in logical_lines(path.read_text(encoding="latin-1")):
        words = re.sub(r"\s*=\s*", "=", line).split()
        if words[0] == ".subckt":
            found.append(Subcircuit(words[1], words[2:]))
            inside = True
        elif words[0] == ".ends":
            inside = False
        elif words[0] == ".global":
            rails += words[1:]
        elif inside and words[0] == "*.pininfo":
            found[-1].directions.update(word.split(":") for word in words[1:] if ":" in word)
        elif inside and words[0].startswith("m"):
            found[-1].transistors.append(transistor(words))
    for cell in found:
        used = {net for t in cell.transistors for net in (t.drain, t.source, t.bulk)}
        cell.pins += [rail for rail in rails if rail not in cell.pins and rail in used]
    return found


def text(cell: Subcircuit) -> str:
    """The subcircuit as SPICE, all names in lower case."""
    lines = [f".subckt {cell.name} {' '.join(cell.pins)}"]
    if cell.directions:
        lines.append("*.pininfo " + " ".join(f"{pin}:{way}" for pin, way in cell.directions.items()))
    for t in cell.transistors:
        nets = f"{t.name} {t.drain} {t.gate} {t.source} {t.bulk} {t.model}"
        lines.append(f"{nets} w={t.width * 1e6:.4g}u l={t.length * 1e6:.4g}u")
    return "\n".join([*lines, f".ends {cell.name}", ""])
