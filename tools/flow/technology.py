"""The technology file of cellgen, as far as scripts need it, and calls of the program."""
from __future__ import annotations

import os
import subprocess
import sys
from dataclasses import dataclass, field
from pathlib import Path

TOOLS = Path(__file__).resolve().parent.parent
TOP = TOOLS.parent
sys.path.append(str(TOOLS / "preparing"))
import tech as keys

PROGRAM = os.environ.get("PROGRAM", str(TOP / "cellgen"))


def version() -> str:
    return (TOP / "VERSION").read_text().strip()


@dataclass(frozen=True)
class Technology:
    """Lambda in nanometres, the height of all cells in grid units (0: as each needs), rails and models."""
    lambda_nm: int = 300
    height: int = 0
    vdd: str = "vdd"
    gnd: str = "gnd"
    p_models: tuple[str, ...] = ("p", "pmos", "pch")
    n_models: tuple[str, ...] = ("n", "nmos", "nch")
    rest: dict = field(default_factory=dict)

    @property
    def unit_nm(self) -> int:
        return self.lambda_nm // 2

    @property
    def unit_um(self) -> float:
        return self.lambda_nm / 2000


def read(path: str | Path) -> Technology:
    """The technology of a file, the plain one for `-`."""
    if str(path) == "-":
        return Technology()
    table = keys.table(Path(path).read_text())
    known = {key: table.pop(key) for key in Technology.__dataclass_fields__ if key in table}
    for key, value in known.items():
        if isinstance(value, str):
            known[key] = value.lower()
        elif isinstance(value, list):
            known[key] = tuple(word.lower() for word in value)
    return Technology(**known, rest=table)


@dataclass(frozen=True)
class Netlist:
    """What `extract` reports of a cell: its status, the report's first lines, and its devices by the names of nets."""
    status: int
    said: str
    devices: tuple[str, ...] = ()

    @property
    def is_clean(self) -> bool:
        return self.status == 0


def extract(technology: str | Path, gds: Path, cell: str, has_taps: bool = False) -> Netlist:
    """The netlist of a cell as the program reads it, with bodies where it has taps. The order of nets plays no part:
    devices go by names."""
    words = ["--taps"] if has_taps else []
    ended = subprocess.run([PROGRAM, "extract", str(technology), str(gds), cell, *words],
                           capture_output=True, text=True, check=False)
    lines = ended.stdout.splitlines()
    devices = [line.split(" ", 2)[2] for line in lines if line.startswith("device ")]
    return Netlist(ended.returncode, "; ".join(lines[:3]) or f"status {ended.returncode}",
                   tuple(sorted(map(by_ends, devices))))


def difference(technology: str | Path, gds: Path, lef: Path, cell: str) -> str:
    """In what a LEF macro differs from the cell, as `agree` reports it; nothing where it fits."""
    ended = subprocess.run([PROGRAM, "agree", str(technology), str(gds), str(lef), cell],
                           capture_output=True, text=True, check=False)
    return "; ".join(ended.stdout.splitlines()[:2]) or f"status {ended.returncode}" if ended.returncode else ""


def by_ends(device: str) -> str:
    """`p gate a ends y vdd width 20 ..` with the two ends in the order of their names."""
    words = device.split()
    words[4:6] = sorted(words[4:6])
    return " ".join(words)
