"""Calls of the tools of a flow: each writes all that the tool said into a log, and gives what counts."""
from __future__ import annotations

import os
import re
import shutil
import subprocess
from dataclasses import dataclass
from pathlib import Path

from technology import TOOLS, TOP

HERE = TOOLS / "flow"
DOCS = TOP / "docs"
INSTALL = ("apt-get install --no-install-recommends yosys graywolf qrouter qflow qflow-tech-osu050 magic netgen-lvs "
           "ngspice iverilog make bsdextrautils")
NEEDED = ("yosys", "graywolf", "qrouter", "qflow", "magic", "netgen-lvs", "ngspice", "iverilog", "vvp",
          "make", "column")

# MOSIS 6.5.b is one of the alternative rules of contacts, for active that goes less than 1.5 lambda round them.
VOID = "(Mosis #6.5.b)"


MAGIC = ("magic", "-dnull", "-noconsole")


class Failed(Exception):
    """Why a step is not good."""


def missing() -> list[str]:
    return [tool for tool in NEEDED if not shutil.which(tool)]


def call(words: list[str | Path], folder: Path, log: Path, timeout: int = 600, **environment: str | Path) -> str:
    """Runs a tool, keeps what it says in a log, and gives that; the tool's own status is its caller's to judge by."""
    given = {**os.environ, **{key: str(value) for key, value in environment.items()}}
    try:
        ended = subprocess.run([str(word) for word in words], cwd=folder, env=given, timeout=timeout, check=False,
                               stdin=subprocess.DEVNULL, stdout=subprocess.PIPE, stderr=subprocess.STDOUT,
                               text=True, errors="replace")
    except subprocess.TimeoutExpired:
        raise Failed(f"{words[0]} took more than {timeout} seconds") from None
    log.parent.mkdir(parents=True, exist_ok=True)
    log.write_text(ended.stdout)
    return ended.stdout


def last_line(said: str) -> str:
    return next((line for line in reversed(said.splitlines()) if line.strip()), "it said nothing")


def script(name: str, words: list[str | Path], log: Path, *, may_lack: bool = False) -> str:
    """One of the scripts in tools/; its last line. Where cells may be left out, status 1 says that some are."""
    ended = subprocess.run([str(TOOLS / name), *map(str, words)], stdout=subprocess.PIPE, stderr=subprocess.STDOUT,
                           text=True, check=False, env={**os.environ, "SHEET": "no"})
    log.parent.mkdir(parents=True, exist_ok=True)
    log.write_text(ended.stdout)
    if ended.returncode > (1 if may_lack else 0) or ended.returncode < 0:
        raise Failed(f"{name} ended with {ended.returncode}: {last_line(ended.stdout)}; see {log}")
    return last_line(ended.stdout)


def qflow(step: str, project: Path, technology: str, design: str) -> None:
    said = call(["qflow", step, "-T", technology, design], project, project / f"{step}.log")
    ends = {"synthesize": f"synthesis/{design}.spc", "place": f"layout/{design}_unroute.def",
            "route": f"layout/{design}.def"}
    if not (project / ends[step]).exists():
        raise Failed(f"qflow {step}: {last_line(said)}")


def simulate(sources: list[Path], folder: Path) -> None:
    """Compiles Verilog files and runs them in a folder, which gets their VCD file."""
    folder.mkdir(parents=True, exist_ok=True)
    said = call(["iverilog", "-o", "compiled", *(path.resolve() for path in sources)], folder, folder / "iverilog.log")
    if said.strip():
        raise Failed(f"iverilog: {said.splitlines()[0]}")
    call(["vvp", "-n", "compiled"], folder, folder / "vvp.log")


@dataclass(frozen=True)
class Broken:
    """What Magic finds wrong: counts by rule, and of a void rule."""
    rules: dict[str, int]
    void: int

    def __str__(self) -> str:
        return "; ".join(f"{count} of {rule}" for rule, count in self.rules.items()) or "no broken rule"


def magic_rules(gds: Path, cell: str, folder: Path) -> Broken:
    """The rules of SCN3ME_SUBM.30, with contacts read in both of its ways (`c` and `p`)."""
    rules: dict[str, int] = {}
    void = 0
    for style in ("c", "p"):
        said = call([*MAGIC, "-rcfile", "/dev/null", HERE / "drc.tcl"], folder, folder / f"drc_{style}.log",
                    GDS=gds.resolve(), CELL=cell, STYLE=style)
        if "rules looked at" not in said:
            raise Failed(f"Magic: {last_line(said)}")
        for count, why in re.findall(r"^rule (\d+) (.*) : ", said, re.M):
            if VOID in why:
                void += int(count)
            else:
                rules[why] = max(rules.get(why, 0), int(count))
    return Broken(rules, void)


def magic_netlist(gds: Path, cell: str, folder: Path, has_bodies: bool) -> Path:
    """The drawing's netlist as SPICE."""
    out = folder / "drawn.spice"
    out.unlink(missing_ok=True)
    bodies = {"BODIES": "yes"} if has_bodies else {}
    which = ["-rcfile", "/dev/null"] if has_bodies else ["-T", DOCS / "cellgen.tech"]
    said = call([*MAGIC, *which, HERE / "extract.tcl"], folder, folder / "extract.log",
                GDS=gds.resolve(), CELL=cell, OUT=out.name, **bodies)
    if not out.exists():
        raise Failed(f"Magic: {last_line(said)}")
    return out


@dataclass(frozen=True)
class Match:
    is_same: bool
    said: str


def netgen(drawn: Path, wanted: Path, cell: str, folder: Path, log: str) -> Match:
    """Whether two netlists are the same, devices' sizes included."""
    pair = [f"{drawn.name} {cell}", f"{wanted.name} {cell}"]
    words = ["netgen-lvs", "-batch", "lvs", *pair, HERE / "netgen_setup.tcl", f"{log}.out"]
    said = call(words, folder, folder / f"{log}.log")
    results = re.findall(r"^Result: (.*)$", said, re.M)
    # netgen takes a pin that hangs free for one that is connected, where their names are the same
    free = re.findall(rf"^Cell {re.escape(cell)} disconnected node: (\S+)", (folder / f"{log}.out").read_text(), re.M)
    if free:
        return Match(False, f"pin {free[0]} hangs free")
    is_same = bool(results) and results[-1] == "Circuits match uniquely." and "Property errors" not in said
    return Match(is_same, results[-1].rstrip(".") if results else last_line(said))


def ngspice(deck: Path) -> None:
    said = call(["ngspice", "-b", deck.name], deck.parent, deck.parent / "ngspice.log")
    fault = re.search(r"^.*(?:Error|aborted).*$", said, re.M)
    if fault:
        raise Failed(f"ngspice: {fault.group(0)}")
