"""The cells of the measures of trails: those of the repository, flip-flops, and random cells of single fingers."""
import pathlib
import re
import sys
from collections import namedtuple

TOP = pathlib.Path(__file__).resolve().parent.parent.parent
sys.path.insert(0, str(TOP / "benchmarks"))
import inputs  # noqa: E402

Cell = namedtuple("Cell", "title name text")

TRANSMISSION_GATES = """\
* a flip-flop of 26 transistors: transmission gates, master and slave with a keeper each, both outputs
.subckt tgff d clk q qn vdd gnd
mp1 cn clk vdd vdd pmos w=3u l=0.6u
mn1 cn clk gnd gnd nmos w=1.5u l=0.6u
mp2 cp cn vdd vdd pmos w=3u l=0.6u
mn2 cp cn gnd gnd nmos w=1.5u l=0.6u
mp3 di d vdd vdd pmos w=3u l=0.6u
mn3 di d gnd gnd nmos w=1.5u l=0.6u
mp4 m cp di vdd pmos w=1.5u l=0.6u
mn4 m cn di gnd nmos w=1.5u l=0.6u
mp5 mb m vdd vdd pmos w=3u l=0.6u
mn5 mb m gnd gnd nmos w=1.5u l=0.6u
mp6 mf mb vdd vdd pmos w=1.5u l=0.6u
mn6 mf mb gnd gnd nmos w=1.5u l=0.6u
mp7 m cn mf vdd pmos w=1.5u l=0.6u
mn7 m cp mf gnd nmos w=1.5u l=0.6u
mp8 s cn mb vdd pmos w=1.5u l=0.6u
mn8 s cp mb gnd nmos w=1.5u l=0.6u
mp9 sb s vdd vdd pmos w=3u l=0.6u
mn9 sb s gnd gnd nmos w=1.5u l=0.6u
mpa sf sb vdd vdd pmos w=1.5u l=0.6u
mna sf sb gnd gnd nmos w=1.5u l=0.6u
mpb s cp sf vdd pmos w=1.5u l=0.6u
mnb s cn sf gnd nmos w=1.5u l=0.6u
mpc q sb vdd vdd pmos w=6u l=0.6u
mnc q sb gnd gnd nmos w=3u l=0.6u
mpd qn s vdd vdd pmos w=6u l=0.6u
mnd qn s gnd gnd nmos w=3u l=0.6u
.ends
"""

# The inverters of the two keepers as NANDs whose second input sets the flip-flop.
SET_INPUT = (TRANSMISSION_GATES
             .replace("26 transistors", "30 transistors, with an asynchronous set").replace("tgff d clk", "setff d clk sn")
             .replace("mn5 mb m gnd gnd", "mpe mb sn vdd vdd pmos w=3u l=0.6u\nmne n1 sn gnd gnd nmos w=3u l=0.6u\nmn5 mb m n1 gnd")
             .replace("mna sf sb gnd gnd", "mpf sf sn vdd vdd pmos w=3u l=0.6u\nmnf n2 sn gnd gnd nmos w=3u l=0.6u\nmna sf sb n2 gnd"))


def of_file(path):
    """Every subcircuit of a file of the repository."""
    text = (TOP / path).read_text(encoding="ascii")
    for name in re.findall(r"^\.subckt\s+(\S+)", text, re.IGNORECASE | re.MULTILINE):
        yield Cell(f"{name.lower()} of {path}", name.lower(), text)


def random_cell(columns):
    return Cell(f"a random cell of {columns} columns", f"any{columns}", inputs.random_cell(f"any{columns}", columns, columns * 3 // 4, 1))


EXAMPLES = sorted(str(path.relative_to(TOP)) for path in (TOP / "examples").glob("*.sp"))

CELLS = [
    *(cell for path in [*EXAMPLES, "docs/figures/ring.sp", "examples/library/cells.sp"] for cell in of_file(path)),
    Cell("a flip-flop of 22, as in the OSU library", "posdff", inputs.OSU_FLIP_FLOP),
    Cell("a flip-flop of 24, clocked inverters", "dff", inputs.FLIP_FLOP),
    Cell("one of 26 with both outputs", "bothff", inputs.BOTH_OUTPUTS),
    Cell("one of 26 with both outputs, transmission gates", "tgff", TRANSMISSION_GATES),
    Cell("one of 30 that can be set, transmission gates", "setff", SET_INPUT),
    *map(random_cell, (12, 14, 16, 18, 20, 24, 28, 32)),
]
