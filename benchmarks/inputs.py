"""The inputs of the measures: each makes its files in a folder and gives the words of its calls."""
import pathlib
import random
import re
import struct
import subprocess

FLIP_FLOP = """\
* a flip-flop of 24 transistors: clocked inverters as master and slave, each with its keeper
.subckt dff d clk q vdd gnd
mp1 ck clk vdd vdd pmos w=3u l=0.6u
mn1 ck clk gnd gnd nmos w=1.5u l=0.6u
mp2 p2 d vdd vdd pmos w=3u l=0.6u
mp3 m clk p2 vdd pmos w=3u l=0.6u
mn2 n2 d gnd gnd nmos w=1.5u l=0.6u
mn3 m ck n2 gnd nmos w=1.5u l=0.6u
mp4 mb m vdd vdd pmos w=3u l=0.6u
mn4 mb m gnd gnd nmos w=1.5u l=0.6u
mp5 p5 mb vdd vdd pmos w=0.9u l=0.6u
mp6 m ck p5 vdd pmos w=0.9u l=0.6u
mn5 n5 mb gnd gnd nmos w=0.9u l=0.6u
mn6 m clk n5 gnd nmos w=0.9u l=0.6u
mp7 p7 mb vdd vdd pmos w=3u l=0.6u
mp8 s ck p7 vdd pmos w=3u l=0.6u
mn7 n7 mb gnd gnd nmos w=1.5u l=0.6u
mn8 s clk n7 gnd nmos w=1.5u l=0.6u
mp9 q s vdd vdd pmos w=6u l=0.6u
mn9 q s gnd gnd nmos w=3u l=0.6u
mpa pa q vdd vdd pmos w=0.9u l=0.6u
mpb s clk pa vdd pmos w=0.9u l=0.6u
mna na q gnd gnd nmos w=0.9u l=0.6u
mnb s ck na gnd nmos w=0.9u l=0.6u
mpc qb q vdd vdd pmos w=3u l=0.6u
mnc qb q gnd gnd nmos w=1.5u l=0.6u
.ends
"""

OSU_FLIP_FLOP = """\
* a flip-flop of 22 transistors, wired as the DFFPOSX1 of the OSU standard cells
.subckt posdff d clk q vdd gnd
m0 vdd clk a1 vdd pmos w=3u l=0.6u
m1 a_17_74 d vdd vdd pmos w=1.5u l=0.6u
m2 a_22_6 a1 a_17_74 vdd pmos w=1.5u l=0.6u
m3 a_31_74 clk a_22_6 vdd pmos w=1.5u l=0.6u
m4 vdd a_34_4 a_31_74 vdd pmos w=1.5u l=0.6u
m5 a_34_4 a_22_6 vdd vdd pmos w=1.5u l=0.6u
m6 a_61_74 a_34_4 vdd vdd pmos w=1.5u l=0.6u
m7 a_66_6 clk a_61_74 vdd pmos w=1.5u l=0.6u
m8 a_76_84 a1 a_66_6 vdd pmos w=0.9u l=0.6u
m9 vdd q a_76_84 vdd pmos w=0.9u l=0.6u
m10 q a_66_6 vdd vdd pmos w=3u l=0.6u
m11 gnd clk a1 gnd nmos w=1.5u l=0.6u
m12 a_17_6 d gnd gnd nmos w=0.9u l=0.6u
m13 a_22_6 clk a_17_6 gnd nmos w=0.9u l=0.6u
m14 a_31_6 a1 a_22_6 gnd nmos w=0.9u l=0.6u
m15 gnd a_34_4 a_31_6 gnd nmos w=0.9u l=0.6u
m16 a_34_4 a_22_6 gnd gnd nmos w=0.9u l=0.6u
m17 a_61_6 a_34_4 gnd gnd nmos w=0.9u l=0.6u
m18 a_66_6 a1 a_61_6 gnd nmos w=0.9u l=0.6u
m19 a_76_6 clk a_66_6 gnd nmos w=0.9u l=0.6u
m20 gnd q a_76_6 gnd nmos w=0.9u l=0.6u
m21 q a_66_6 gnd gnd nmos w=1.5u l=0.6u
.ends
"""

# The flip-flop of 24 transistors with a second output.
BOTH_OUTPUTS = FLIP_FLOP.replace("24", "26", 1).replace("dff", "bothff", 1).replace(".ends", """\
mpd q2 qb vdd vdd pmos w=6u l=0.6u
mnd q2 qb gnd gnd nmos w=3u l=0.6u
.ends""")


def inverters(name, count):
    """A subcircuit of inverters that share nothing but the rails."""
    pins = " ".join(f"a{i} y{i}" for i in range(count))
    lines = [f".subckt {name} {pins} vdd gnd"]
    for i in range(count):
        lines.append(f"mp{i} y{i} a{i} vdd vdd pmos w=3u l=0.6u")
        lines.append(f"mn{i} y{i} a{i} gnd gnd nmos w=1.5u l=0.6u")
    return "\n".join(lines + [".ends", ""])


def rings(name, count):
    """Pairs of gates that switch between two nets of their own: no net has an odd number of ends."""
    pins = " ".join(f"a{i} b{i} x{i} y{i}" for i in range(count))
    lines = [f".subckt {name} {pins} vdd gnd"]
    for i in range(count):
        for gate in (f"a{i}", f"b{i}"):
            lines.append(f"mp{gate} x{i} {gate} y{i} vdd pmos w=3u l=0.6u")
            lines.append(f"mn{gate} x{i} {gate} y{i} gnd nmos w=1.5u l=0.6u")
    return "\n".join(lines + [".ends", ""])


def random_cell(name, columns, nets, seed):
    """Gates of their own, each with a P and an N transistor between nets drawn by chance."""
    draw = random.Random(seed)
    inner = [f"x{i}" for i in range(nets)]
    lines = [f".subckt {name} {' '.join(f'a{i}' for i in range(columns))} vdd gnd"]
    for i in range(columns):
        for kind, rail, model in (("p", "vdd", "pmos"), ("n", "gnd", "nmos")):
            drain, source = draw.sample(inner + [rail], 2)
            lines.append(f"m{kind}{i} {drain} a{i} {source} {rail} {model} w=3u l=0.6u")
    return "\n".join(lines + [".ends", ""])


def behind_a_library(folder, program):
    text = [inverters(f"c{i}", 8) for i in range(4600)]
    (folder / "library.sp").write_text("".join(text)[: 4 * 1024 * 1024 - 400] + "\n.ends\n" + inverters("last", 1))
    return [["plan", "-", "library.sp", "last"]]


def planned(text, name, budget):
    def make(folder, program):
        (folder / f"{name}.sp").write_text(text)
        (folder / f"{name}.toml").write_text(f"budget = {budget}\n")
        return [["plan", f"{name}.toml", f"{name}.sp", name]]
    return make


def checked(text, name, budget):
    """The log that `make` writes: of the least row, or of a search that spent its budget."""
    def make(folder, program):
        words = made(text, name, budget)(folder, program)[0]
        subprocess.run([program] + words, cwd=folder, capture_output=True, check=False)
        return [["check"] + words[1:4] + [f"{name}.clog"]]
    return make


def made(text, name, budget):
    def make(folder, program):
        words = planned(text, name, budget)(folder, program)[0]
        return [["make"] + words[1:] + [name]]
    return make


def wide(name, columns):
    """A chain of inverters, each wide enough for two fingers: a row without gaps."""
    nets = [f"n{i}" for i in range(columns // 2 + 1)]
    lines = [f".subckt {name} {nets[0]} {nets[-1]} vdd gnd"]
    for i in range(columns // 2):
        lines.append(f"mp{i} {nets[i + 1]} {nets[i]} vdd vdd pmos w=12u l=0.6u")
        lines.append(f"mn{i} {nets[i + 1]} {nets[i]} gnd gnd nmos w=12u l=0.6u")
    return "\n".join(lines + [".ends", ""])


METAL1 = 49
VIA = 50
METAL2 = 51
UNIT_NM = 150


def record(kind, form, content=b""):
    return struct.pack(">HBB", len(content) + 4, kind, form) + content


def boundary(layer, x1, y1, x2, y2):
    """A rectangle in file units of a nanometre, taken round."""
    corners = struct.pack(">10i", x1, y1, x1, y2, x2, y2, x2, y1, x1, y1)
    return (record(8, 0) + record(13, 2, struct.pack(">h", layer)) + record(14, 2, b"\0\0")
            + record(16, 3, corners) + record(17, 0))


def structure(name, elements):
    return record(5, 2, bytes(24)) + record(6, 6, name.encode() + b"\0" * (len(name) % 2)) + elements + record(7, 0)


def library(structures):
    """A GDSII library with a unit of a nanometre: 10^-3 user units, 10^-9 metres, as excess-64 reals."""
    units = bytes.fromhex("3e4189374bc6a7f03944b82fa09b5a54")
    return (record(0, 2, b"\2\x58") + record(1, 2, bytes(24)) + record(2, 6, b"lib\0") + record(3, 5, units)
            + structures + record(4, 0))


def drawn(places):
    """Metal1 rectangles, ten units wide and high, whose lower left corners stand at these places in units."""
    return b"".join(boundary(METAL1, x * UNIT_NM, y * UNIT_NM, (x + 10) * UNIT_NM, (y + 10) * UNIT_NM) for x, y in places)


def rectangle(layer, x1, y1, x2, y2):
    return boundary(layer, x1 * UNIT_NM, y1 * UNIT_NM, x2 * UNIT_NM, y2 * UNIT_NM)


def crossing(count):
    """As many bars of metal1 as of metal2 above them, all of which cross, and as many vias, each at one of the crossings."""
    bars = count // 3
    pitch, end = 16, 16 * bars
    return b"".join(rectangle(METAL1, 0, pitch * i, end, pitch * i + 8)
                    + rectangle(METAL2, pitch * i, 0, pitch * i + 8, end)
                    + rectangle(VIA, pitch * i + 2, pitch * (7 * i % bars) + 2, pitch * i + 6, pitch * (7 * i % bars) + 6)
                    for i in range(bars))


def extracted(elements, others=b""):
    def make(folder, program):
        (folder / "cell.gds").write_bytes(library(others + structure("top", elements)))
        return [["extract", "-", "cell.gds", "top"]]
    return make


def boundaries_of(data):
    """The layers and sides of the boundaries of a file that `make` wrote."""
    at, layer = 0, 0
    while at < len(data):
        length, kind = struct.unpack(">HB", data[at:at + 3])
        if kind == 13:
            layer = struct.unpack(">h", data[at + 4:at + 6])[0]
        if kind == 16 and length == 44:
            values = struct.unpack(">10i", data[at + 4:at + 44])
            yield layer, min(values[::2]), min(values[1::2]), max(values[::2]), max(values[1::2])
        at += length


def side_by_side(text, name, most):
    """As many copies of a made cell as have N rectangles, far enough apart to obey the rules, without labels."""
    def make(folder, program):
        subprocess.run([program] + made(text, name, 200000)(folder, program)[0], cwd=folder, capture_output=True, check=True)
        shapes = list(boundaries_of((folder / f"{name}.gds").read_bytes()))
        step = max(x2 for _, _, _, x2, _ in shapes) + 40 * UNIT_NM
        copies = range(most // len(shapes))
        return extracted(b"".join(boundary(layer, x1 + i * step, y1, x2 + i * step, y2)
                                  for i in copies for layer, x1, y1, x2, y2 in shapes))(folder, program)
    return make


EXAMPLES = pathlib.Path(__file__).resolve().parent.parent / "examples"


def all_examples(folder, program):
    """A call for each subcircuit of the SPICE files in `examples/`."""
    calls = []
    for file in sorted(EXAMPLES.glob("*.sp")):
        for name in re.findall(r"^\.subckt\s+(\S+)", file.read_text(), re.IGNORECASE | re.MULTILINE):
            calls.append(["make", "-", str(file), name, name.lower()])
    return calls


def large_file(folder, program):
    other = structure("other", drawn((16 * (i % 1000), 16 * (i // 1000)) for i in range(1000000)))
    return extracted(drawn([(0, 0)]), other)(folder, program)


def comb(teeth):
    """Bars of metal1 beside one another, each longer than the one before."""
    return b"".join(rectangle(METAL1, 16 * i, 0, 16 * i + 8, 8 * i + 8) for i in range(teeth))


def compared(front, count):
    """An inverter and its abstract, with N random rectangles before the first one after the word."""
    def make(folder, program):
        subprocess.run([program] + made(inverters("inv", 1), "inv", 200000)(folder, program)[0], cwd=folder, capture_output=True, check=True)
        draw = random.Random(1)
        lines = []
        for _ in range(count):
            x, y, width, height = (draw.randrange(5000) * 3 for _ in range(4))
            lines.append(f"RECT {x / 20} {y / 20} {(x + width + 3) / 20} {(y + height + 3) / 20} ;\n")
        lef = (folder / "inv.lef").read_text()
        at = lef.index("RECT ", lef.index(front))
        (folder / "large.lef").write_text("".join([lef[:at], *lines, lef[at:]]))
        return [["agree", "-", "inv.gds", "large.lef", "inv"]]
    return make


MEASURES = [
    ("plan: an inverter behind a library of 4 MiB", behind_a_library),
    ("plan: 14 inverters", planned(inverters("row", 14), "row", 200000)),
    ("plan: a flip-flop, to 200,000 nodes", planned(FLIP_FLOP, "dff", 200000)),
    ("plan: a flip-flop, to 1,000,000 nodes", planned(FLIP_FLOP, "dff", 1000000)),
    ("plan: a random cell of 12 columns, to 1,000,000 nodes", planned(random_cell("any", 12, 9, 1), "any", 1000000)),
    ("plan: a random cell of 16 columns, to 1,000,000 nodes", planned(random_cell("any", 16, 12, 1), "any", 1000000)),
    ("check: the log of the flip-flop to 200,000 nodes", checked(FLIP_FLOP, "dff", 200000)),
    ("check: the log of the flip-flop, 666,776 lemmas", checked(FLIP_FLOP, "dff", 1000000)),
    ("check: a log of 999,992 lemmas, 80 MB", checked(random_cell("any", 16, 12, 1), "any", 1000000)),
    ("make: all cells of examples/", all_examples),
    ("bench: 200 generated cells", lambda folder, program: [["bench", "200"]]),
    ("make: an inverter", made(inverters("inv", 1), "inv", 200000)),
    ("make: a flip-flop, to 1,000,000 nodes", made(FLIP_FLOP, "dff", 1000000)),
    ("extract: an inverter", side_by_side(inverters("inv", 1), "inv", 29)),
    ("extract: 10,000 metal1 rectangles on a diagonal", extracted(drawn((16 * i, 16 * i) for i in range(10000)))),
    ("extract: 10,000 metal1 rectangles that touch, 100 by 100",
     extracted(drawn((10 * (i % 100), 10 * (i // 100)) for i in range(10000)))),
    ("extract: cells of 8 columns side by side, 10,000 rectangles", side_by_side(wide("eight", 8), "eight", 10000)),
    ("extract: a small cell in a file of a million rectangles", large_file),
    ("extract: bars that cross, 1,000 rectangles", extracted(crossing(1000))),
    ("extract: bars that cross, 3,000 rectangles", extracted(crossing(3000))),
    ("extract: bars that cross, 10,000 rectangles", extracted(crossing(10000))),
    ("extract: a comb of 500 teeth of different lengths", extracted(comb(500))),
    ("extract: a comb of 1,000 teeth of different lengths", extracted(comb(1000))),
    ("agree: a million rectangles in the obstructions", compared("OBS", 1000000)),
    ("agree: a million rectangles in one pin, off its net", compared("PIN gnd", 1000000)),
    ("make: 32 columns", made(wide("wide", 32), "wide", 200000)),
]
