"""Draws the figures of docs/COURSE.md as SVG files in docs/figures/, from subcircuits and what the program makes of them:

    python3 docs/figures.py [PROGRAM [WORD ..]]

PROGRAM is ./cellgen where none is given; WORDs come before those of each call.
"""
import os
import struct
import subprocess
import sys
import tempfile
from collections import Counter, namedtuple
from html import escape

DOCS = os.path.dirname(os.path.abspath(__file__))
sys.path.append(os.path.join(DOCS, "..", "benchmarks", "trails"))
from fingers import columns_on, fingers_of  # noqa: E402
from trails import START, Levels, after, choices_of  # noqa: E402

FIGURES = os.path.join(DOCS, "figures")
EXAMPLES = os.path.join(DOCS, "..", "examples")
PROGRAM = sys.argv[1:] or [os.path.join(DOCS, "..", "cellgen")]

UNIT_NM = 150                    # a grid unit of the plain technology; the database unit is a nanometre
WELL, ACTIVE, POLY, CONTACT, METAL1, VIA, METAL2 = 42, 43, 46, 25, 49, 50, 51
COLOURS = {WELL: "none", ACTIVE: "#a5d6a7", POLY: "#e53935", METAL1: "#3f6fd1", METAL2: "#a64fc0",
           CONTACT: "#111111", VIA: "#f5d76e"}
INK, PALE, ORANGE, TEAL = "#222222", "#bbbbbb", "#d9730d", "#00796b"


# ---------------------------------------------------------------- what the program says

Finger = namedtuple("Finger", "left right width")
Column = namedtuple("Column", "gate p n line")             # line: that of its left end
Trunk = namedtuple("Trunk", "net left right track")        # left and right: its first and its last line
Cell = namedtuple("Cell", "row report log shapes labels")


def say(*words):
    """The lines of a report, each as a list of words."""
    done = subprocess.run([*PROGRAM, *words], capture_output=True, text=True, check=False)
    if done.returncode != 0:
        sys.exit(f"{' '.join(words)}: {done.stdout}{done.stderr}")
    return [line.split() for line in done.stdout.splitlines()]


def finger(words):
    return None if words[0] == "-" else Finger(words[0], words[1], int(words[2]))


def is_gap(before, p, n):
    pairs = ((before.p, p), (before.n, n))
    return any(a and b and a.right != b.left for a, b in pairs)


def row_of(report):
    """The columns of a report, each with the line of its left end: a column takes two lines, a gap too."""
    row = []
    for words in report:
        if words[0] == "column":
            p, n = finger(words[5:8]), finger(words[9:12])
            line = row[-1].line + 2 if row else 0
            if row and is_gap(row[-1], p, n):
                line += 2
            row.append(Column(words[3], p, n, line))
    return row


def made(path, cell):
    """Makes a cell in a folder that goes away again."""
    with tempfile.TemporaryDirectory() as folder:
        out = os.path.join(folder, cell)
        report = say("make", "-", path, cell, out)
        with open(out + ".clog", encoding="ascii") as log, open(out + ".gds", "rb") as gds:
            shapes, labels = read_gds(gds.read())
            return Cell(row_of(report), report, log.read().split("\n"), shapes, labels)


def read_gds(data):
    """The rectangles (layer, x1, y1, x2, y2) and the labels {name: (layer, x, y)} of a made cell, in grid units."""
    shapes, labels, layer, xs, ys, at = [], {}, 0, [], [], 0
    while at < len(data):
        size, kind = struct.unpack_from(">HB", data, at)
        body = data[at + 4:at + size]
        if kind == 0x0D:
            layer, = struct.unpack(">h", body)
        elif kind == 0x10:
            points = [v // UNIT_NM for v in struct.unpack(f">{len(body) // 4}i", body)]
            xs, ys = points[0::2], points[1::2]
            if len(xs) > 1:
                shapes.append((layer, min(xs), min(ys), max(xs), max(ys)))
        elif kind == 0x19:
            labels[body.rstrip(b"\0").decode()] = (layer, xs[0], ys[0])
        at += size
    return shapes, labels


def line_xs(cell):
    """Where the lines of a cell without a gap stand: the middles of its contacts and of its gates."""
    middles = {(x1 + x2) // 2 for layer, x1, _, x2, _ in cell.shapes if layer in (CONTACT, POLY)}
    return sorted(middles)


def trunks_of(cell):
    """Each trunk bears the label of its net at its first line."""
    xs = line_xs(cell)
    named = {name: (x, y) for name, (layer, x, y) in cell.labels.items() if layer == METAL1 and name not in ("vdd", "gnd")}
    tracks = sorted({y for _, y in named.values()})
    trunks = []
    for name, (x, y) in named.items():
        right, = [x2 for layer, x1, y1, x2, y2 in cell.shapes if (layer, x1, y1, y2) == (METAL1, x - 4, y - 4, y + 4)]
        trunks.append(Trunk(name, xs.index(x), xs.index(right - 4), tracks.index(y)))
    return trunks


def nodes_of(row):
    """The nets at the node lines: {(row, line): net}."""
    nodes = {}
    for column in row:
        for name, one in (("p", column.p), ("n", column.n)):
            if one:
                nodes[name, column.line] = one.left
                nodes[name, column.line + 2] = one.right
    return nodes


# ---------------------------------------------------------------- a picture

class Picture:
    """An SVG file. No two labels may overlap, and none may leave the picture."""

    def __init__(self, width, height, title):
        self.size, self.parts, self.boxes = (width, height), [], []
        self.parts.append(f'<svg xmlns="http://www.w3.org/2000/svg" viewBox="0 0 {width} {height}" '
                          f'width="{width}" height="{height}" font-family="DejaVu Sans, Verdana, sans-serif">')
        self.parts.append(f"<title>{escape(title)}</title>")
        self.rect(0, 0, width, height, "#ffffff")

    def rect(self, x1, y1, x2, y2, fill, stroke="none", extra=""):
        self.parts.append(f'<rect x="{x1:g}" y="{y1:g}" width="{x2 - x1:g}" height="{y2 - y1:g}" '
                          f'fill="{fill}" stroke="{stroke}" {extra}/>')

    def line(self, x1, y1, x2, y2, colour=INK, width=1.5, dash=""):
        self.parts.append(f'<path d="M{x1:g} {y1:g} L{x2:g} {y2:g}" stroke="{colour}" stroke-width="{width}" '
                          f'stroke-dasharray="{dash}" fill="none"/>')

    def head(self, x, y, dx, dy, colour, long=10):
        """The head of an arrow: its tip at x, y, its direction dx, dy of length 1."""
        bx, by, half = x - long * dx, y - long * dy, long * 0.45
        self.parts.append(f'<path d="M{x:g} {y:g} L{bx - half * dy:.1f} {by + half * dx:.1f} '
                          f'L{bx + half * dy:.1f} {by - half * dx:.1f} Z" fill="{colour}"/>')

    def text(self, x, y, words, size=14, anchor="middle", colour=INK, bold=False):
        """Words whose middle has the height y."""
        width = len(words) * size * (0.66 if bold else 0.6)
        left = x - {"start": 0, "middle": width / 2, "end": width}[anchor]
        self.boxes.append((left, y - size / 2, left + width, y + size / 2, words))
        weight = ' font-weight="bold"' if bold else ""
        self.parts.append(f'<text x="{x:g}" y="{y + size * 0.36:g}" font-size="{size}" text-anchor="{anchor}" '
                          f'fill="{colour}"{weight}>{escape(words)}</text>')

    def crowded(self):
        """The labels that overlap another one or leave the picture."""
        for i, (x1, y1, x2, y2, words) in enumerate(self.boxes):
            if x1 < 0 or y1 < 0 or x2 > self.size[0] or y2 > self.size[1]:
                yield words
            for a1, b1, a2, b2, other in self.boxes[:i]:
                if x1 < a2 and a1 < x2 and y1 < b2 and b1 < y2:
                    yield f"{words} / {other}"

    def save(self, name):
        crowd = list(self.crowded())
        if crowd:
            sys.exit(f"{name}: labels overlap or leave the picture: {crowd}")
        with open(os.path.join(FIGURES, name), "w", encoding="utf-8") as file:
            file.write("\n".join(self.parts + ["</svg>", ""]))


def draw_legend(pic, x, y):
    names = ((ACTIVE, "active"), (POLY, "poly"), (METAL1, "metal1"), (METAL2, "metal2"), (CONTACT, "contact"), (VIA, "via"))
    for at, (layer, words) in enumerate(names):
        pic.rect(x, y + 22 * at, x + 16, y + 12 + 22 * at, COLOURS[layer])
        pic.text(x + 24, y + 6 + 22 * at, words, 13, "start")


# ---------------------------------------------------------------- rows and graphs

def draw_row(pic, row, x, y, step=52):
    """The two rows with their nets; the P row's upper edge at y, line 0 at x."""
    edge = {"p": y, "n": y + 104}
    for name, words in (("p", "P"), ("n", "N")):
        pic.text(x - 44, edge[name] + 28, words, 16, bold=True)
    for column in row:
        for name, one in (("p", column.p), ("n", column.n)):
            if one:
                left, right = x + column.line * step - 24, x + (column.line + 2) * step + 24
                pic.rect(left, edge[name], right, edge[name] + 56, COLOURS[ACTIVE])
    for column in row:
        middle = x + (column.line + 1) * step
        pic.rect(middle - 6, y - 12, middle + 6, y + 172, COLOURS[POLY])
        pic.text(middle, y - 24, column.gate, colour=COLOURS[POLY])
    for (name, line), net in nodes_of(row).items():
        pic.text(x + line * step, edge[name] + 28, net)
    for before, column in zip(row, row[1:]):
        if column.line - before.line == 4:
            pic.text(x + (before.line + 3) * step, y + 80, "gap", colour=ORANGE, bold=True)


def trail_numbers(row):
    """The number of the trail of each column: a gap begins a new one."""
    numbers, number = [], 1
    for before, column in zip([None] + row, row):
        if before and column.line - before.line == 4:
            number += 1
        numbers.append(number)
    return numbers


def draw_edge(pic, start, end, words, bend, colour):
    """A bent edge with a head in its middle; bend is how far its middle lies left of the straight one."""
    (x1, y1), (x2, y2) = start, end
    far = ((x2 - x1) ** 2 + (y2 - y1) ** 2) ** 0.5
    dx, dy = (x2 - x1) / far, (y2 - y1) / far
    mx, my = (x1 + x2) / 2 + bend * dy, (y1 + y2) / 2 - bend * dx
    cx, cy = 2 * mx - (x1 + x2) / 2, 2 * my - (y1 + y2) / 2
    pic.parts.append(f'<path d="M{x1:g} {y1:g} Q{cx:.1f} {cy:.1f} {x2:g} {y2:g}" '
                     f'stroke="{colour}" stroke-width="2" fill="none"/>')
    pic.head(mx + 5 * dx, my + 5 * dy, dx, dy, colour)
    side = 16 if bend >= 0 else -16
    pic.text(mx + side * dy, my - side * dx, words, colour=colour)


def draw_nets(pic, spots, marked):
    for net, (x, y) in spots.items():
        fill = "#ffe0b2" if net in marked else "#ffffff"
        pic.parts.append(f'<circle cx="{x}" cy="{y}" r="20" fill="{fill}" stroke="{INK}" stroke-width="1.5"/>')
        pic.text(x, y, net, 13)


def odd_nets(fingers):
    ends = Counter(net for one in fingers for net in (one.left, one.right))
    return {net: count for net, count in ends.items() if count % 2 == 1}


def draw_nand2():
    row = row_of(say("plan", "-", os.path.join(EXAMPLES, "nand2.sp"), "nand2"))
    pic = Picture(720, 300, "The two graphs of a NAND2 with their trail, and its row")
    spots = {"p": {"y": (90, 90), "vdd": (290, 90)}, "n": {"y": (60, 230), "n1": (190, 230), "gnd": (320, 230)}}
    bends = {"p": 28, "n": 0}
    for name in "pn":
        for at, column in enumerate(row):
            one = getattr(column, name)
            draw_edge(pic, spots[name][one.left], spots[name][one.right], f"{at + 1}: {column.gate}", bends[name], TEAL)
        draw_nets(pic, spots[name], ())
    pic.text(190, 24, "P row: a graph", bold=True)
    pic.text(190, 190, "N row: a graph", bold=True)
    draw_row(pic, row, 460, 80)
    pic.text(564, 24, "the row", bold=True)
    pic.text(564, 276, "trails: " + trail_words(row, "p") + " and " + trail_words(row, "n"), 12)
    pic.save("nand2.svg")


def trail_words(row, name):
    """The trail of columns without a gap: nets, and the gates between them."""
    fingers = [getattr(column, name) for column in row]
    return " ".join([fingers[0].left] + [f"{column.gate} {one.right}" for column, one in zip(row, fingers)])


def draw_inverters():
    row = row_of(say("plan", "-", os.path.join(EXAMPLES, "inverters.sp"), "x3"))
    pic = Picture(1040, 560, "The P row of three inverters: four odd nets, two trails; a row with one gap, and one with two")
    spots = {"x": (60, 70), "y": (60, 230), "vdd": (190, 150), "z": (320, 150)}
    colours = {1: TEAL, 2: ORANGE}
    for number, column in zip(trail_numbers(row), row):
        draw_edge(pic, spots[column.p.left], spots[column.p.right], column.gate, 0, colours[number])
    odd = odd_nets([column.p for column in row])
    draw_nets(pic, spots, odd)
    for net, count in odd.items():
        x, y = spots[net]
        pic.text(x, y + 32, "1 end" if count == 1 else f"{count} ends", 12)
    pic.text(190, 24, "P row: a graph with four odd nets", bold=True)
    for number in (1, 2):
        part = [column for column, n in zip(row, trail_numbers(row)) if n == number]
        pic.text(190, 270 + 22 * number - 22, f"trail {number}: " + trail_words(part, "p"), colour=colours[number])
    draw_row(pic, row, 450, 80)
    pic.text(658, 24, "a least row: one gap", bold=True)
    draw_row(pic, unflipped(), 450, 350)
    pic.text(710, 294, "not least: two gaps", bold=True)
    pic.save("inverters.svg")


def unflipped():
    """The row of the three inverters in the order a, b, c with no finger flipped."""
    return row_of([f"column {at} gate {gate} p {net} vdd 20 n {net} gnd 10".split() for at, (gate, net) in enumerate(("ax", "by", "cz"))])


# ---------------------------------------------------------------- the tree of a log

State = namedtuple("State", "left ends")                   # gates left, nets of the two open ends
Branch = namedtuple("Branch", "move cost state")


def walk(row):
    """The states along a row of full columns, each with the column that leads to it."""
    branches = [Branch("start", 0, State([c.gate for c in row], None))]
    for column in row:
        before = branches[-1].state
        branches.append(branch(before, column.gate, (column.p.left, column.p.right), (column.n.left, column.n.right)))
    return branches


def branch(before, gate, p, n):
    cost = int(before.ends is not None and before.ends != (p[0], n[0]))
    left = [g for g in before.left if g != gate]
    return Branch(f"{gate}: P {p[0]}→{p[1]}, N {n[0]}→{n[1]}", cost, State(left, (p[1], n[1])))


def lemmas_of(cell, pins):
    """(line of the log, bound, state) for each lemma; the kinds are the gates in order."""
    gates, found = sorted(column.gate for column in cell.row), []
    for number, text in enumerate(cell.log, 1):
        if text.startswith("lemma"):
            _, bound, _, counts, _, p, n = text.split()
            left = [gate for gate, count in zip(gates, counts.split(",")) if count == "1"]
            found.append((number, int(bound), State(left, None if p == "-" else (pins[int(p)], pins[int(n)]))))
    return found


def draw_state(pic, x, y, one, lemma, path):
    """A box with the column that leads to a state, the state and its lemma."""
    ends = "none" if one.state.ends is None else "P {}, N {}".format(*one.state.ends)
    cost = "" if one.state.ends is None else f", costs {one.cost}"
    words = [one.move + cost, "gates left: " + (" ".join(one.state.left) or "none"), "open ends: " + ends]
    if lemma:
        words.append("line {}: {} gap more at least".format(*lemma))
    fill, colour = ("#e0f2f1", TEAL) if path else ("#fff3e0", ORANGE)
    pic.rect(x - 103, y, x + 103, y + 12 + 20 * len(words), fill, colour, 'rx="6" stroke-width="1.5"')
    for at, text in enumerate(words):
        pic.text(x, y + 15 + 20 * at, text, 12, bold=at == 0)


def draw_ring():
    path = os.path.join(FIGURES, "ring.sp")
    cell = made(path, "ring")
    with open(path, encoding="ascii") as file:
        pins = next(line for line in file if line.startswith(".SUBCKT")).split()[2:]
    states, lemmas = walk(cell.row), lemmas_of(cell, pins)
    known = {(tuple(state.left), state.ends): (number, bound) for number, bound, state in lemmas}
    pic = Picture(900, 600, "The log of the cell ring as a tree of states")
    fan = [branch(states[1].state, "b", p, n) for p in (("x", "y"), ("y", "x")) for n in (("x", "y"), ("y", "x"))]
    assert fan[3] == states[2]
    spots = [(450, 12), (450, 130)] + [(789, y) for y in (260, 366, 472)]
    leaves = [(111 + 226 * at, 260) for at in range(4)]
    for x, y in leaves:
        pic.line(450, 200, x, y)
    for (x1, y1), (x2, y2) in ((spots[0], spots[1]), *zip(spots[2:], spots[3:])):
        pic.line(x1, y1 + 70, x2, y2)
    for one, (x, y) in zip(states, spots):
        draw_state(pic, x, y, one, known.get((tuple(one.state.left), one.state.ends)), True)
    for one, (x, y) in zip(fan[:3], leaves):
        number, bound = known[tuple(one.state.left), one.state.ends]
        draw_state(pic, x, y, one, (number, bound), False)
        pic.text(x, y + 110, f"{one.cost} + {bound} = {one.cost + bound}: given up", colour=ORANGE)
    pic.text(789, 566, "all placed: 1 gap", colour=TEAL, bold=True)
    pic.save("ring.svg")


# ---------------------------------------------------------------- nodes, choices and ends

def read_fingers(path, cell):
    with open(path, encoding="ascii") as file:
        return fingers_of(file.read(), cell)


def node_name(nets, node):
    return f"{nets[node[0]]}.{nets[node[1]]}"


def draw_choice(pic, start, end, words, chosen):
    """A choice of a gate as an edge; the label stands beside its first third."""
    (x1, y1), (x2, y2) = start, end
    colour, width, dash = (TEAL, 2.5, "") if chosen else ("#888888", 1.5, "5 4")
    pic.line(x1, y1, x2, y2, colour, width, dash)
    far = ((x2 - x1) ** 2 + (y2 - y1) ** 2) ** 0.5
    dx, dy = (x2 - x1) / far, (y2 - y1) / far
    if chosen:
        pic.head(x1 + 0.7 * far * dx, y1 + 0.7 * far * dy, dx, dy, colour)
    pic.text(x1 + 0.33 * far * dx - 12, y1 + 0.33 * far * dy, words, 13, "end", colour)


def draw_nodes(pic, spots, marked):
    for name, (x, y) in spots.items():
        fill = "#ffe0b2" if name in marked else "#ffffff"
        pic.parts.append(f'<ellipse cx="{x}" cy="{y}" rx="38" ry="17" fill="{fill}" stroke="{INK}" stroke-width="1.5"/>')
        pic.text(x, y, name, 13)


def draw_pairs():
    """The one graph of a NAND2: the two choices of each gate, and those of its row."""
    path = os.path.join(EXAMPLES, "nand2.sp")
    row, fingers = row_of(say("plan", "-", path, "nand2")), read_fingers(path, "nand2")
    pic = Picture(860, 330, "The NAND2 as one graph on pairs of nets, with two choices for each gate, and its row")
    spots = {f"{p}.{n}": (70 + 170 * x, 90 + 130 * y) for y, p in enumerate(("y", "vdd")) for x, n in enumerate(("y", "n1", "gnd"))}
    ends = [(f"{column.p.left}.{column.n.left}", f"{column.p.right}.{column.n.right}") for column in row]
    for gate in columns_on(fingers):
        for one, in choices_of(fingers, gate):
            start, end = sorted((node_name(fingers.nets, node) for node in one), key=lambda name: spots[name][1])
            chosen = next((pair for pair in ends if set(pair) == {start, end}), None)
            draw_choice(pic, *(spots[name] for name in chosen or (start, end)), fingers.nets[gate], chosen is not None)
    draw_nodes(pic, spots, (ends[0][0], ends[-1][1]))
    pic.text(240, 24, "the graph on pairs of nets: P net, N net", bold=True)
    pic.text(240, 290, "trail: " + " ".join([ends[0][0]] + [f"{column.gate} {end}" for column, (_, end) in zip(row, ends)]), colour=TEAL)
    draw_row(pic, row, 600, 80)
    pic.text(704, 24, "the row", bold=True)
    for at, name in enumerate([ends[0][0]] + [end for _, end in ends]):
        pic.text(600 + 104 * at, 270, name, 13, colour=TEAL)
    pic.save("pairs.svg")


def draw_open(pic, x, y, nets, title, state, lemma):
    """A box with what the gates done leave open, and the lemma that speaks of it."""
    odd = ", ".join(node_name(nets, node) for node in sorted(state.odd))
    classes = ", ".join(" + ".join(node_name(nets, node) for node in sorted(nodes)) for nodes, _ in state.classes)
    words = [title, f"odd: {odd}" if odd else "nothing is open"] + ([f"class: {classes}"] if classes else [])
    words += ["line {}: {} ends more at least".format(*lemma)] if lemma else []
    pic.rect(x - 110, y, x + 110, y + 12 + 20 * len(words), "#e0f2f1", TEAL, 'rx="6" stroke-width="1.5"')
    for at, text in enumerate(words):
        pic.text(x, y + 15 + 20 * at, text, 12, bold=at == 0)
    return y + 12 + 20 * len(words)


def draw_ends():
    """What the choices of the cell ring leave open, gate by gate, with the ends that are certain then."""
    fingers = read_fingers(os.path.join(FIGURES, "ring.sp"), "ring")
    order, nets = list(columns_on(fingers)), fingers.nets
    levels = Levels(fingers, order)
    lines = {(lemma.done, lemma.state): (5 + at, lemma.bound) for at, lemma in enumerate(levels.lemmas())}
    pic = Picture(900, 690, "What the choices of the cell ring leave open, and the ends that are certain")
    here = {START: 450}
    for done in range(len(order) + 1):
        arrows = {}
        title = "no gate done" if done == 0 else "done: " + " ".join(nets[gate] for gate in order[:done])
        for state, x in here.items():
            y = draw_open(pic, x, 12 + 150 * done, nets, title, state, lines.get((done, state)))
            for choice in levels.choices[done] if done < len(order) else []:
                behind, ends = after(levels.later[done], state, choice)
                arrows.setdefault((x, y, behind), []).append(choice_words(nets, order[done], choice, ends))
        here = {behind: 450 if not behind.classes else 230 + 440 * at for at, (_, _, behind) in enumerate(arrows)}
        for (x, y, behind), words in arrows.items():
            draw_arrow(pic, x, y, here[behind], 162 + 150 * done, words)
    pic.save("ends.svg")


def choice_words(nets, gate, choice, ends):
    start, end = (node_name(nets, node) for node in choice[0])
    return f"{nets[gate]}: {start} to {end}, " + (f"{ends} ends" if ends else "no end")


def draw_arrow(pic, x1, y1, x2, y2, choices):
    """An arrow between two boxes with the choices that lead along it, on its outer side."""
    side = 1 if x1 + x2 < 900 else -1
    start, end = (x1, x2 + 30 * side) if x1 == 450 else (x1 + 95 * side, x2 - 70 * side)
    pic.line(start, y1, end, y2, ORANGE)
    pic.head(end, y2, 0, 1, ORANGE, 8)
    for at, words in enumerate(choices):
        if x1 == 450:
            pic.text((start + end) / 2 - 40 * side, (y1 + y2) / 2, words, 12, "end" if side > 0 else "start", ORANGE)
        else:
            pic.text(x1 - 20 * side, y1 + 16 + 18 * at, words, 12, "middle", ORANGE)


# ---------------------------------------------------------------- the channel

STEP, FIRST = 62, 70                                       # the distance of two lines, the place of line 0
P_ROW, N_ROW, TOP_TRACK, TRACK_STEP = (64, 112), (392, 440), 172, 80


def line_x(line):
    return FIRST + STEP * line


def track_y(track):
    return TOP_TRACK + TRACK_STEP * (2 - track)


def draw_rows(pic, row):
    """The diffusion of both rows, its nets and the rails."""
    for name, (y1, y2) in (("p", P_ROW), ("n", N_ROW)):
        for column in row:
            if getattr(column, name):
                pic.rect(line_x(column.line) - 18, y1, line_x(column.line + 2) + 18, y2, COLOURS[ACTIVE])
    right = line_x(row[-1].line + 2) + 18
    for words, y, end in (("vdd", 24, P_ROW[0]), ("gnd", 480, N_ROW[1])):
        for (_, line), net in nodes_of(row).items():
            if net == words:
                pic.line(line_x(line), y, line_x(line), end, COLOURS[METAL1], 8)
        pic.rect(FIRST - 18, y - 10, right, y + 10, COLOURS[METAL1])
        pic.text(FIRST, y, words, 13, colour="#ffffff")


def draw_lines(pic, lines):
    for line in range(lines):
        x = line_x(line)
        pic.line(x, 40, x, 500, PALE, 1, "" if line % 2 == 0 else "3 4")
        pic.text(x, 512, str(line), 13)
    pic.text(line_x(0) - 26, 512, "line", 13, "end")


def draw_branches(pic, row, tracks):
    """The branches of metal2, from the rows to the trunks."""
    for (name, line), net in nodes_of(row).items():
        if net in tracks:
            pic.line(line_x(line), P_ROW[1] if name == "p" else N_ROW[0], line_x(line), track_y(tracks[net]), COLOURS[METAL2], 7)


def draw_marks(pic, row, trunk):
    """The vias and contacts of a trunk, and its name."""
    y, left, right = track_y(trunk.track), line_x(trunk.left), line_x(trunk.right)
    places = {line: VIA for (_, line), net in nodes_of(row).items() if net == trunk.net}
    places.update({column.line + 1: CONTACT for column in row if column.gate == trunk.net})
    for line, layer in places.items():
        pic.rect(line_x(line) - 5, y - 5, line_x(line) + 5, y + 5, COLOURS[layer])
    if trunk.left < trunk.right:
        pic.text(left + STEP / 2, y, trunk.net, colour="#ffffff", bold=True)
    else:
        pic.text(right + 16, y, trunk.net, anchor="start", colour=COLOURS[METAL1], bold=True)


def draw_gates(pic, row, tracks):
    for column in row:
        x = line_x(column.line + 1)
        top = P_ROW[0] - 8 if column.p else track_y(tracks[column.gate])
        bottom = N_ROW[1] + 8 if column.n else track_y(tracks[column.gate])
        pic.rect(x - 4, top, x + 4, bottom, COLOURS[POLY])


def constraints(row, trunks):
    """(upper net, lower net, line) where trunks of two nets meet at a line."""
    nodes, named = nodes_of(row), {trunk.net for trunk in trunks}
    pairs = [(net, nodes.get(("n", line)), line) for (name, line), net in nodes.items() if name == "p"]
    return [(p, n, line) for p, n, line in pairs if p in named and n in named and p != n]


def draw_latch():
    cell = made(os.path.join(EXAMPLES, "latch.sp"), "latch")
    trunks, lines = trunks_of(cell), cell.row[-1].line + 3
    tracks = {trunk.net: trunk.track for trunk in trunks}
    pic = Picture(960, 530, "The channel of the latch: trunks on three tracks, and the one constraint")
    draw_lines(pic, lines)
    draw_rows(pic, cell.row)
    draw_gates(pic, cell.row, tracks)
    for trunk in trunks:
        y = track_y(trunk.track)
        pic.rect(line_x(trunk.left) - 12, y - 11, line_x(trunk.right) + 12, y + 11, COLOURS[METAL1])
    draw_branches(pic, cell.row, tracks)
    for trunk in trunks:
        draw_marks(pic, cell.row, trunk)
    for (name, line), net in nodes_of(cell.row).items():
        y1, y2 = P_ROW if name == "p" else N_ROW
        pic.text(line_x(line), (y1 + y2) / 2, net)
    for track in range(max(tracks.values()) + 1):
        pic.text(line_x(lines - 1) + 34, track_y(track), f"track {track}", 13, "start")
    for upper, lower, line in constraints(cell.row, trunks):
        x, y1, y2 = line_x(line), track_y(tracks[upper]) + 14, track_y(tracks[lower]) - 13
        pic.line(x, y1, x, y2 - 8, ORANGE, 3)
        pic.head(x, y2, 0, 1, ORANGE, 14)
        pic.rect(x - 98, (y1 + y2) / 2 - 10, x - 8, (y1 + y2) / 2 + 10, "#ffffff")
        pic.text(x - 10, (y1 + y2) / 2, f"{upper} above {lower}", 13, "end", ORANGE, True)
    draw_legend(pic, line_x(lines - 1) + 34, 20)
    pic.save("latch.svg")


# ---------------------------------------------------------------- the inverter to scale

SCALE, LEFT, LOW = 5, 330, 690                             # pixels for a unit; where x = 0 and y = 0 stand


def at_x(x):
    return LEFT + SCALE * x


def at_y(y):
    return LOW - SCALE * y


def draw_shapes(pic, cell):
    for layer in (WELL, ACTIVE, POLY, METAL1, METAL2, CONTACT, VIA):
        for kind, x1, y1, x2, y2 in cell.shapes:
            if kind == layer:
                well = 'stroke-dasharray="6 4"' if layer == WELL else 'fill-opacity="0.75"'
                pic.rect(at_x(x1), at_y(y2), at_x(x2), at_y(y1), COLOURS[layer], "#888888" if layer == WELL else "none", well)


def draw_lengths(pic, marks):
    """The lines and the distances between them, under the cell."""
    for line, x in enumerate(marks[1:-1]):
        pic.line(at_x(x), at_y(-4), at_x(x), at_y(126), INK, 1, "2 3")
        pic.text(at_x(x), at_y(128), str(x))
        pic.text(at_x(x), at_y(131.5), f"line {line}", 12)
    for x in (marks[0], marks[-1]):
        pic.line(at_x(x), at_y(-4), at_x(x), at_y(0), INK, 1, "2 3")
    for a, b in zip(marks, marks[1:]):
        pic.line(at_x(a) + 1, at_y(-4), at_x(b) - 1, at_y(-4))
        pic.head(at_x(a), at_y(-4), -1, 0, INK, 7)
        pic.head(at_x(b), at_y(-4), 1, 0, INK, 7)
        pic.text(at_x((a + b) / 2), at_y(-7.5), str(b - a))


def draw_notes(pic, cell, xs):
    """What the parts are, on both sides."""
    width, height = [int(w) for words in cell.report if words[0] == "size" for w in words[1:]]
    column, = cell.row
    track = cell.labels["a"][2]
    p = max(y2 for layer, _, _, _, y2 in cell.shapes if layer == ACTIVE)
    n = min(y1 for layer, _, y1, _, _ in cell.shapes if layer == ACTIVE)
    right = [(height - 8, width, "rail vdd, 16 high"), (p - 10, xs[-1] + 5, f"P finger, {column.p.width} wide"),
             (track, xs[1] + 5, "track 0: trunk of a"), (n + 5, xs[-1] + 5, f"N finger, {column.n.width} wide"),
             (8, width, "rail gnd, 16 high")]
    for y, x, words in right:
        pic.line(at_x(x), at_y(y), at_x(54), at_y(y), INK, 1)
        pic.text(at_x(55), at_y(y), words, 14, "start")
    left = [(track, xs[0] - 4, "track 0: trunk of y"), (track - 12, xs[0] - 4, "branch of metal2"), (p - 6, -10, "well (dashed)")]
    for y, x, words in left:
        pic.line(at_x(x), at_y(y), at_x(-13), at_y(y), INK, 1)
        pic.text(at_x(-14), at_y(y), words, 14, "end")


def draw_inverter():
    cell = made(os.path.join(EXAMPLES, "inv.sp"), "inv")
    width, = [int(words[1]) for words in cell.report if words[0] == "size"]
    xs = line_xs(cell)
    pic = Picture(860, 740, "The inverter to scale, with its lines, its track and its rails")
    draw_shapes(pic, cell)
    draw_lengths(pic, [0, *xs, width])
    draw_notes(pic, cell, xs)
    draw_legend(pic, 30, 40)
    pic.save("inverter.svg")


if __name__ == "__main__":
    if {"-h", "--help"} & set(sys.argv[1:]):
        sys.exit(print(__doc__))
    os.makedirs(FIGURES, exist_ok=True)
    for draw in (draw_nand2, draw_inverters, draw_ring, draw_pairs, draw_ends, draw_latch, draw_inverter):
        draw()
