#!/usr/bin/env python3
"""Draws the figures of section 8 of docs/COURSE.md, the lowest of the least rows, as SVG files in docs/figures/:

    python3 docs/lowest.py [PROGRAM [WORD ..]]

PROGRAM, ./cellgen where none is given, plans the first row; WORDs come before those of each call. The lowest row and its
tracks are those of benchmarks/tracks/lowest, the lemmas those of docs/figures/oai21.ctrack and docs/figures/tgmux.ctrack.
Python 3.8, nothing else.
"""
import importlib.machinery
import os
import sys

import figures
from figures import COLOURS, EXAMPLES, FIGURES, INK, METAL1, ORANGE, PALE, POLY, TEAL, Picture

ACTIVE = COLOURS[figures.ACTIVE]
STEP, LEFT, TRACK = 46, 70, 24                             # between lines, the place of line 0, between tracks
MUX2, PINS, RAILS = os.path.join(EXAMPLES, "mux2.sp"), {"a", "b", "s", "y"}, {"vdd", "gnd"}

sys.dont_write_bytecode = True
LISTER = os.path.join(figures.DOCS, "..", "benchmarks", "tracks", "lowest")
lister = importlib.machinery.SourceFileLoader("lister", LISTER).load_module()


class Nets:
    """What a row's trunks depend on."""
    pins, rails = PINS, RAILS


class Channel:
    """A row on its lines, with the trunks of its nets."""

    def __init__(self, report):
        row = []
        for words in report:
            if words[0] == "column":
                at = words.index("n", 6)
                row.append((words[3], tuple(None if it[0] == "-" else tuple(it) for it in (words[5:7], words[at + 1:at + 3]))))
        self.lines = lister.drawn.lines_of(row)
        self.trunks = lister.drawn.trunks_of(Nets, self.lines)
        self.tracks = {words[1]: int(words[3]) for words in report if words[0] == "net"}
        if not self.tracks:
            tight = lister.drawn.tight(self.lines, self.trunks, False)
            self.tracks = {net: track for (_, _, net), track in tight.items()}

    def count(self):
        return max(self.tracks.values()) + 1

    def at(self, line):
        """The nets whose trunks hold a line."""
        return [net for net, (first, last) in self.trunks.items() if first <= line <= last]


def x_of(line):
    return LEFT + STEP * line


def draw_strips(pic, channel, top, bottom):
    """The diffusion of both rows with its nets, and the poly of the gates."""
    for at, (p, n, gate, _) in enumerate(channel.lines):
        if gate:
            for edge, row in ((top, 0), (bottom, 1)):
                if channel.lines[at - 1][row] and channel.lines[at + 1][row]:
                    pic.rect(x_of(at - 1) - 16, edge, x_of(at + 1) + 16, edge + 26, ACTIVE)
    for at, (p, n, gate, _) in enumerate(channel.lines):
        if gate:
            pic.rect(x_of(at) - 4, top - 6, x_of(at) + 4, bottom + 32, COLOURS[POLY])
            pic.text(x_of(at), top - 16, gate, 13, colour=COLOURS[POLY])
        for edge, net in ((top, p), (bottom, n)):
            if net:
                pic.text(x_of(at), edge + 13, net, 13)


def draw_trunks(pic, channel, top):
    """The trunks on their tracks, track 0 below."""
    for net, (first, last) in channel.trunks.items():
        y = top + TRACK * (channel.count() - 1 - channel.tracks[net])
        pic.rect(x_of(first) - 9, y - 9, x_of(last) + 9, y + 9, COLOURS[METAL1])
        wide = first < last
        pic.text(x_of(first) + (STEP / 2 if wide else 0), y, net, 12, colour="#ffffff", bold=True)
    for track in range(channel.count()):
        y = top + TRACK * (channel.count() - 1 - track)
        pic.text(x_of(len(channel.lines) - 1) + 24, y, f"track {track}", 12, "start")


def draw_counts(pic, channel, y):
    """The numbers of the lines, and how many trunks hold each."""
    most = max(len(channel.at(line)) for line in range(len(channel.lines)))
    for words, edge in (("line", y), ("trunks", y + 22)):
        pic.text(LEFT - 24, edge, words, 12, "end")
    for line in range(len(channel.lines)):
        held = len(channel.at(line))
        pic.text(x_of(line), y, str(line), 12)
        pic.text(x_of(line), y + 22, str(held), 13, colour=ORANGE if held == most else INK, bold=held == most)


def draw_channel(pic, channel, y, words):
    """A panel of the figure; the height where it ends."""
    top = y + 50
    first = top + 26 + TRACK
    bottom = first + TRACK * channel.count()
    for line in range(len(channel.lines)):
        pic.line(x_of(line), top, x_of(line), bottom + 26, PALE, 1, "" if line % 2 == 0 else "3 4")
    pic.text(x_of((len(channel.lines) - 1) / 2), y + 10, words, 14, bold=True)
    for edge, name in ((top, "P"), (bottom, "N")):
        pic.text(LEFT - 40, edge + 13, name, 14, bold=True)
    draw_strips(pic, channel, top, bottom)
    draw_trunks(pic, channel, first)
    draw_counts(pic, channel, bottom + 50)
    return bottom + 90


def draw_crossings():
    """The first least row of the multiplexer and its lowest one, with the trunks line by line."""
    first = Channel(figures.say("plan", "-", MUX2, "mux2"))
    lowest = Channel([line.split() for line in lister.report(MUX2, "mux2")])
    pic = Picture(860, 625, "Two least rows of a multiplexer, and how many trunks hold each of their lines")
    y = draw_channel(pic, first, 8, f"the first row: {first.count()} tracks")
    draw_channel(pic, lowest, y, f"the lowest row: {lowest.count()} tracks")
    pic.save("crossings.svg")


WAYS = (                                                   # first columns of the OAI21, and the lines that refute them
    ("a: P vdd→p1, N n1→y", "n1 is open, on any track", 5, "b"),
    ("c: P y→vdd, N gnd→n1", "y is open, on any track", 6, "a"),
    ("c: P vdd→y, N gnd→n1", "no net is open", 7, "b"),
)


def draw_box(pic, x, y, words, colour, fill):
    pic.rect(x - 125, y, x + 125, y + 14 + 20 * len(words), fill, colour, 'rx="6" stroke-width="1.5"')
    for at, text in enumerate(words):
        pic.text(x, y + 17 + 20 * at, text, 12, bold=at == 0)


def lemmas_of(name):
    """The lines of the lemmas of a certificate."""
    with open(os.path.join(FIGURES, name), encoding="ascii") as file:
        return file.read().split("\n")[4:-2]


def draw_refuted():
    """The certificate of the OAI21 as a tree: which first columns go on, and why each stops."""
    words = [line.split()[0] for line in lemmas_of("oai21.ctrack")]
    assert words == ["lemma"] * 4, "the certificate has another number of lemmas"
    pic = Picture(860, 290, "The certificate of tracks of the OAI21 as a tree")
    draw_box(pic, 430, 10, ["line 8: all rows", "gates left: a b c, no gap, 2 tracks", "9 first columns end at once"],
             TEAL, "#e0f2f1")
    for at, (move, tracks, number, gate) in enumerate(WAYS):
        x = 150 + 280 * at
        pic.line(430, 84, x, 126, ORANGE)
        pic.head(x, 128, 0, 1, ORANGE, 8)
        draw_box(pic, x, 130, [f"line {number}: {move}", tracks, f"{gate} has to be next"], ORANGE, "#fff3e0")
        pic.text(x, 226, f"gate line of {gate}:", 13)
        pic.text(x, 248, f"{gate}, n1 and y: 3 trunks", 13, colour=ORANGE, bold=True)
        pic.text(x, 270, "on 2 tracks: refuted", 13)
    pic.save("refuted.svg")


MUX = (("b", "a"), ("y", "y"), ("a", "b")), ("s", "sn")        # a row of tgmux: its nets line by line, and its gates


def draw_two_orders(pic, top, bottom):
    """The row of tgmux, with the trunks of a and b in one of their two orders, and the line where it is wrong."""
    nodes, gates = MUX
    heights = {"b": top + 70, "a": top + 115}
    for at, gate in enumerate(gates):
        for edge in (top, bottom):
            pic.rect(x_of(4 * at) - 16, edge, x_of(4 * at + 4) + 16, edge + 26, ACTIVE)
        pic.rect(x_of(4 * at + 2) - 4, top - 6, x_of(4 * at + 2) + 4, bottom + 32, COLOURS[POLY])
        pic.text(x_of(4 * at + 2), top - 16, gate, 13, colour=COLOURS[POLY])
    for net, y in heights.items():
        pic.rect(x_of(0) - 9, y - 9, x_of(8) + 9, y + 9, COLOURS[METAL1])
        pic.text(x_of(4), y, net, 12, colour="#ffffff", bold=True)
    for at, (p, n) in enumerate(nodes):
        for net, edge, end in ((p, top, top + 26), (n, bottom, bottom)):
            pic.text(x_of(4 * at), edge + 13, net, 13)
            if net in heights:
                pic.line(x_of(4 * at), end, x_of(4 * at), heights[net], ORANGE if at else TEAL, 5)
        pic.text(x_of(4 * at), bottom + 52, str(2 * at), 12)
    pic.text(x_of(0) - 24, bottom + 52, "line", 12, "end")
    pic.text(x_of(0), bottom + 76, "b above a", 13, colour=TEAL, bold=True)
    pic.text(x_of(8), bottom + 76, "a above b", 13, colour=ORANGE, bold=True)


def draw_cyclic():
    """A row of tgmux whose trunks have no order, and its certificate as a tree."""
    asked = [line.split()[-1] for line in lemmas_of("tgmux.ctrack")]
    assert asked == ["1>0", "1>0", "0>1", "0>1", "-"], "the certificate has other lemmas"
    pic = Picture(1050, 330, "A row of tgmux, whose trunks have no order, and its certificate by lemmas on cycles")
    draw_two_orders(pic, 50, 220)
    draw_box(pic, 780, 10, ["line 9: all rows", "asks for nothing", "6 first columns need a gap"], TEAL, "#e0f2f1")
    for x, gate, other, asks, closes in ((645, "s", "sn", "b above a", "a above b"), (915, "sn", "s", "a above b", "b above a")):
        number = 6 if gate == "s" else 8
        pic.line(780, 84, x, 128, ORANGE)
        pic.head(x, 130, 0, 1, ORANGE, 8)
        side = -1 if x < 780 else 1
        pic.text(780 + side * 112, 102, f"{gate}: {asks}", 12, "end" if side < 0 else "start")
        draw_box(pic, x, 132, [f"line {number}: {gate} is placed", f"asks for {asks}", f"{other} has to be next"], ORANGE, "#fff3e0")
        pic.line(x, 206, x, 242, ORANGE)
        pic.head(x, 244, 0, 1, ORANGE, 8)
        draw_box(pic, x, 246, [f"line {number - 1}: all is placed", f"asks for {asks}", f"last line: {closes}"], ORANGE, "#fff3e0")
    pic.save("cyclic.svg")


if __name__ == "__main__":
    if {"-h", "--help"} & set(sys.argv[1:]):
        sys.exit(print(__doc__))
    draw_crossings()
    draw_refuted()
    draw_cyclic()
