#!/usr/bin/env python3
"""Draws the figures of docs/LESSON.md as SVG files in docs/figures/, from what the program says:

    python3 docs/lesson.py [PROGRAM [WORD ..]]

PROGRAM is ./cellgen where none is given; WORDs come before those of each call. Python 3.8, nothing else.
"""
import os
import sys
import tempfile

import figures
from figures import COLOURS, EXAMPLES, FIGURES, METAL1, METAL2, ORANGE, TEAL, VIA, Cell, Picture

AOI22 = os.path.join(EXAMPLES, "aoi22.sp")
LOG = os.path.join(FIGURES, "aoi22.clog")
SPOTS = {"p": {"y": (60, 110), "p": (200, 110), "vdd": (340, 110)},
         "n": {"y": (60, 290), "n1": (200, 230), "n2": (200, 350), "gnd": (340, 290)}}
BENDS = {"p": 26, "n": 0}


def by_hand():
    """The AOI22 with the row that the lesson finds by hand."""
    with tempfile.TemporaryDirectory() as folder:
        out = os.path.join(folder, "hand")
        report = figures.say("make", "-", AOI22, "aoi22", out, "--from", LOG)
        with open(out + ".gds", "rb") as gds:
            shapes, labels = figures.read_gds(gds.read())
    return Cell(figures.row_of(report), report, [], shapes, labels)


def draw_graphs(cell):
    """The two dual graphs with their common trail."""
    pic = Picture(420, 430, "The two graphs of y = not (a b + c d), with a trail that both have")
    for name in "pn":
        for at, column in enumerate(cell.row):
            one, spots = getattr(column, name), SPOTS[name]
            figures.draw_edge(pic, spots[one.left], spots[one.right], f"{at + 1}: {column.gate}", BENDS[name], TEAL)
        figures.draw_nets(pic, SPOTS[name], ())
    pic.text(200, 24, "P graph: (a, b parallel), then (c, d parallel)", 13, bold=True)
    pic.text(200, 186, "N graph: (a, b in series) beside (c, d)", 13, bold=True)
    pic.text(200, 400, "both: a b d c", colour=TEAL, bold=True)
    pic.save("lesson-graphs.svg")


def draw_sticks(cell):
    """The stick diagram of the row, with its channel."""
    trunks, lines = figures.trunks_of(cell), cell.row[-1].line + 3
    tracks = {trunk.net: trunk.track for trunk in trunks}
    pic = Picture(740, 530, "The stick diagram: two rows, trunks on three tracks over the lines")
    figures.draw_lines(pic, lines)
    figures.draw_rows(pic, cell.row)
    figures.draw_gates(pic, cell.row, tracks)
    for trunk in trunks:
        y = figures.track_y(trunk.track)
        left, right = figures.line_x(trunk.left), figures.line_x(trunk.right)
        pic.rect(left - 12, y - 11, right + 12, y + 11, COLOURS[METAL1])
    figures.draw_branches(pic, cell.row, tracks)
    for trunk in trunks:
        figures.draw_marks(pic, cell.row, trunk)
    for (name, line), net in figures.nodes_of(cell.row).items():
        edges = figures.P_ROW if name == "p" else figures.N_ROW
        pic.text(figures.line_x(line), sum(edges) / 2, net)
    for track in range(max(tracks.values()) + 1):
        pic.text(figures.line_x(lines - 1) + 34, figures.track_y(track), f"track {track}", 13, "start")
    figures.draw_legend(pic, figures.line_x(lines - 1) + 34, 20)
    pic.save("lesson-sticks.svg")


def draw_trunk(pic, left, right, y, words, colour):
    pic.rect(left - 10, y - 10, right + 10, y + 10, colour)
    pic.text((left + right) / 2 + 22, y, words, 13, colour="#ffffff", bold=True)


def draw_ends(pic, x, high, low):
    """The branches at a line: one comes from the P row above, one from the N row below."""
    pic.line(x, 60, x, high, COLOURS[METAL2], 6)
    pic.line(x, 290, x, low, COLOURS[METAL2], 6)
    for y in (high, low):
        pic.rect(x - 4, y - 4, x + 4, y + 4, COLOURS[VIA])


def draw_cycle():
    """The cycle of the tri-state inverter, and the dogleg that undoes it."""
    pic = Picture(860, 350, "A cycle of two nets on whole tracks, and the dogleg that undoes it")
    one, two = COLOURS[METAL1], TEAL
    pic.text(200, 20, "on whole tracks: no place for y at line 14", bold=True)
    pic.text(640, 20, "y changes its track at line 10", bold=True)
    for left in (100, 540):
        for at, line in enumerate((6, 10, 14)):
            pic.line(left + 100 * at, 40, left + 100 * at, 310, figures.PALE, 1)
            pic.text(left + 100 * at, 326, f"line {line}", 12)
    draw_trunk(pic, 100, 300, 130, "y", one)
    draw_trunk(pic, 100, 300, 200, "enb", two)
    draw_ends(pic, 100, 130, 200)
    draw_ends(pic, 300, 200, 130)
    pic.text(310, 165, "these two cross", 13, "start", ORANGE, True)
    draw_trunk(pic, 540, 640, 110, "y", one)
    draw_trunk(pic, 540, 740, 170, "enb", two)
    draw_trunk(pic, 640, 740, 230, "y", one)
    draw_ends(pic, 540, 110, 170)
    draw_ends(pic, 740, 170, 230)
    pic.line(640, 110, 640, 230, COLOURS[METAL2], 6)
    for y in (110, 230):
        pic.rect(636, y - 4, 644, y + 4, COLOURS[VIA])
    pic.text(760, 110, "higher track", 12, "start")
    pic.text(760, 230, "lower track", 12, "start")
    pic.save("lesson-cycle.svg")


if __name__ == "__main__":
    if {"-h", "--help"} & set(sys.argv[1:]):
        sys.exit(print(__doc__))
    hand = by_hand()
    draw_graphs(hand)
    draw_sticks(hand)
    draw_cycle()
