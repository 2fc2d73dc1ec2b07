"""A folder in which qflow works: its technology from the views of made cells, and one design."""
from __future__ import annotations

from pathlib import Path

from technology import Technology

NAME = "cells"

# Distances are in hundredths of a micron. Rows abut, and each other row is mirrored, so that rails and wells meet.
PAR = """RULES
    layer metal1 0.09 0.032 horizontal
    layer metal2 0.09 0.016 vertical
    layer metal3 0.05 0.010 horizontal
    via via12 metal1 metal2
    via via23 metal2 metal3
    width metal1 {wire}
    width metal2 {wire}
    width metal3 {pad3}
    width via12 {pad}
    width via23 {pad}
    spacing metal1 metal1 {space1}
    spacing metal2 metal2 {space2}
    spacing metal3 metal3 {space3}
    spacing via12 via23 0
    overhang via12 metal1 0
    overhang via12 metal2 0
    overhang via23 metal2 0
    overhang via23 metal3 {over3}
ENDRULES
*vertical_wire_weight : 1.0
*vertical_path_weight : 1.0
*padspacing           : variable
*rowSep               : 0.0   0
*track.pitch          : 0.0
*minimum_pad_space    : 360
*gridX                : {x}
*gridY                : {y}
*gridOffsetX          : 0
*gridOffsetY          : 0
*graphics.wait        : off
*last_chance.wait     : off
*random.seed          : {seed}
TWMC*chip.aspect.ratio : 0.75
TWSC*feedThruWidth    : {x} layer 1
TWSC*do.global.route  : on
TWSC*ignore_feeds     : true
TWSC*call_row_evener  : true
TWSC*even_rows_maximally : true
GENR*row_to_tile_spacing: 1
GENR*flip_alternate_rows : 1
"""


def settings(density: float | None, words: dict[str, str], filler: str) -> str:
    """The settings of the technology, as qflow's scripts read them. No via is over a via (MOSIS 14.4)."""
    files = {"leffile": "lef", "spicefile": "sp", "libertyfile": "lib"}
    lines = [f"set {key}={NAME}.{end}" for key, end in files.items()]
    lines += ['set techleffile=""', f"set magicrc={NAME}.magicrc"]
    lines += [f"set {key}={value}" for key, value in {**words, "fillcell": filler}.items()]
    none = ("decapcell", "antennacell", "antennapin_in", "tiehi", "tiehipin_out", "tielo", "tielopin_out", "separator")
    lines += [f'set {key}=""' for key in none]
    lines += ['set fanout_options="-l 300 -c 75"', 'set addspacers_options=""', 'set via_stacks="none"']
    if density:
        lines.append(f"set initial_density={density}")
    return "\n".join(lines) + "\n"


def parameters(tech: Technology, grid: tuple[int, int], seed: int) -> str:
    """Graywolf's parameters. For it a wire and a spacing together are a pitch of the grid."""
    def hundredths(units: int) -> int:
        return round(units * tech.unit_um * 100)

    x, y = grid
    wire, pad, pad3 = 6, 8, 12
    sizes = {"x": x, "y": y, "wire": wire, "pad": pad, "pad3": pad3, "over3": (pad3 - pad) // 2,
             "space1": y - wire, "space2": x - wire, "space3": y - pad3}
    return PAR.format(seed=seed, **{key: hundredths(units) for key, units in sizes.items()})


def write(folder: Path, design: Path, views: Path) -> None:
    """Lays the folder out: the design, and the technology `cells` in a folder of that name."""
    for part in ("source", "synthesis", "layout", "log", NAME):
        (folder / part).mkdir(parents=True, exist_ok=True)
    (folder / "source" / design.name).write_text(design.read_text())
    for end in ("lib", "sp", "lef"):
        (folder / NAME / f"{NAME}.{end}").write_text(views.with_suffix(f".{end}").read_text())
    (folder / NAME / f"{NAME}.magicrc").write_text("# qflow asks for this file; Magic is called without it\n")


def configure(folder: Path, tech: Technology, grid: tuple[int, int], seed: int, settings_text: str) -> None:
    (folder / NAME / f"{NAME}.sh").write_text(settings_text)
    (folder / NAME / f"{NAME}.par").write_text(parameters(tech, grid, seed))
