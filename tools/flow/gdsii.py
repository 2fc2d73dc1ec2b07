"""GDSII files as far as made cells and blocks need them: rectangles, texts, and references turned by quarters.

Lengths are in database units of a nanometre. A boundary that is no rectangle is refused.
"""
from __future__ import annotations

import struct
from collections.abc import Iterable, Iterator
from dataclasses import dataclass, field
from pathlib import Path
from typing import NamedTuple

HEADER, BGNLIB, LIBNAME, UNITS, ENDLIB, BGNSTR, STRNAME, ENDSTR = 0, 1, 2, 3, 4, 5, 6, 7
BOUNDARY, SREF, TEXT, LAYER, DATATYPE, XY, ENDEL, SNAME = 8, 10, 12, 13, 14, 16, 17, 18
TEXTTYPE, STRING, STRANS, ANGLE = 22, 25, 26, 28
NO_DATA, BITS, SHORT, LONG, REAL, ASCII = 0, 1, 2, 3, 5, 6

# The layers of a made cell, and the two above them that a block has.
LAYERS = {"well": 42, "active": 43, "pselect": 44, "nselect": 45, "poly": 46, "contact": 25, "metal1": 49, "via": 50,
          "metal2": 51, "via2": 61, "metal3": 62}


class Box(NamedTuple):
    """A rectangle by its lower left and its upper right corner."""
    x0: int
    y0: int
    x1: int
    y1: int

    def grown(self, by: int) -> Box:
        return Box(self.x0 - by, self.y0 - by, self.x1 + by, self.y1 + by)

    def moved(self, x: int, y: int) -> Box:
        return Box(self.x0 + x, self.y0 + y, self.x1 + x, self.y1 + y)

    def scaled(self, by: float) -> Box:
        return Box(*(round(at * by) for at in self))

    def overlaps(self, other: Box) -> bool:
        return self.x0 < other.x1 and other.x0 < self.x1 and self.y0 < other.y1 and other.y0 < self.y1

    def touches(self, other: Box) -> bool:
        return self.x0 <= other.x1 and other.x0 <= self.x1 and self.y0 <= other.y1 and other.y0 <= self.y1


class Label(NamedTuple):
    layer: int
    text: str
    x: int
    y: int


class Orientation(NamedTuple):
    """Mirrored at the x axis first, then turned left by quarters."""
    mirrored: bool
    quarters: int

    def box(self, box: Box) -> Box:
        x0, y0, x1, y1 = box
        if self.mirrored:
            y0, y1 = -y1, -y0
        for _ in range(self.quarters):
            x0, y0, x1, y1 = -y1, x0, -y0, x1
        return Box(x0, y0, x1, y1)


class Reference(NamedTuple):
    name: str
    orientation: Orientation
    x: int
    y: int


@dataclass
class Structure:
    """A cell: rectangles by layer, labels, and references to other cells."""
    name: str
    boxes: list[tuple[int, Box]] = field(default_factory=list)
    labels: list[Label] = field(default_factory=list)
    references: list[Reference] = field(default_factory=list)

    def on(self, layer: str) -> list[Box]:
        return [box for number, box in self.boxes if number == LAYERS[layer]]

    def add(self, layer: str, box: Box) -> None:
        self.boxes.append((LAYERS[layer], box))


class Refused(Exception):
    """Why a file is not read."""


def records(data: bytes) -> Iterator[tuple[int, bytes]]:
    at = 0
    while at + 4 <= len(data):
        length, kind = struct.unpack_from(">HB", data, at)
        if length < 4 or at + length > len(data):
            raise Refused(f"a record at {at} is not whole")
        yield kind, data[at + 4:at + length]
        at += length
        if kind == ENDLIB:
            return
    raise Refused("the library has no end")


def text_of(data: bytes) -> str:
    return data.rstrip(b"\0").decode("ascii")


def real_of(data: bytes) -> float:
    """An eight-byte real: sign, power of 16 above 64, and a fraction."""
    sign = -1 if data[0] & 128 else 1
    return sign * int.from_bytes(data[1:8], "big") / 2 ** 56 * 16.0 ** ((data[0] & 127) - 64)


def real(value: float) -> bytes:
    power = 64
    while value < 1 / 16:
        value, power = value * 16, power - 1
    while value >= 1:
        value, power = value / 16, power + 1
    return bytes([power]) + round(value * 2 ** 56).to_bytes(7, "big")


@dataclass
class Element:
    """What the records of an element tell."""
    kind: int
    layer: int = 0
    text: str = ""
    points: tuple[int, ...] = ()
    mirrored: bool = False
    angle: float = 0.0

    def take(self, kind: int, data: bytes) -> None:
        if kind == LAYER:
            self.layer = struct.unpack(">h", data)[0]
        elif kind == XY:
            self.points = struct.unpack(f">{len(data) // 4}i", data)
        elif kind in (STRING, SNAME):
            self.text = text_of(data)
        elif kind == STRANS:
            self.mirrored = bool(data[0] & 128)
        elif kind == ANGLE:
            self.angle = real_of(data)

    def put_into(self, structure: Structure) -> None:
        if self.kind == BOUNDARY:
            corners = list(zip(self.points[::2], self.points[1::2]))
            xs, ys = {x for x, _ in corners}, {y for _, y in corners}
            if len(corners) != 5 or len(xs) != 2 or len(ys) != 2:
                raise Refused(f"{structure.name}: a boundary is no rectangle")
            structure.boxes.append((self.layer, Box(min(xs), min(ys), max(xs), max(ys))))
        elif self.kind == TEXT:
            structure.labels.append(Label(self.layer, self.text, *self.points))
        elif self.kind == SREF:
            turned = Orientation(self.mirrored, round(self.angle / 90) % 4)
            structure.references.append(Reference(self.text, turned, *self.points))


def read(path: Path) -> dict[str, Structure]:
    """The structures of a file by their names."""
    found: dict[str, Structure] = {}
    structure, element = Structure(""), None
    for kind, data in records(path.read_bytes()):
        if kind == STRNAME:
            structure = Structure(text_of(data))
            found[structure.name] = structure
        elif kind in (BOUNDARY, TEXT, SREF):
            element = Element(kind)
        elif kind == ENDEL and element:
            element.put_into(structure)
            element = None
        elif element:
            element.take(kind, data)
    return found


def record(kind: int, form: int, data: bytes = b"") -> bytes:
    data += b"\0" * (len(data) % 2)
    return struct.pack(">HBB", len(data) + 4, kind, form) + data


def words(*values: int) -> bytes:
    return struct.pack(f">{len(values)}h", *values)


def points(*values: int) -> bytes:
    return record(XY, LONG, struct.pack(f">{len(values)}i", *values))


def on_layer(layer: int, kind: int) -> bytes:
    return record(LAYER, SHORT, words(layer)) + record(kind, SHORT, words(0))


def structure_bytes(structure: Structure) -> Iterator[bytes]:
    yield record(BGNSTR, SHORT, words(*[0] * 12)) + record(STRNAME, ASCII, structure.name.encode())
    for layer, (x0, y0, x1, y1) in structure.boxes:
        yield record(BOUNDARY, NO_DATA) + on_layer(layer, DATATYPE)
        yield points(x0, y0, x1, y0, x1, y1, x0, y1, x0, y0) + record(ENDEL, NO_DATA)
    for label in structure.labels:
        yield record(TEXT, NO_DATA) + on_layer(label.layer, TEXTTYPE) + points(label.x, label.y)
        yield record(STRING, ASCII, label.text.encode()) + record(ENDEL, NO_DATA)
    for reference in structure.references:
        yield record(SREF, NO_DATA) + record(SNAME, ASCII, reference.name.encode())
        yield record(STRANS, BITS, bytes([128 if reference.orientation.mirrored else 0, 0]))
        if reference.orientation.quarters:
            yield record(ANGLE, REAL, real(90.0 * reference.orientation.quarters))
        yield points(reference.x, reference.y) + record(ENDEL, NO_DATA)
    yield record(ENDSTR, NO_DATA)


def write(path: Path, structures: Iterable[Structure]) -> None:
    """Writes a library of these structures, lower ones first."""
    head = record(HEADER, SHORT, words(600)) + record(BGNLIB, SHORT, words(*[0] * 12))
    head += record(LIBNAME, ASCII, b"cells") + record(UNITS, REAL, real(0.001) + real(1e-9))
    body = b"".join(part for structure in structures for part in structure_bytes(structure))
    path.write_bytes(head + body + record(ENDLIB, NO_DATA))


def flat(structures: dict[str, Structure], name: str) -> Structure:
    """A structure with all rectangles of what it refers to; of labels its own alone."""
    top = structures[name]
    whole = Structure(name, list(top.boxes), list(top.labels))
    for reference in top.references:
        for layer, box in flat(structures, reference.name).boxes:
            whole.boxes.append((layer, reference.orientation.box(box).moved(reference.x, reference.y)))
    return whole
