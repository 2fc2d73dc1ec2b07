"""The lines of a SPICE file: comments taken out, those that go on joined, files that are included read. Python 3.8."""
from __future__ import annotations

import re
from pathlib import Path
from typing import Iterator, List, NamedTuple

COMMENT = re.compile(r"(?:^|\s)\$.*|;.*|(?:^|\s)//.*")
INFO = re.compile(r"\*\s*\.pininfo\b", re.IGNORECASE)


class Line(NamedTuple):
    """A line with the place where it begins; `words` in lower case."""
    place: str
    words: List[str]


class Said(NamedTuple):
    """The notes on what was changed or ignored, in their order."""
    lines: List[str]

    def add(self, about: str, text: str) -> None:
        self.lines.append(f"{about}: {text}")


def decoded(path: Path) -> str:
    data = path.read_bytes()
    try:
        return data.decode("utf-8-sig")
    except UnicodeDecodeError:
        return data.decode("latin-1")


def words_of(text: str) -> List[str]:
    """The words of a line: an expression in braces or quotes is one, and so is `key = value`."""
    text = re.sub(r"\{[^}]*\}|'[^']*'|\"[^\"]*\"", lambda found: re.sub(r"\s", "", found.group()), text)
    return re.sub(r"\s*=\s*", "=", text).split()


class Reader:
    """Reads a file and those that it includes, each once."""

    def __init__(self, said: Said) -> None:
        self.said, self.read = said, set()

    def lines(self, path: Path, is_first: bool = True) -> Iterator[Line]:
        self.read.add(path.resolve())
        place, text = "", ""
        for number, raw in enumerate(decoded(path).splitlines(), 1):
            here = f"line {number}" if is_first else f"{path.name} line {number}"
            piece = self.cleaned(raw, here)
            if piece.startswith("+"):
                text += " " + piece[1:]
            elif piece:
                yield from self.finished(path, place, text)
                place, text = here, piece
        yield from self.finished(path, place, text)

    def cleaned(self, raw: str, place: str) -> str:
        """The line without comments; one with the directions of pins stays as it is."""
        bare = raw.strip()
        if INFO.match(bare):
            return bare
        if bare.startswith("*"):
            return ""
        kept = COMMENT.sub("", bare).strip()
        ascii_only = kept.replace("\u00b5", "u").replace("\u03bc", "u")
        if not ascii_only.isascii():
            ascii_only = re.sub(r"[^\x00-\x7f]", "_", ascii_only)
        if ascii_only != kept:
            self.said.add(place, "letters that are not ASCII written as ASCII")
        return ascii_only

    def finished(self, path: Path, place: str, text: str) -> Iterator[Line]:
        if not text:
            return
        words = words_of(text)
        if words[0].lower() in (".include", ".inc"):
            yield from self.included(path, place, words[1:])
        else:
            yield Line(place, [word.lower() for word in words])

    def included(self, path: Path, place: str, words: List[str]) -> Iterator[Line]:
        other = path.parent / " ".join(words).strip("'\"")
        if other.resolve() in self.read:
            return
        if not other.is_file():
            self.said.add(place, f"{other} is not there, ignored")
            return
        self.said.add(place, f"{other} read in its place")
        yield from self.lines(other, False)
