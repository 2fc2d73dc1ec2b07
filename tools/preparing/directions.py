"""Directions of pins, from a LEF or a Verilog file. Python 3.8."""
from __future__ import annotations

import re
from pathlib import Path
from typing import Dict

Directions = Dict[str, Dict[str, str]]      # by cell and pin, in lower case: I, O or B
DECLARED = re.compile(r"\b(input|output|inout)\b(.*?)(?=\)\s*;|;|\b(?:input|output|inout)\b)", re.S)
LETTERS = {"input": "I", "output": "O", "inout": "B"}


def of_lef(path: Path) -> Directions:
    found: Directions = {}
    text = path.read_text(encoding="latin-1")
    for name, body in re.findall(r"^\s*MACRO\s+(\S+)(.*?)^\s*END\s+\1\s*$", text, re.S | re.M):
        pins = found.setdefault(name.lower(), {})
        for pin, inside in re.findall(r"^\s*PIN\s+(\S+)(.*?)^\s*END\s+\1\s*$", body, re.S | re.M):
            way = re.search(r"\bDIRECTION\s+(\w+)", inside)
            if way:
                pins[pin.lower()] = LETTERS.get(way.group(1).lower(), "B")
    return found


def of_verilog(path: Path) -> Directions:
    found: Directions = {}
    text = re.sub(r"/\*.*?\*/|//[^\n]*|\(\*.*?\*\)", " ", path.read_text(encoding="latin-1"), flags=re.S)
    for name, body in re.findall(r"\bmodule\s+(\S+?)\s*(?:#\s*\(.*?\)\s*)?\((.*?)\bendmodule\b", text, re.S):
        pins = found.setdefault(name.lower().lstrip("\\"), {})
        for way, listed in DECLARED.findall(body):
            bare = re.sub(r"\[[^]]*\]|\b(?:wire|reg|logic|tri|supply[01]|signed)\b", " ", listed)
            for pin in re.split(r"[\s,]+", bare.strip()):
                if pin:
                    pins[pin.lower().lstrip("\\")] = LETTERS[way]
    return found
