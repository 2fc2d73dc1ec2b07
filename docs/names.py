#!/usr/bin/env python3
"""Checks docs/CHANGING.md: each path is in the crate whose name in bold comes before it, or at the top, names and
numbers in parentheses are in the file before them, all other names in some crate. Run it anywhere; its status is 1
where one is lost."""
import os
import re
import sys

TOP = os.path.join(os.path.dirname(os.path.abspath(__file__)), "..")
SPAN = re.compile(r"\*\*(\w+)\*\*|`([^`]+)`(?:\s+\(([^()]*)\))?")
NAME = re.compile(r"[A-Za-z_][\w-]*")
PATH = re.compile(r"[\w+.-]+/[\w+./-]+|[\w-]+\.(?:rt|antt|md|py|txt)|stdout")
PATTERN = re.compile(r"\b(FILE|NAME|F)\b")


def text_of(file):
    with open(file, encoding="utf-8") as opened:
        return opened.read()


def words_of_crates():
    """All words of the crates' code, definitions and proofs, and the names of the crates."""
    words = set(os.listdir(os.path.join(TOP, "crates")))
    for folder, folders, files in os.walk(os.path.join(TOP, "crates")):
        folders[:] = [name for name in folders if name != "out"]
        for name in files:
            if name.endswith((".rt", ".antt")):
                words.update(NAME.findall(text_of(os.path.join(folder, name))))
    return words


def lost_in(file, behind):
    """The names and numbers of the parentheses after a file that are not in it."""
    text = text_of(file)
    plain = text.replace("_", "")
    words = set(NAME.findall(text))
    for name in re.findall(r"`([^`]+)`", behind):
        if name not in words and name not in text:
            yield name
    for number in re.findall(r"\d+", re.sub(r"`[^`]*`", "", behind)):
        if number not in plain:
            yield number


def lost(page):
    words = words_of_crates()
    crate = ""
    for bold, span, behind in SPAN.findall(page):
        if bold:
            crate = bold if bold in words else crate
        elif PATTERN.search(span):
            continue
        elif PATH.fullmatch(span):
            files = [os.path.join(TOP, place, span) for place in (os.path.join("crates", crate), "")]
            files = [file for file in files if os.path.exists(file)]
            if not files:
                yield f"{crate}: {span}"
            elif os.path.isfile(files[0]):
                yield from (f"{crate}: {span}: {name}" for name in lost_in(files[0], behind))
        elif NAME.fullmatch(span) and span not in words:
            yield span


def main():
    if {"-h", "--help"} & set(sys.argv[1:]):
        print(__doc__)
        return 0
    page = text_of(os.path.join(TOP, "docs", "CHANGING.md"))
    names = list(lost(page))
    print(*[f"not there: {name}\n" for name in names], sep="", end="")
    print(f"{len(SPAN.findall(page))} names and paths, {len(names)} not there")
    return 1 if names else 0


if __name__ == "__main__":
    sys.exit(main())
