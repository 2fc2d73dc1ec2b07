#!/usr/bin/env python3
"""Wraps the lines of proofs that have more than 300 characters, or more than N with --over N:

    python3 docs/wrap.py [--over N] FILE.antt ..

Only blanks between two words become line ends, outside of texts and comments. Lines that begin with `use` stay. `rt fmt`
in the crate's folder then lays the file out. The proof stays what it was, but its crate is proved again.
"""
import re
import sys

WIDTH, OVER, MARGIN = 120, 300, 4
OPEN, CLOSED = "([{", ")]}"
GOOD_END = re.compile(r".*([→×,;|]| in)$")


def blanks(line):
    """The places of the blanks of a line outside of texts, each with the depth of its brackets."""
    depth, is_text, at = 0, False, 0
    while at < len(line):
        sign = line[at]
        if is_text:
            at += sign == "\\"
            is_text = sign != '"'
        elif sign == '"':
            is_text = True
        else:
            depth += (sign in OPEN) - (sign in CLOSED)
            if sign == " ":
                yield at, depth
        at += 1


def best_place(line, margin):
    """Where a line is best cut: at the least depth that leaves its first part at least half full, or nowhere."""
    able = [(at, depth) for at, depth in blanks(line) if margin + 20 < at <= WIDTH]
    full = [(at, depth) for at, depth in able if at >= margin + (WIDTH - margin) // 2]
    for deepest in sorted({depth for _, depth in full}):
        places = [at for at, depth in full if depth <= deepest]
        return max([at for at in places if GOOD_END.match(line[:at])] or places)
    return max((at for at, _ in able), default=None)


def wrapped(line):
    """The line in parts of at most 120 characters, as far as it has places for that."""
    margin = len(line) - len(line.lstrip(" "))
    further = margin + MARGIN
    while len(line) > WIDTH:
        place = best_place(line, margin)
        if place is None:
            break
        yield line[:place].rstrip()
        margin = further
        line = " " * margin + line[place:].lstrip()
    yield line


def stays(line, over):
    return len(line) <= over or line.startswith(("use ", "pub use ")) or "-- " in line


def main():
    words = sys.argv[1:]
    if not words or {"-h", "--help"} & set(words):
        print(__doc__)
        return 0 if words else 2
    over = int(words[1]) if words[0] == "--over" else OVER
    for name in words[2:] if words[0] == "--over" else words:
        with open(name, encoding="utf-8") as file:
            old = file.read()
        new = "\n".join(part for line in old.split("\n") for part in ([line] if stays(line, over) else wrapped(line)))
        if new.split() != old.split():
            sys.exit(f"{name}: this script would change more than blanks")
        if new != old:
            with open(name, "w", encoding="utf-8") as file:
                file.write(new)
    return 0


if __name__ == "__main__":
    sys.exit(main())
