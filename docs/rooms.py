#!/usr/bin/env python3
"""Checks the crates' pages: each crate of crates.txt has a README.md with its name and the headings of HEADINGS, none
of them empty, and a line in the index of docs/ARCHITECTURE.md that leads to it; each path of a page is in its crate,
each name in some crate. Run it anywhere; its status is 1 where something is not there."""
import os
import re
import sys

from names import NAME, PATH, TOP, text_of, words_of_crates

HEADINGS = ("What it promises", "What it knows nothing of", "Where to begin")
INDEXED = re.compile(r"(?m)^- \[(\w+)\]\(\.\./crates/(\w+)/README\.md\): \S")
SPAN = re.compile(r"`([^`\n]+)`")


def crates():
    """The crates of crates.txt, in its order."""
    return re.findall(r"(?m)^(\w+):", text_of(os.path.join(TOP, "crates.txt")))


def sections(page):
    """The text below each heading of a page."""
    parts = re.split(r"(?m)^## (.*)$", page)
    return dict(zip(parts[1::2], (part.strip() for part in parts[2::2])))


def is_there(crate, span, words):
    """Whether a path is in a crate or at the top, or a name in some crate; a pattern (`Rules*`) is not looked at."""
    if PATH.fullmatch(span):
        return any(os.path.exists(os.path.join(TOP, place, span)) for place in (os.path.join("crates", crate), ""))
    proofs = os.path.join(TOP, "crates", crate, "proofs", f"{span}.antt")
    return not NAME.fullmatch(span) or span in words or os.path.exists(proofs)


def faults_of(crate, words):
    """What a crate's page lacks, and what it names that is not there."""
    path = os.path.join(TOP, "crates", crate, "README.md")
    if not os.path.isfile(path):
        yield "no README.md"
        return
    page = text_of(path)
    if not page.startswith(f"# {crate}\n"):
        yield f"its first line is not # {crate}"
    found = sections(page)
    yield from (f"no text below ## {heading}" for heading in HEADINGS if not found.get(heading))
    yield from (f"not there: {span}" for span in SPAN.findall(page) if not is_there(crate, span, words))


def main():
    if {"-h", "--help"} & set(sys.argv[1:]):
        print(__doc__)
        return 0
    listed = crates()
    words = words_of_crates() | {"std", "rt"}
    faults = [f"{crate}: {fault}" for crate in listed for fault in faults_of(crate, words)]
    pairs = INDEXED.findall(text_of(os.path.join(TOP, "docs", "ARCHITECTURE.md")))
    indexed = [shown for shown, led in pairs if shown == led]
    faults += [f"{crate}: not in the index of docs/ARCHITECTURE.md" for crate in listed if indexed.count(crate) != 1]
    faults += [f"{shown}: in the index, but no crate" for shown, _ in pairs if shown not in listed]
    print(*[f"{fault}\n" for fault in faults], sep="", end="")
    print(f"{len(listed)} crates, {len(pairs)} in the index, {len(faults)} faults")
    return 1 if faults else 0


if __name__ == "__main__":
    sys.exit(main())
