#!/usr/bin/env python3
"""Checks the links between the documents: each leads to a file of this repository and to a heading that is there. Links
to the web are not looked at. Run it anywhere; its status is 1 where one leads nowhere."""
import os
import re
import sys

from names import TOP, text_of

LINK = re.compile(r"\[[^\]]*\]\(([^)\s]+)\)")


def documents():
    """All Markdown files, without those that a build leaves."""
    for folder, folders, files in os.walk(TOP):
        folders[:] = [name for name in folders if name not in ("out", ".git")]
        yield from (os.path.join(folder, name) for name in files if name.endswith(".md"))


def without_code(text):
    """A document without its blocks of code, whose brackets are no links."""
    return re.sub(r"(?m)^(    .*|```[\s\S]*?^```)$", "", text)


def anchors(text):
    """The headings of a document as links name them."""
    found = []
    for heading in re.findall(r"(?m)^#+ (.*)$", without_code(text)):
        plain = re.sub(r"\[([^\]]*)\]\([^)]*\)", r"\1", heading).lower()
        found.append(re.sub(r"[^\w\- ]", "", plain).replace(" ", "-"))
    return found


def lost_in(path):
    """The links of a document that lead nowhere."""
    for link in LINK.findall(without_code(text_of(path))):
        if re.match(r"[a-z]+:", link):
            continue
        file, _, anchor = link.partition("#")
        there = os.path.normpath(os.path.join(os.path.dirname(path), file)) if file else path
        if not os.path.exists(there):
            yield link
        elif anchor and anchor not in anchors(text_of(there)):
            yield link


def main():
    if {"-h", "--help"} & set(sys.argv[1:]):
        print(__doc__)
        return 0
    pages = sorted(documents())
    lost = [f"{os.path.relpath(path, TOP)}: {link}" for path in pages for link in lost_in(path)]
    print(*[f"leads nowhere: {link}\n" for link in lost], sep="", end="")
    print(f"{len(pages)} documents, {len(lost)} links lead nowhere")
    return 1 if lost else 0


if __name__ == "__main__":
    sys.exit(main())
