#!/usr/bin/env python3
"""Checks that the documents are easy to read: no sentence has more than 35 words, no row of a table more than 160
characters. Blocks of code are not checked, nor the two generated pages. Run it anywhere; its status is 1 where a
sentence or a row is longer.
"""
import os
import re
import sys

from links import documents
from names import TOP, text_of

MOST_WORDS, MOST_CHARACTERS = 35, 160
GENERATED = ("docs/API.md", "docs/CONTRACTS.md")
ITEM = re.compile(r"^\s*([-*]|\d+\.)\s+")
END = re.compile(r"(?<=[.!?])[\")*]*\s+(?=[\"(*]*[A-Z`\[])")


def without_code(text):
    """The lines of a document, those of blocks of code as empty ones."""
    is_code = is_fenced = False
    before = ""
    for line in text.split("\n"):
        is_fence = line.startswith("```")
        is_fenced ^= is_fence
        if not is_code:
            is_code = line.startswith("    ") and not before and not ITEM.match(line)
        elif line and not line.startswith("    "):
            is_code = False
        before = line.strip()
        yield "" if is_fenced or is_fence or is_code else line


def paragraphs(text):
    """The paragraphs, items of lists and headings, each with the number of its first line. Tables are left out."""
    first, found = 0, []
    for number, line in enumerate([*without_code(text), ""], 1):
        is_apart = not line.strip() or line.startswith("#") or line.lstrip().startswith("|")
        if found and (is_apart or ITEM.match(line)):
            yield first, " ".join(found)
            found = []
        if not is_apart:
            first = first if found else number
            found.append(ITEM.sub("", line).strip())


def words(sentence):
    """How many words a sentence has; a span of code is one."""
    plain = re.sub(r"`[^`]*`", "code", re.sub(r"\[([^\]]*)\]\([^)]*\)", r"\1", sentence))
    return sum(bool(re.search(r"\w", word)) for word in plain.split())


def long_parts(text):
    """The sentences and rows that are too long: the number of a line, how long, and where they begin."""
    for number, paragraph in paragraphs(text):
        masked = re.sub(r"`[^`]*`", lambda span: re.sub(r"[.!?]", ",", span.group()), paragraph)
        for sentence in END.split(masked):
            if words(sentence) > MOST_WORDS:
                yield number, f"{words(sentence)} words: {sentence[:60]} .."
    for number, line in enumerate(text.split("\n"), 1):
        if line.startswith("|") and len(line) > MOST_CHARACTERS:
            yield number, f"{len(line)} characters: {line[:60]} .."


def main():
    if {"-h", "--help"} & set(sys.argv[1:]):
        print(__doc__)
        return 0
    pages = sorted(os.path.relpath(path, TOP) for path in documents())
    pages = [page for page in pages if page not in GENERATED]
    faults = [f"{page}:{number}: {part}" for page in pages for number, part in long_parts(text_of(os.path.join(TOP, page)))]
    print(*[f"too long: {fault}\n" for fault in faults], sep="", end="")
    print(f"{len(pages)} documents, {len(faults)} sentences or rows are too long")
    return 1 if faults else 0


if __name__ == "__main__":
    sys.exit(main())
