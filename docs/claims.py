#!/usr/bin/env python3
"""Checks docs/PROOFS.md against the code: its claims are numbered in order and at most 40, and each names a clause, a
definition and a wrong body that are there, or says that it has no wrong body. A claim that the README's promises cite
by its number and a call, as in "`make`, 6", speaks of that call. All contracts and wrong bodies are listed in
docs/CONTRACTS.md, which has to be fresh (docs/contracts.py).
Run it anywhere. Its status is 1 where a name is lost.
"""
import os
import re
import sys

import contracts
from contracts import CRATES, TOP, functions, text_of

MOST = 40
CLAIM = re.compile(r"(?m)^### (\d+)\. ")
PART = re.compile(r"(?ms)^- \*(Clause|Meaning|Refused)\*: (.*?)(?=^- \*|\n\n|\Z)")
CALL = re.compile(r"`([^`]+)`: `([\w.]+)`(?: \*([\w,\s]+)\*)?")
DEFINITION = re.compile(r"`([^`]+)`: `(\w+)`")
DEFINED = r"(?m)^(?:(?:abbrev|unfoldable|opaque|pub|record|data)\s+)+%s\b"
NONE = "none is kept"


def is_there(path):
    return os.path.isfile(os.path.join(CRATES, path))


def clauses_of(path):
    """The labels of each function's clauses, by its name, and as `Type.name` too."""
    found = {}
    for it in functions(path):
        for key in (it.name, f"{it.owner}.{it.name}"):
            found.setdefault(key, set()).update(it.labels)
    return found


def lost_calls(text):
    """The calls and clauses of a text that are not there."""
    if not CALL.findall(text):
        yield "no clause"
    for path, name, labels in CALL.findall(text):
        clauses = clauses_of(path) if is_there(path) else {}
        if name not in clauses:
            yield f"{path}: {name}"
        for label in filter(None, re.split(r",\s*", labels)):
            if label not in clauses.get(name, ()):
                yield f"{path}: {name} {label}"


def lost_definitions(text):
    """The definitions of a text that are not there."""
    if not DEFINITION.findall(text):
        yield "no definition"
    for path, name in DEFINITION.findall(text):
        if not is_there(path) or not re.search(DEFINED % name, text_of(path)):
            yield f"{path}: {name}"


def lost_edits(text):
    """The wrong bodies of a text that are not there."""
    edits = re.findall(r"`([^`]+)`", text)
    if not edits and NONE not in text:
        yield f"no wrong body, and not: {NONE}"
    yield from (path for path in edits if not is_there(path))


LOST = {"Clause": lost_calls, "Meaning": lost_definitions, "Refused": lost_edits}


def claims(page):
    """The claims of the page: number, text, and what stands under each word of LOST."""
    pieces = CLAIM.split(page.partition("\n## Only tested")[0])[1:]
    for number, text in zip(pieces[::2], pieces[1::2]):
        yield int(number), text, dict(PART.findall(text))


def lost_in(number, parts):
    """What a claim names and is not there."""
    for word, find in LOST.items():
        yield from (f"claim {number}: {it}" for it in find(parts.get(word, "")))


def miscited(found):
    """What the README cites, a call and a number, where that claim does not speak of the call."""
    with open(os.path.join(TOP, "README.md"), encoding="utf-8") as file:
        promises = file.read().partition("## What it promises")[2].partition("\n## ")[0]
    calls = {number: {name for _, name, _ in CALL.findall(text)} | set(re.findall(r"`(\w+)`", text))
             for number, text, _ in found}
    for call, number in re.findall(r"`(\w+)`, (\d+)", promises):
        if call not in calls.get(int(number), ()):
            yield f"README: `{call}`, {number}"


def main():
    if {"-h", "--help"} & set(sys.argv[1:]):
        print(__doc__)
        return 0
    with open(os.path.join(TOP, "docs", "PROOFS.md"), encoding="utf-8") as file:
        found = list(claims(file.read()))
    lost = [it for number, _, parts in found for it in lost_in(number, parts)]
    lost += [f"claim {at} is numbered {number}" for at, (number, _, _) in enumerate(found, 1) if number != at]
    lost += [f"more than {MOST} claims"] * (len(found) > MOST)
    lost += miscited(found)
    lost += [] if contracts.is_fresh() else [f"python3 docs/contracts.py > {contracts.PAGE}: that page is not fresh"]
    print(*[f"not there: {it}\n" for it in lost], sep="", end="")
    calls, wrong = len(list(contracts.public_calls())), len(list(contracts.wrong_bodies()))
    print(f"{len(found)} claims, {len(lost)} faults; {calls} public calls and {wrong} wrong bodies are listed")
    return 1 if lost else 0


if __name__ == "__main__":
    sys.exit(main())
