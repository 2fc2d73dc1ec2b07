#!/usr/bin/env python3
"""Prints how large the project is, and checks the sizes of CONTRIBUTING.md: in src/ and specs/ no file has more than
250 lines and no line more than 120 characters; the body of a function has at most 40 lines; each public item of src/
but a type's other name has a comment. Files of proofs have no limit; those of more than 250 lines, and lines of more
than 400 characters, are counted. Run it anywhere; its status is 1 where a size or a comment is not kept.
"""
import os
import re
import sys

TOP = os.path.join(os.path.dirname(os.path.abspath(__file__)), "..")
CRATES = os.path.join(TOP, "crates")
MOST_LINES, MOST_CHARACTERS, MOST_BODY, MOST_PROOF_CHARACTERS = 250, 120, 40, 400
PARTS = ("src", "specs", "proofs")
FUNCTION = re.compile(r"(\s*)(?:pub(?:\(crate\))? )?(?:final )?(?:const )?fn (\w+)")
PUBLIC = re.compile(r"\s*pub (?:const )?(?:fn|struct|enum|trait|const) (\w+)")
LISTED = re.compile(r"(\w+)(?: staticlib)?:(.*)")


def lines_of(*path):
    with open(os.path.join(*path), encoding="utf-8") as file:
        return file.read().split("\n")[:-1]


def files(part):
    """Each file of code, definitions or proofs, with its lines."""
    for crate in sorted(os.listdir(CRATES)):
        for folder, _, names in sorted(os.walk(os.path.join(CRATES, crate, part))):
            for name in sorted(names):
                if name.endswith((".rt", ".antt")):
                    path = os.path.join(folder, name)
                    yield os.path.relpath(path, TOP), lines_of(path)


def uses():
    """The crates that each crate uses, by crates.txt."""
    listed = [LISTED.match(line) for line in lines_of(TOP, "crates.txt")]
    listed = {it.group(1): it.group(2).split() for it in listed if it}
    return {crate: [name for name in names if name in listed] for crate, names in listed.items()}


def chain(crates):
    """The longest chain of crates of which each uses the next."""
    found = {}

    def below(crate):
        if crate not in found:
            found[crate] = [crate] + max(map(below, crates[crate]), key=len, default=[])
        return found[crate]
    return max(map(below, crates), key=len)


def bodies(lines):
    """Each function with a body of more than one line: its name, the number of its line, the lines of the body."""
    for at, line in enumerate(lines):
        head = FUNCTION.match(line)
        if not head or line.endswith(("}", ";")):
            continue
        margin = head.group(1)
        opened = next((n for n in range(at, len(lines)) if lines[n] == margin + "{" or n == at and line.endswith("{")), None)
        ended = next((n for n in range(at, len(lines)) if lines[n] == margin + "}"), None)
        if opened is not None and ended is not None and opened < ended:
            yield head.group(2), at + 1, ended - opened - 1


def bare(lines):
    """The public items without a comment, each with the number of its line."""
    for at, line in enumerate(lines):
        item = PUBLIC.match(line)
        before = at - 1
        while item and before >= 0 and re.match(r"\s*#\[|\s*\)?\]|\s{8,}\S", lines[before]):
            before -= 1
        if item and (before < 0 or not lines[before].lstrip().startswith("//")):
            yield item.group(1), at + 1


def faults():
    """What is too long, or has no comment."""
    for part in PARTS[:2]:
        for path, lines in files(part):
            if len(lines) > MOST_LINES:
                yield f"{path}: {len(lines)} lines"
            for number, line in enumerate(lines, 1):
                if len(line) > MOST_CHARACTERS:
                    yield f"{path}:{number}: {len(line)} characters"
    for path, lines in files("src"):
        yield from (f"{path}:{at}: the body of {name} has {size} lines" for name, at, size in bodies(lines)
                   if size > MOST_BODY)
        if "_tests/" not in path:
            yield from (f"{path}:{at}: {name} has no comment" for name, at in bare(lines))


def figures():
    """What is counted, with its number."""
    crates = uses()
    longest = chain(crates)
    yield "crates", len(crates)
    yield "longest chain", f"{len(longest)}: {' '.join(reversed(longest))}"
    for part in PARTS:
        yield f"lines of {part}", sum(len(lines) for _, lines in files(part))
    proofs = list(files("proofs"))
    yield f"files of proofs over {MOST_LINES} lines", sum(len(lines) > MOST_LINES for _, lines in proofs)
    long_lines = sum(len(line) > MOST_PROOF_CHARACTERS for _, lines in proofs for line in lines)
    yield f"lines of proofs over {MOST_PROOF_CHARACTERS} characters", long_lines
    commands = "\n".join(lines_of(CRATES, "call_work", "specs", "Commands.antt"))
    yield "kinds of work", len(re.findall(r"\n  \w+ : Kind", commands.partition("pub data Kind ")[2].partition("\n\n")[0]))
    run = lines_of(CRATES, "cell_run", "src", "call.rt")
    yield "clauses of run", sum(line.startswith("    ensures ") for line in run)
    yield "bytes of docs/ARCHITECTURE.md", os.path.getsize(os.path.join(TOP, "docs", "ARCHITECTURE.md"))


def main():
    if {"-h", "--help"} & set(sys.argv[1:]):
        print(__doc__)
        return 0
    for name, number in figures():
        print(f"{name}: {number}")
    found = list(faults())
    print(*[f"{fault}\n" for fault in found], sep="", end="")
    print(f"{len(found)} sizes or comments are not kept")
    return 1 if found else 0


if __name__ == "__main__":
    sys.exit(main())
