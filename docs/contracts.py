#!/usr/bin/env python3
"""Writes docs/CONTRACTS.md from the sources: each public call with a contract, the names of its clauses, the
definitions that they use, and each wrong body. It goes to standard output. With --check it is compared with
docs/CONTRACTS.md, and the status is 1 where that page is not fresh:

    python3 docs/contracts.py > docs/CONTRACTS.md
"""
import os
import re
import sys
import textwrap
from typing import Iterator, NamedTuple, Set

TOP = os.path.join(os.path.dirname(os.path.abspath(__file__)), "..")
CRATES = os.path.join(TOP, "crates")
PAGE = os.path.join("docs", "CONTRACTS.md")
EXPORTED = re.compile(r"pub use (\w+)::\{?([^;}]*)\}?;")
BLOCK = re.compile(r"(?:impl(?:<[^>]*>)? (?:([\w<>', ]+) for )?|(pub )?trait )(\w+)")
HEAD = re.compile(r"\s*(?:pub\(crate\) |(pub ))?fn (\w+)")
CLAUSE = re.compile(r"\s*ensures (\w*) ?\{")
PROMISE = re.compile(r"\s*(?:requires|ensures)\b")
BODY = re.compile(r"\s*\{$|.*;$|\s*\}$")
IMPORT = re.compile(r"ghost use Rattle\.(\w+)\.specs\.(\w+)\.\{([^}]*)\}")
NAME = re.compile(r"[A-Za-z_]\w*")
TITLE = """# The contracts

`docs/contracts.py` makes this page from the sources. It lists the {calls} public calls with a contract, by crate. Each
has its file in the crate's folder, the names of its clauses in *italics*, and the definitions that the contract uses. A
clause without a name is written *ensures*. `Module.name` is in `crates/NAME/specs/Module.antt`. Definitions of another
crate have its name. Crates of tests are left out.

A **wrong body** is a change of one line that makes a body wrong, so the prover has to refuse it. There are {wrong}. Each
is listed with the file that it changes, and the function if it is in one. [PROOFS.md](PROOFS.md#how-to-read-a-claim)
says who tries them, and has the claims that a user may rely on. [API.md](API.md) has a sentence on each call.
"""


class Function(NamedTuple):
    """A function: its type or nothing, its name, whether others can call it, its clauses' names, all their words."""
    owner: str
    name: str
    is_public: bool
    labels: Set[str]
    words: Set[str]


def text_of(path):
    with open(os.path.join(CRATES, path), encoding="utf-8") as file:
        return file.read()


def functions(path):
    """Each function of a file."""
    owner, of_trait, is_open, found = "", False, False, []
    for line in text_of(path).split("\n"):
        block = BLOCK.match(line)
        if block:
            owner, of_trait = block.group(3), bool(block.group(1) or block.group(2))
        elif line == "}":
            owner, of_trait = "", False
        begun = HEAD.match(line)
        if begun:
            found.append(Function(owner, begun.group(2), bool(begun.group(1)) or of_trait, set(), set()))
        clause = CLAUSE.match(line)
        if clause and found:
            found[-1].labels.add(clause.group(1))
        is_open = bool(PROMISE.match(line)) or is_open and not BODY.match(line)
        if is_open and found and not line.lstrip().startswith("//"):
            found[-1].words.update(NAME.findall(line))
    return found


def sources(crate):
    """The files of a crate's code, below crates/."""
    for folder, _, files in sorted(os.walk(os.path.join(CRATES, crate, "src"))):
        for name in sorted(files):
            if name.endswith(".rt"):
                yield os.path.relpath(os.path.join(folder, name), CRATES)


def libraries():
    """The crates that others can use, without those of tests."""
    for crate in sorted(os.listdir(CRATES)):
        if not crate.endswith("_tests") and os.path.isfile(os.path.join(CRATES, crate, "src", "lib.rt")):
            yield crate


def calls_of(crate):
    """What others can call of a crate and has a contract: its file and the function."""
    exported = EXPORTED.findall(text_of(f"{crate}/src/lib.rt"))
    types = {name for _, names in exported for name in re.findall(r"\b[A-Z]\w*", names)}
    calls = {(f"{crate}/src/{file}.rt", name) for file, names in exported for name in re.findall(r"\b[a-z]\w*", names)}
    for path in sources(crate):
        for it in functions(path):
            if it.labels and it.is_public and (it.owner in types or not it.owner and (path, it.name) in calls):
                yield path, it


def public_calls():
    """All of them: the file, and the name, of a method as `Type.name`."""
    for crate in libraries():
        yield from ((path, f"{it.owner}.{it.name}".lstrip(".")) for path, it in calls_of(crate))


def definitions(path, words):
    """The definitions among some words, by the imports of the file: `Module.name`, or `crate: Module.name`."""
    own = path.split("/")[0]
    for crate, module, names in IMPORT.findall(text_of(path)):
        for name in NAME.findall(names):
            if name in words and module != "declared" and crate != "std":
                yield f"`{module}.{name}`" if crate == own else f"`{module}.{name}` of {crate}"


def wrong_bodies_of(crate):
    """The wrong bodies of a crate, as FOLDER/NAME.edit."""
    for folder in ("must-fail", "wrong"):
        place = os.path.join(CRATES, crate, folder)
        names = sorted(os.listdir(place)) if os.path.isdir(place) else []
        yield from (f"{folder}/{name}" for name in names if name.endswith(".edit"))


def wrong_bodies():
    """All wrong bodies, below crates/."""
    for crate in sorted(os.listdir(CRATES)):
        yield from (f"{crate}/{name}" for name in wrong_bodies_of(crate))


def changed_by(crate, name):
    """The file that a wrong body changes, and the function with the changed line."""
    edit = dict(line.split(": ", 1) for line in text_of(f"{crate}/{name}").split("\n") if ": " in line)
    function = ""
    for line in text_of(f"{crate}/{edit['file']}").split("\n"):
        begun = HEAD.match(line)
        function = begun.group(2) if begun else function
        if edit["old"] in line:
            return f"`{edit['file']}` (`{function}`)" if function else f"`{edit['file']}`"
    return f"`{edit['file']}`"


def entry(line):
    return textwrap.fill(line, 118, subsequent_indent="  ", break_long_words=False, break_on_hyphens=False)


def lines_of(crate) -> Iterator[str]:
    """The lines of a crate: its calls and its wrong bodies."""
    for path, it in calls_of(crate):
        clauses = ", ".join(sorted(label or "ensures" for label in it.labels))
        used = ", ".join(sorted(set(definitions(path, it.words))))
        name = f"{it.owner}.{it.name}".lstrip(".")
        yield entry(f"- `{name}` (`{path.split('/', 1)[1]}`): *{clauses}*" + (f"; {used}" if used else ""))
    for name in wrong_bodies_of(crate):
        yield entry(f"- wrong body `{name}`: {changed_by(crate, name)}")


def page():
    crates = sorted(os.listdir(CRATES))
    known = set(libraries())
    blocks = []
    for crate in crates:
        lines = list(lines_of(crate)) if crate in known else [entry(f"- wrong body `{it}`: {changed_by(crate, it)}")
                                                              for it in wrong_bodies_of(crate)]
        if lines:
            blocks.append("\n".join([f"## {crate}", ""] + lines))
    head = TITLE.format(calls=len(list(public_calls())), wrong=len(list(wrong_bodies())))
    return head + "\n" + "\n\n".join(blocks) + "\n"


def is_fresh():
    """Whether the page that is there is the one that the sources give."""
    with open(os.path.join(TOP, PAGE), encoding="utf-8") as file:
        return file.read() == page()


def main():
    if {"-h", "--help"} & set(sys.argv[1:]):
        print(__doc__)
        return 0
    if sys.argv[1:] != ["--check"]:
        sys.stdout.write(page())
        return 0
    fresh = is_fresh()
    print(f"{PAGE} is", "fresh" if fresh else "not fresh: python3 docs/contracts.py > docs/CONTRACTS.md")
    return 0 if fresh else 1


if __name__ == "__main__":
    sys.exit(main())
