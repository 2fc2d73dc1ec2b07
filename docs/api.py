#!/usr/bin/env python3
"""Writes docs/API.md from the sources: what each crate exports at its root, with the first sentence of its comment, in
the groups of crates.txt. It goes to standard output. With --check it is compared with docs/API.md, and the status is 1
where that is not fresh:

    python3 docs/api.py > docs/API.md
"""
import os
import re
import sys

from claims import TOP, text_of

PAGE = os.path.join("docs", "API.md")
LEFT_OUT = "Tests, and what benchmarks/ needs"
HEAD = """# The public calls

This page is for users of the crates as libraries. A crate's items are at its root, as in `use
finger_fold::{{FoldFault, fold}};`. Methods are below their type. Each line has the first sentence of an item's
comment. The comment in the source has the rest, and the clauses below it say what is promised and required. A *law* is
a call that does nothing: its clauses are theorems. A crate's page, `crates/NAME/README.md`, says what the crate is for
and which items no program calls. [ARCHITECTURE.md](ARCHITECTURE.md#the-crates) lists all crates. `docs/api.py` makes
this page: {calls} calls, {laws} laws, {others} types, traits and constants with {methods} methods. Crates of benches
and tests are left out.
"""
ITEM = r"(?m)^pub (fn|struct|enum|trait|type|const) (%s)\b"
OWN = r"(?m)^impl(?:<[^\n]*?>)? %s(?:<[^\n]*>)? \{"
METHOD = re.compile(r"(?m)^    (?:pub )?fn (\w+)")
BEHIND = re.compile(r"\s*(?:\b(?:requires|ensures|decreases|where)\b|//|[{;])")


def groups():
    """The headings of crates.txt, each with its crates."""
    found = []
    with open(os.path.join(TOP, "crates.txt"), encoding="utf-8") as file:
        for line in file:
            if line.startswith("# "):
                found.append((line[2:].strip(), []))
            elif ":" in line:
                found[-1][1].append(re.match(r"\w+", line).group())
    return found


def exported(text):
    """The modules that a root file names, and what it exports of each; its own items stand under the empty name."""
    items = [("", name) for _, name in re.findall(ITEM % r"\w+", text)]
    for module, names in re.findall(r"(?m)^pub use (\w+)::\{?([^;}]*)\}?;", text):
        items += [(module, name) for name in re.findall(r"\w+", names)]
    return items


def comment_before(text, at):
    """The sentence of the comment that stands before a place, over the item's attributes."""
    lines = text[:at].split("\n")[:-1]
    while lines and (re.match(r"\s*#\[", lines[-1]) or not re.match(r"\s*(///|$|[}#]|.*[;{]$)", lines[-1])):
        lines.pop()
    words = []
    while lines and re.match(r"\s*///", lines[-1]):
        words.insert(0, lines.pop().strip()[3:].strip())
    whole = re.sub(r"\[(`[^`]*`)\](?:\([^)]*\))?", r"\1", " ".join(words))
    return re.split(r"(?<=\.)\s+", whole)[0]


def signature(text, at):
    """A call's name, arguments and answer, on one line."""
    depth = 0
    for end in range(at, len(text)):
        depth += {"(": 1, "[": 1, ")": -1, "]": -1}.get(text[end], 0)
        if depth == 0 and BEHIND.match(text, end):
            break
    line = re.sub(r"\s+", " ", text[at:end])
    return re.sub(r",? \)", ")", line.replace("( ", "("))


def item_line(kind, shown, told):
    return ("- " if kind == "fn" else f"- {kind} ") + f"`{shown}`" + (f": {told}" if told else "")


def methods(crate, name, kind, text, at):
    """The lines of a type's public methods, or of what a trait asks for."""
    if kind == "trait":
        blocks = [(text, at)]
    else:
        files = sorted(os.listdir(os.path.join(TOP, "crates", crate, "src")))
        texts = [text_of(f"{crate}/src/{file}") for file in files if file.endswith(".rt")]
        blocks = [(it, found.end()) for it in texts for found in re.finditer(OWN % name, it)]
    for whole, start in blocks:
        for found in METHOD.finditer(whole, start, whole.index("\n}\n", start)):
            if kind == "trait" or found.group().lstrip().startswith("pub"):
                yield "  " + item_line("fn", signature(whole, found.start(1)), comment_before(whole, found.start()))


def lines_of(crate, module, name):
    """The lines of one exported item."""
    if os.path.isdir(os.path.join(TOP, "crates", module, "src")) and module:
        return [f"{line} (of `{module}`)" for line in lines_of(module, *place_of(module, name))[:1]]
    text = text_of(f"{crate}/src/{module or 'lib'}.rt")
    found = re.search(ITEM % name, text)
    if not found:
        sys.exit(f"{crate}/src/{module or 'lib'}.rt: no item {name}")
    kind, told = found.group(1), comment_before(text, found.start())
    if kind == "fn":
        shown = signature(text, found.start(2))
        return [item_line("law" if re.fullmatch(r"\w+(<.*>)?\(\)", shown) else kind, shown, told)]
    shown = re.match(r"\w+(?: = [^;]*)?", text[found.start(2):]).group() if kind == "type" else name
    listed = re.fullmatch(r"\w+ = List<(.+)>", shown)
    return [item_line(kind, shown, told or listed and f"A list of `{listed.group(1)}`.")] + list(methods(crate, name, kind, text, found.end()))


def place_of(crate, name):
    """The module of a crate's item, and its name."""
    return next(item for item in exported(text_of(f"{crate}/src/lib.rt")) if item[1] == name)


def room(crate):
    """The heading of a crate, what its root file says that it is, and its items."""
    text = text_of(f"{crate}/src/lib.rt")
    about = " ".join(line[3:] for line in re.match(r"(?:// [^\n]*\n)*", text).group().splitlines())
    items = [line for module, name in exported(text) for line in lines_of(crate, module, name)]
    return [f"### {crate}", about, ""] + items + [""] * bool(items)


def page():
    out = []
    for heading, crates in groups():
        if heading != LEFT_OUT:
            libraries = [crate for crate in crates if os.path.isfile(os.path.join(TOP, "crates", crate, "src", "lib.rt"))]
            out += [f"## {heading}", ""] + [line for crate in libraries for line in room(crate)]
    calls, laws, methods, items = (sum(line.startswith(front) for line in out) for front in ("- `", "- law ", "  - ", "- "))
    return HEAD.format(calls=calls, laws=laws, methods=methods, others=items - calls - laws) + "\n" + "\n".join(out)


def main():
    made = page()
    if sys.argv[1:] != ["--check"]:
        sys.stdout.write(made)
        return 0
    with open(os.path.join(TOP, PAGE), encoding="utf-8") as file:
        fresh = file.read() == made
    bare = sum(bool(re.match(r"\s*- (\w+ )?`[^`]*`$", line)) for line in made.split("\n"))
    print(f"{PAGE} is", "fresh" if fresh else "not fresh: python3 docs/api.py > docs/API.md", f"({bare} items have no sentence)")
    return 0 if fresh else 1


if __name__ == "__main__":
    sys.exit(main())
