"""The text of certificates by trails of versions 2 and 3, written and read, as docs/FORMATS.md has it. It shares no code with the program."""
from collections import namedtuple

from left_out import LeftOut
from pools import N_POOL, P_POOL, is_pool

VERSION, FEWER = "cellgen-trails 2", "cellgen-trails 3"
MOST_COUNT = MOST_BOUND = 64
MOST_DONE, MOST_GAPS = 31, 63

# A lemma's line: nodes and pools as in pools.py, classes with their mark, FREE as balances by net.
Line = namedtuple("Line", "bound done odd free classes")
# `out` is None in version 2, gaps and columns are None where no row is listed.
Certificate = namedtuple("Certificate", "out fill order lines gaps columns")


class Fault(Exception):
    """What `check` reports of a certificate."""


# ---- writing

def listed(items, between=","):
    return between.join(items) or "-"


def place_text(place):
    p, n = place
    return f"{n}.*" if p == P_POOL else f"*.{n}" if p == N_POOL else f"{p}.{n}"


def line_text(lemma):
    """The line of a lemma on a state that choices lead to."""
    odd, classes, balances = lemma.state
    nodes = [place_text(node) for node in sorted(odd) if not is_pool(node)]
    free = [f"{net}{balance:+d}" for (_, net), balance in sorted(balances)]
    each = ["+".join(map(place_text, places)) + "!" * ended for places, ended in sorted((sorted(places), ended) for places, ended in classes)]
    return " ".join(["lemma", str(lemma.bound), str(lemma.done), listed(nodes), listed(free), listed(each)])


def certificate_text(name, fill, order, lemmas, row=None, out=None):
    """The text; `row` is the number of gaps and the columns' lines, if a row is listed, and `out` what is left out, if anything is."""
    head = [] if out is None else [FEWER, f"without {out.row} " + ",".join(map(str, out.gates))]
    head += [VERSION, f"cell {name}", "fill " + listed(map(str, sorted(fill))), "order " + listed(map(str, order))]
    ending = ["open"] if row is None else [f"gaps {row[0]}", *row[1]]
    return "\n".join([*head, *map(line_text, lemmas), *ending, "end", ""])


# ---- reading

def number(word, limit):
    """A number below the limit without sign or leading zeros."""
    if not (word.isascii() and word.isdigit() and str(int(word)) == word and int(word) < limit):
        raise ValueError(word)
    return int(word)


def count(word, most):
    if number(word, most + 1) == 0:
        raise ValueError(word)
    return int(word)


def two(word, between):
    first, second = word.split(between)
    return first, second


def items(read, word, between=","):
    return [read(one) for one in word.split(between)] if word != "-" else []


def ascending(read, word, key=lambda item: item):
    """A list in which each item is above the one before it."""
    found = items(read, word)
    if any(key(one) >= key(other) for one, other in zip(found, found[1:])):
        raise ValueError(word)
    return found


class Reader:
    """The text of a certificate for some fingers, line by line."""

    def __init__(self, fingers, name):
        self.nets, self.name = len(fingers.nets), name
        self.kinds = [sorted(set(row)) for row in (fingers.p, fingers.n)]

    def net(self, word):
        return number(word, self.nets)

    def node(self, word):
        p, n = two(word, ".")
        return self.net(p), self.net(n)

    def place(self, word):
        p, n = two(word, ".")
        if n == "*":
            return P_POOL, self.net(p)
        return (N_POOL, self.net(n)) if p == "*" else self.node(word)

    def balance(self, word):
        sign = "-" if "-" in word else "+"
        net, size = two(word, sign)
        return self.net(net), int(sign + "1") * count(size, MOST_COUNT)

    def one_class(self, word):
        marked = word.endswith("!")
        places = [self.place(one) for one in word[:len(word) - marked].split("+")]
        if any(one >= other for one, other in zip(places, places[1:])):
            raise ValueError(word)
        return places, marked

    def lemma(self, words):
        bound, done, odd, free, classes = words
        return Line(count(bound, MOST_BOUND), number(done, MOST_DONE + 1), ascending(self.node, odd),
                    dict(ascending(self.balance, free, lambda one: one[0])), ascending(self.one_class, classes, lambda one: one[0][0]))

    def side(self, kinds, kind, flip):
        if flip not in ("0", "1") or (kind == "-" and flip == "1"):
            raise ValueError(flip)
        return None if kind == "-" else (kinds[number(kind, len(kinds))], flip == "1")

    def column(self, words):
        word, gate, *places = words
        p_kind, p_flip, n_kind, n_flip = places
        sides = self.side(self.kinds[0], p_kind, p_flip), self.side(self.kinds[1], n_kind, n_flip)
        if word != "column" or sides == (None, None):
            raise ValueError(words)
        return self.net(gate), sides

    def left_out(self, line):
        front, row, listing = line.split(" ")
        if front != "without" or row not in ("P", "N") or listing == "-":
            raise ValueError(line)
        return LeftOut(row, ascending(self.net, listing))

    def nets_behind(self, word, line, read):
        front, listing = line.split(" ")
        if front != word:
            raise ValueError(line)
        return read(self.net, listing)

    def read(self, text):
        """The certificate, or the first fault of the text. Each reading of a line names it."""
        *lines, rest = text.split("\n")
        at = 0

        def line_by(read):
            nonlocal at
            if at == len(lines):
                raise Fault("trails Cut")
            at += 1
            try:
                return read(lines[at - 1])
            except ValueError:
                raise Fault(f"trails Line line {at}") from None

        def entry(line):
            words = line.split(" ")
            if words[0] == "lemma":
                return self.lemma(words[1:])
            if words[0] == "gaps":
                (gaps,) = words[1:]
                return number(gaps, MOST_GAPS + 1)
            if line != "open":
                raise ValueError(line)
            return None

        def end(line):
            if line != "end":
                raise ValueError(line)

        first, out = line_by(str), None
        if first == FEWER:
            out = line_by(self.left_out)
            first = line_by(str)
        if first != VERSION:
            raise Fault("trails Version")
        if line_by(str) != f"cell {self.name}":
            raise Fault("trails Cell")
        fill = line_by(lambda line: self.nets_behind("fill", line, ascending))
        order = line_by(lambda line: self.nets_behind("order", line, items))
        found, columns = [], None
        while isinstance(gaps := line_by(entry), Line):
            found.append(gaps)
        if gaps is not None:
            columns = []
            while lines[at:at + 1] not in ([], ["end"]):
                columns.append(line_by(lambda line: self.column(line.split(" "))))
        line_by(end)
        if lines[at:] or rest:
            raise Fault(f"trails Line line {at + 1}")
        return Certificate(out, fill, order, found, gaps, columns)
