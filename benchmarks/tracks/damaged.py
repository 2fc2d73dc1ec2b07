"""Certificates with lemmas on cycles, each changed at one place: most are wrong then, some are still right."""
HEAD = 4                                                           # lines before the lemmas


def changed(lines, at, *new):
    """The lines with others in place of one."""
    return [*lines[:at], *new, *lines[at + 1:]]


def with_field(lines, at, field, word):
    words = lines[at].split(" ")
    words[field] = word
    return changed(lines, at, " ".join(words))


def more(word, by):
    return str(max(0, int(word) + by))


def of_pairs(draw, cell, lines, at):
    """Changes of the pairs of one line: a net, the order, one pair more or less."""
    word = lines[at].split(" ")[6]
    pairs = [] if word == "-" else [tuple(map(int, pair.split(">"))) for pair in word.split(",")]

    def put(what, new):
        return what, with_field(lines, at, 6, ",".join(f"{upper}>{lower}" for upper, lower in new) or "-")
    some = draw.randrange(cell.nets), draw.randrange(cell.nets)
    rail, others = draw.choice(sorted(cell.rails)), sorted({*range(cell.nets)} - cell.rails)
    yield put("pair more", sorted({*pairs, some}))
    yield put("net above itself", sorted({*pairs, some[:1] * 2}))
    yield put("net of no cell", sorted({*pairs, (some[0], cell.nets)}))
    yield put("rail below all nets", [(net, rail) for net in others])
    yield put("rail above all nets", [(rail, net) for net in others])
    yield put("pair alone", [some])
    if pairs:
        one = draw.choice(pairs)
        rest = [pair for pair in pairs if pair != one]
        yield put("pair dropped", rest)
        yield put("no pair", [])
        yield put("pair turned", sorted({*rest, one[::-1]}))
        yield put("other upper", sorted({*rest, (some[0], one[1])}))
        yield put("other lower", sorted({*rest, (one[0], some[1])}))
        yield put("pair twice", sorted([*pairs, one]))
        yield put("pairs from the last", [*pairs, some][::-1])
        yield "zero before a net", changed(lines, at, lines[at].replace(">", ">0", 1))
        yield "colon", changed(lines, at, lines[at].replace(">", ":", 1))


def of_state(draw, nets, lines, at):
    """Changes of the state of one line: fingers left, an open end."""
    words = lines[at].split(" ")
    for field, what in ((2, "P fingers"), (3, "N fingers")):
        if words[field] != "-":
            counts = words[field].split(",")
            kind = draw.randrange(len(counts))
            for by in (1, -1):
                new = ",".join([*counts[:kind], more(counts[kind], by), *counts[kind + 1:]])
                yield f"{what} {by:+}", with_field(lines, at, field, new)
            yield f"{what}, a kind more", with_field(lines, at, field, f"{words[field]},0")
    for field, what in ((4, "P end"), (5, "N end")):
        yield f"other {what}", with_field(lines, at, field, str(draw.randrange(nets)))
        yield f"no {what}", with_field(lines, at, field, "-")
        yield f"{what} of no cell", with_field(lines, at, field, str(nets))
    yield "rows exchanged", changed(lines, at, " ".join([*words[:2], words[3], words[2], words[5], words[4], words[6]]))


def of_line(draw, lines, at, last):
    """Changes of one line as a whole, its gaps and its place; `last` is the last line of a lemma."""
    gaps = lines[at].split(" ")[1]
    other = draw.randint(HEAD, last)
    yield "line dropped", changed(lines, at)
    yield "line twice", changed(lines, at, lines[at], lines[at])
    yield "lines exchanged", changed(changed(lines, at, lines[other]), other, lines[at])
    yield "gaps +1", with_field(lines, at, 1, more(gaps, 1))
    yield "gaps -1", with_field(lines, at, 1, more(gaps, -1))
    yield "gaps 64", with_field(lines, at, 1, "64")
    yield "on tracks", changed(lines, at, lines[at].replace("cycle", "lemma"))
    yield "without pairs on tracks", with_field(with_field(lines, at, 0, "lemma"), at, 6, "-")
    yield "field more", changed(lines, at, lines[at] + " -")
    yield "space more", changed(lines, at, lines[at] + " ")
    yield "upper case", changed(lines, at, lines[at].upper())


def of_ends(draw, cell, lines):
    """A lemma more on a state without fingers: it follows where its pair and that of the last line are a cycle."""
    for what, upper in (("net", draw.randrange(cell.nets)), ("rail", min(cell.rails)), ("rail", max(cell.rails))):
        lower = draw.randrange(cell.nets)
        left = (",".join("0" for _ in kinds) or "-" for kinds in (cell.p, cell.n))
        new = " ".join(("cycle 0", *left, str(upper), str(lower), f"{lower}>{upper}"))
        yield f"last line with a {what}", changed(lines, HEAD, new, lines[HEAD])


def of_whole(draw, lines, last):
    """Changes of the head, of the last lemma, and of the order of all."""
    gaps = int(lines[2].split()[1])
    start = lines[last].split(" ")
    yield "other gaps", changed(lines, 2, f"gaps {max(0, gaps + draw.choice((-1, 1, 1)))}")
    yield "other tracks", changed(lines, 3, f"tracks {draw.choice((1, 2, 3, 255, 256))}")
    yield "no tracks", changed(lines, 3, "tracks 0")
    yield "last lemma first", [*lines[:HEAD], lines[last], *lines[HEAD:last], *lines[last + 1:]]
    yield "last lemma dropped", changed(lines, last)
    yield "last lemma alone", [*lines[:HEAD], *lines[last:]]
    yield "no lemma", [*lines[:HEAD], *lines[last + 1:]]
    yield "cycle after a lemma", changed(lines, last, " ".join(["lemma", "0", *start[2:6], "-"]), lines[last])
    yield "no end", lines[:-1]
    yield "line after the end", [*lines, lines[last]]


def changes(draw, cell, lines):
    """Pairs of what is changed and the lines then. The last lemma is on cycles."""
    last = max(at for at, line in enumerate(lines) if line.startswith("cycle "))
    paired = [at for at in range(HEAD, last + 1) if not lines[at].endswith("-")]
    yield "nothing", lines
    for _ in range(2):
        at = draw.randint(HEAD, last)
        yield from of_pairs(draw, cell, lines, draw.choice(paired or [at]))
        yield from of_state(draw, cell.nets, lines, at)
        yield from of_line(draw, lines, draw.randint(HEAD, last), last)
    yield from of_pairs(draw, cell, lines, last)
    yield from of_ends(draw, cell, lines)
    yield from of_whole(draw, lines, last)
