"""Changes of lemmas of certificates by trails of versions 2 and 3, as lines of text, and the helpers that other changes share."""


def words_with(line, at, word):
    words = line.split(" ")
    words[at] = word
    return " ".join(words)


def split(word, between=","):
    return [] if word == "-" else word.split(between)


def joined(items):
    return ",".join(items) or "-"


def less(draw, items):
    """The items but one."""
    at = draw.randrange(len(items))
    return items[:at] + items[at + 1:]


def any_place(draw, nets):
    p, n = draw.randrange(nets), draw.randrange(nets)
    return draw.choice((f"{p}.{n}", f"{p}.{n}", f"{p}.*", f"*.{n}"))


def rank(place):
    p, n = place.rstrip("!").split(".")
    return (1, int(p)) if n == "*" else (2, int(n)) if p == "*" else (0, int(p), int(n))


def in_order(places):
    """The places of a class in the order of a text."""
    marked = any(place.endswith("!") for place in places)
    return "+".join(sorted({place.rstrip("!") for place in places}, key=rank)) + "!" * marked


def classes_in_order(classes):
    return sorted((in_order(one.split("+")) for one in classes if one), key=lambda one: rank(one.split("+")[0]))


def of_other_row(place):
    """A pool of the other row in place of a pool."""
    p, n = place.rstrip("!").split(".")
    return f"{n}.{p}" + "!" * place.endswith("!") if "*" in (p, n) else place


def of_nodes(draw, nets, items):
    """Changes of ODD."""
    node = f"{draw.randrange(nets)}.{draw.randrange(nets)}"
    yield "an odd node more", sorted({*items, node}, key=rank)
    if items:
        yield "an odd node less", less(draw, items)
        yield "another odd node", sorted({*items[1:], node}, key=rank)
        yield "odd nodes turned round", items[::-1]


def of_balances(draw, nets, items):
    """Changes of FREE."""
    by_net = {int(item.replace("-", "+").split("+")[0]): item for item in items}

    def put(changed):
        return [changed[net] for net in sorted(changed)]
    net, count = draw.randrange(nets), draw.choice((1, 1, 2, 64, 65, 0))
    yield "a balance set", put({**by_net, net: f"{net}{draw.choice('+-')}{count}"})
    yield "a balance of no net", put({**by_net, nets: f"{nets}+1"})
    if items:
        net = draw.choice(sorted(by_net))
        item = by_net[net]
        yield "a balance dropped", put({other: it for other, it in by_net.items() if other != net})
        yield "waiting for free", put({**by_net, net: item.translate(str.maketrans("+-", "-+"))})
        yield "a balance more by two", put({**by_net, net: item[:-1] + str((int(item[-1]) + 2) % 10)})
        yield "balances turned round", items[::-1]


def of_classes(draw, nets, items):
    """Changes of CLASSES."""
    new, put = any_place(draw, nets), classes_in_order
    yield "a class more", put([*items, new])
    if not items:
        return
    at = draw.randrange(len(items))
    one, rest = items[at], items[:at] + items[at + 1:]
    places = one.split("+")
    yield "a class less", rest
    yield "a mark turned", [one.rstrip("!") if it == one and "!" in one else it + "!" * (it == one) for it in items]
    yield "a place more", put([*rest, f"{new}+{one}"])
    yield "a place less", put([*rest, "+".join(less(draw, places))])
    yield "classes turned round", items[::-1]
    if rest:
        other = draw.choice(rest)
        moved = draw.choice(other.rstrip("!").split("+"))
        yield "a place of two classes", put([*rest, f"{moved}+{one}"])
        yield "two classes joined", put([*(it for it in rest if it != other), f"{other}+{one}"])
    if len(places) > 1:
        cut = draw.randrange(1, len(places))
        yield "a class parted", put([*rest, "+".join(places[:cut]), "+".join(places[cut:])])


def of_own_text(draw, nets, line):
    """Changes after which a line is mostly not the text of its state."""
    _, bound, _, odd, free, classes = line.split(" ")
    each, net = split(classes), draw.randrange(nets)

    def put(changed):
        return words_with(line, 5, joined(classes_in_order(changed)))
    yield "before the first gate", words_with(line, 2, "0")
    yield "after the last gate", words_with(line, 2, "31")
    yield "any place in a new class", put([*each, any_place(draw, nets)])
    yield "odd nodes of no class", words_with(words_with(line, 5, "-"), 3, odd if odd != "-" else f"{net}.{draw.randrange(nets)}")
    yield "balances before the first gate", f"lemma {bound} 0 - {free if free != '-' else f'{net}-1'} -"
    if each:
        yield "a place also in a class of its own", put([*each, draw.choice(each).rstrip("!").split("+")[-1]])
    if "*" in classes:
        yield "pools of the facing row", put("+".join(map(of_other_row, one.split("+"))) for one in each)


def of_lemma(draw, nets, line):
    """Changes of a lemma, most of them of one field."""
    _, bound, done, odd, free, classes = line.split(" ")
    yield "a greater bound", words_with(line, 1, str(int(bound) + draw.choice((1, 2))))
    yield "a lesser bound", words_with(line, 1, str(int(bound) - 1))
    yield "other gates", words_with(line, 2, str(int(done) + draw.choice((1, -1, 30))))
    for at, word, of in ((3, odd, of_nodes), (4, free, of_balances), (5, classes, of_classes)):
        for what, items in of(draw, nets, split(word)):
            yield what, words_with(line, at, joined(items))
    yield from of_own_text(draw, nets, line)
