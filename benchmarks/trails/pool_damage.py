"""Changes of certificates by trails of versions 2 and 3, mostly one at a time, as text. Many are faults; some say something else that is true."""
from fingers import columns_on
from left_out import LeftOut, gates_with, staying
from lemma_damage import joined, less, of_lemma, split, words_with
from pool_text import FEWER, VERSION
from pools import may_fill, uneven

HEAD = 4                                                     # lines before the lemmas in version 2


def of_nets(draw, nets, line, name):
    """Changes of `fill` or `order`."""
    word = line.split(" ")[1]
    items = split(word)
    yield f"{name} more", f"{name} " + joined(sorted({*items, str(draw.randrange(nets))}, key=int))
    yield f"{name} of no net", f"{name} " + joined([*items, str(nets)])
    if items:
        yield f"{name} less", f"{name} " + joined(less(draw, items))
        yield f"{name} twice", f"{name} " + joined([*items, items[-1]])
    if len(items) > 1:
        first, second = draw.sample(range(len(items)), 2)
        items[first], items[second] = items[second], items[first]
        yield f"{name} swapped", f"{name} " + joined(items)


def of_fill(draw, stay, line):
    """Changes of which gates are filled and which stay open, of those of the fingers that stay."""
    filled, gates = {int(net) for net in split(line.split(" ")[1])}, uneven(stay)
    even = [gate for gate in columns_on(stay) if gate not in gates]
    needed = [gate for gate in sorted(filled) if not may_fill(stay, filled - {gate})]

    def put(what):
        return "fill " + joined(map(str, sorted(what)))
    if even:
        yield "a gate without half columns filled", put({*filled, draw.choice(even)})
    if needed:
        yield "open gates with more fingers in different rows", put(filled - {draw.choice(needed)})
    yield "no gate filled", put(())
    yield "all gates with half columns filled", put(gates)
    yield "the open gates filled, the others open", put({*gates} - filled)


def of_row(draw, lines, first):
    """Changes of the row, whose line `gaps` is the one with this number."""
    gaps = int(lines[first].split(" ")[1])
    columns = range(first + 1, len(lines) - 1)
    yield "gaps more", [*lines[:first], f"gaps {gaps + 1}", *lines[first + 1:]]
    yield "gaps less", [*lines[:first], f"gaps {gaps - 1}", *lines[first + 1:]]
    yield "no row", [*lines[:first], "open", "end"]
    at, other = draw.choice(columns), draw.choice(columns)
    yield "column dropped", lines[:at] + lines[at + 1:]
    yield "column twice", lines[:at] + lines[at:at + 1] + lines[at:]
    swapped = list(lines)
    swapped[at], swapped[other] = lines[other], lines[at]
    yield "columns swapped", swapped
    field = draw.randint(1, 5)
    yield "a column changed", [*lines[:at], words_with(lines[at], field, draw.choice("-0123")), *lines[at + 1:]]


def of_gates_left_out(draw, fingers, stay, lines):
    """Changes of the gates on which fingers are left out, some of them with those of the order."""
    row, items, (fill, order) = lines[1].split(" ")[1], lines[1].split(" ")[2].split(","), (split(line.split(" ")[1]) for line in lines[4:6])
    others = [str(gate) for gate in gates_with(fingers, row) if str(gate) not in items]
    gone = [str(gate) for gate in columns_on(fingers) if gate not in columns_on(stay)]

    def put(gates, filled=fill, ordered=order):
        without = f"without {row} " + ",".join(sorted(gates, key=int))
        return [lines[0], without, *lines[2:4], "fill " + joined(filled), "order " + joined(ordered), *lines[6:]]
    if others:
        gate = draw.choice(others)
        yield "a gate more", put([*items, gate])
        yield "a gate more that is in no order", put([*items, gate], [one for one in fill if one != gate], [one for one in order if one != gate])
    if gone:
        yield "a gate of no finger that stays in the order", put(items, fill, [*order, draw.choice(gone)])
    if len(items) > 1:
        yield "a gate less", put(less(draw, items))


def of_left_out(draw, fingers, lines):
    """Changes of the two lines of version 3 that are before a text of version 2."""
    first, (_, row, listing), rest = lines[0], lines[1].split(" "), lines[2:]
    items, nets, other = listing.split(","), len(fingers.nets), "N" if row == "P" else "P"

    def put(gates, at=row):
        return [first, f"without {at} {gates}", *rest]

    yield "the other row left out", put(listing, other)
    yield "no such row", put(listing, draw.choice((row.lower(), "-", "", "PN", "0")))
    yield "a gate twice", put(f"{listing},{items[-1]}")
    yield "gates not ascending", put(f"{listing},{draw.randrange(int(items[-1]) + 1)}")
    yield "any net more", put(",".join(sorted({*items, str(draw.randrange(nets))}, key=int)))
    yield "a gate of no net", put(f"{listing},{nets}")
    yield "no gates", put(draw.choice(("-", "", f"{listing},", f"{listing},-", f"0{listing}", f"+{listing}")))
    yield "all nets", put(",".join(map(str, range(nets))))
    if len(items) > 1:
        yield "gates turned round", put(",".join(items[::-1]))
    yield "words more", put(f"{listing} {draw.choice((listing, '', '-'))}")
    yield "without the line of what is left out", [first, *rest]
    yield "without the first line", [lines[1], *rest]
    yield "without both lines", rest
    yield "versions swapped", [rest[0], lines[1], first, *rest[1:]]
    yield "version 1 behind both lines", [first, lines[1], "cellgen-trails 1", *rest[1:]]
    yield "both lines twice", [first, lines[1], *lines]
    yield "only two lines", lines[:2]
    yield "only one line", lines[:1]


def changes(draw, fingers, lines):
    """Pairs of what is changed and the lines then; first the lines as they are."""
    if lines[0] == FEWER:
        _, row, listing = lines[1].split(" ")
        stay = staying(fingers, LeftOut(row, [int(gate) for gate in listing.split(",")]))
        yield from ((what, [*lines[:2], *new]) for what, new in of_text(draw, stay, lines[2:]))
        yield from of_gates_left_out(draw, fingers, stay, lines)
        yield from of_left_out(draw, fingers, lines)
    else:
        yield from of_text(draw, fingers, lines)
        yield "fingers left out", [FEWER, f"without {draw.choice('PN')} {draw.choice(lines[3].split(' ')[1].split(','))}", *lines]


def of_text(draw, stay, lines):
    """Changes of a text of version 2 about these fingers."""
    nets = len(stay.nets)

    def put(at, *new):
        return [*lines[:at], *new, *lines[at + 1:]]
    yield "nothing", lines
    yield "version 3", put(0, FEWER)
    yield "another version", put(0, draw.choice(("cellgen-trails 0", "cellgen-trails 4", "cellgen-trails", VERSION + " ")))
    yield "another name", put(1, lines[1] + "y")
    for at, name in ((2, "fill"), (3, "order")):
        for what, line in of_nets(draw, nets, lines[at], name):
            yield what, put(at, line)
    for what, line in of_fill(draw, stay, lines[2]):
        yield what, put(2, line)
    lemmas = [at for at, line in enumerate(lines) if line.startswith("lemma ")]
    for at in draw.sample(lemmas, min(3, len(lemmas))):
        for what, line in of_lemma(draw, nets, lines[at]):
            yield what, put(at, line)
    if lemmas:
        at, other = draw.choice(lemmas), draw.choice(lemmas)
        yield "a lemma dropped", put(at)
        yield "a lemma twice", put(at, lines[at], lines[at])
        swapped = put(at, lines[other])
        swapped[other] = lines[at]
        yield "lemmas swapped", swapped
        yield "a number with a zero", put(at, lines[at].replace("lemma ", "lemma 0"))
        yield "two spaces", put(at, lines[at].replace(" ", "  ", 1))
        unproved = put(lemmas[0], words_with(lines[lemmas[0]], 1, "64"))
        unproved[lemmas[-1]] = f"lemma 1 0 - {draw.randrange(nets)}-1 -"
        yield "a greater bound, and balances before the first gate", unproved
        yield "this in no order", [*unproved[:3], "order -", *unproved[4:]]
    first = HEAD + len(lemmas)
    if lines[first].startswith("gaps "):
        yield from of_row(draw, lines, first)
    yield "no end", lines[:-1]
    yield "more behind the end", [*lines, "end"]
