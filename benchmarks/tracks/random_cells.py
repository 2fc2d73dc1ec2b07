"""Small random cells as SPICE text: gates wired to each other, or transistors between random nets."""

INPUTS, INNER = "abcd", ("m", "k", "t")
WIDTHS = ("0.9u", "1.5u", "1.5u", "3u", "3u", "6u", "7.5u", "12u")


def gate(draw, at, out, inputs):
    """The transistors (row, drain, gate, source) of one gate; its inner nets have its number."""
    one, other = draw.choice(inputs), draw.choice(inputs)
    above, below = f"u{at}", f"l{at}"
    kind = draw.choice(("inverter", "nand", "nor", "pass", "clocked"))
    if kind == "nand":
        return [("p", out, one, "vdd"), ("p", out, other, "vdd"), ("n", out, one, below), ("n", below, other, "gnd")]
    if kind == "nor":
        return [("p", above, one, "vdd"), ("p", out, other, above), ("n", out, one, "gnd"), ("n", out, other, "gnd")]
    if kind == "clocked":
        return [("p", above, one, "vdd"), ("p", out, other, above), ("n", out, draw.choice(inputs), below), ("n", below, one, "gnd")]
    if kind == "pass" and len(inputs) > 2:
        through, on, off = draw.sample(inputs, 3)
        return [("p", out, on, through), ("n", out, off, through)]
    return [("p", out, one, "vdd"), ("n", out, one, "gnd")]


def of_gates(draw, most):
    """Up to three gates, the last with the output y."""
    inputs, lines, count = list(INPUTS[:draw.randint(1, 4)]), [], draw.randint(1, 3)
    for at in range(count):
        out = "y" if at == count - 1 else INNER[at]
        lines += gate(draw, at, out, inputs)
        inputs.append(out)
    return lines if len(lines) <= most else of_gates(draw, most)


def of_nets(draw, most):
    """Transistors between random nets; each gate net has one or two of each row, or of one row alone."""
    nets, lines = [*INPUTS[:draw.randint(1, 3)], "y", *INNER[:draw.randint(0, 3)]], []
    while len(lines) < draw.randint(2, most):
        row = draw.choice(("pn", "pn", "pn", "p", "n"))
        on = draw.choice(nets)
        for one in row:
            ends = nets + ["vdd" if one == "p" else "gnd"] * 2
            lines.append((one, draw.choice(ends), on, draw.choice(ends)))
    return lines[:most]


def of_pairs(draw, most):
    """A P and an N transistor on each gate net, between few nets and hardly a rail: many rows have a cycle."""
    ends = ["m", "k", "y", "t"][:draw.randint(2, 4)]
    lines = []
    for on in INPUTS[:draw.randint(2, min(4, most // 2))]:
        first, second = draw.sample(ends, 2)
        other = (second, first) if draw.random() < 0.5 else draw.sample(ends, 2)
        lines += [("p", first, on, second), ("n", other[0], on, other[1])]
        if draw.random() < 0.2:
            lines[-1] = ("n", "gnd", on, second)
    return lines


def of_crossed(draw, most):
    """A P and an N transistor on each gate net, each between two of few nets: in about half of the cells no row is wired."""
    ends, lines = ["m", "k", "y", "t", "z"][:draw.randint(3, 5)], []
    for on in INPUTS[:draw.choice((3, 3, 4))]:
        for row in draw.choice(("pn",) * 9 + ("p", "n", "pnn")):
            first, second = draw.sample(ends, 2)
            rail = "vdd" if row == "p" else "gnd"
            lines.append((row, first, on, rail if draw.random() < 0.1 else second))
    return lines[:most]


def of_inner(draw, most):
    """A P and an N transistor on each gate net, which is hardly a pin: some of these cells take fewer tracks where nets may
    turn."""
    nets, lines = ["m", "k", "t", "z", "x"][:draw.randint(3, 5)], []
    rails = draw.randint(0, 3)
    for on in ("e", "f", "g", "h")[:draw.randint(3, most // 2)]:
        lines += [(row, draw.choice(nets + [rail] * rails), on, draw.choice(nets + [rail] * rails))
                  for row, rail in (("p", "vdd"), ("n", "gnd"))]
    return lines


def spice(draw, most=8, makers=(of_gates, of_gates, of_nets, of_pairs)):
    """The text of a cell `x` with at most that many transistors."""
    lines = draw.choice(makers)(draw, most)
    nets = sorted({net for line in lines for net in line[1:]} - {"vdd", "gnd"})
    pins = [net for net in nets if net in "abcdy" or draw.random() < 0.1]
    if draw.random() < 0.08:
        pins = pins[:1] * draw.randint(0, 1)
    pins += ["vdd", "gnd"]
    draw.shuffle(pins)
    text = [f".subckt x {' '.join(pins)}"]
    narrow = draw.random() < 0.7
    for at, (row, drain, on, source) in enumerate(draw.sample(lines, len(lines)) if draw.random() < 0.5 else lines):
        width = draw.choice(WIDTHS[:6] if narrow else WIDTHS)
        body = "vdd" if row == "p" else "gnd"
        text.append(f"m{at} {drain} {on} {source} {body} {row} w={width} l=0.6u")
    return "\n".join([*text, ".ends", ""])
