"""The fingers of a SPICE subcircuit, as docs/MANUAL.md tells them: what an encoder and a search need of a cell.

Only what the cells of the measures use is read: no faults are told, and sizes are in microns or metres.
"""
import re
from collections import Counter, namedtuple

Finger = namedtuple("Finger", "gate lo hi width")            # nets by number, lo <= hi
Fingers = namedtuple("Fingers", "nets p n")                  # the names of the nets, the fingers of both rows

UNIT_UM = 0.15                                               # a grid unit of the plain technology
SCALES = {"": 1e6, "u": 1, "n": 1e-3, "p": 1e-6, "m": 1e3}


def microns(word):
    value, scale = re.fullmatch(r"([0-9.]+(?:e[+-]?\d+)?)([a-z]?).*", word).groups()
    return float(value) * SCALES[scale]


def lines_of(text):
    """Lines in lower case without comments, joined where they go on."""
    plain = re.sub(r"(^|[ \t])\$.*", "", text.lower(), flags=re.MULTILINE)
    kept = [line for line in plain.splitlines() if line.strip() and not line.lstrip().startswith("*")]
    return re.sub(r"\n[ \t]*\+", " ", "\n".join(kept)).splitlines()


def body_of(text, name):
    """The pins of the subcircuit, the rails of `.global` lines among them, and the words of its transistors."""
    pins, devices, rails, inside = [], [], [], False
    for line in lines_of(text):
        words = re.sub(r"[ \t]*=[ \t]*", "=", line).split()
        if words[:2] == [".subckt", name]:
            inside, pins = True, words[2:]
        elif words[0] == ".ends":
            inside = False
        elif words[0] == ".global":
            rails += words[1:]
        elif inside:
            devices.append(words)
    return pins + [rail for rail in ("vdd", "gnd") if rail in rails and rail not in pins], devices


def cut(words, most):
    """The widths of the fingers that a transistor's line stands for."""
    keys = dict(word.split("=") for word in words[6:])
    units = round(microns(keys["w"]) / UNIT_UM)
    count = max(-(-units // most), int(keys.get("nf", 1)))
    return int(keys.get("m", 1)) * [units // count + (at < units % count) for at in range(count)]


def fingers_of(text, name, most=40):
    """The fingers of a subcircuit; `most` is the greatest width of a finger in units."""
    pins, devices = body_of(text, name)
    nets = list(dict.fromkeys(pins + [net for words in devices for net in words[1:4]]))
    number, rows = {net: at for at, net in enumerate(nets)}, {"p": [], "n": []}
    for words in devices:
        drain, gate, source = (number[net] for net in words[1:4])
        rows[words[5][0]] += [Finger(gate, min(drain, source), max(drain, source), width) for width in cut(words, most)]
    return Fingers(nets, rows["p"], rows["n"])


def of_one_width(row):
    """The fingers in order, without what makes no gap."""
    return sorted(one._replace(width=0) for one in row)


def columns_on(fingers):
    """For each gate its columns and its half columns."""
    p, n = (Counter(one.gate for one in row) for row in (fingers.p, fingers.n))
    return {gate: (max(p[gate], n[gate]), abs(p[gate] - n[gate])) for gate in sorted(p | n)}


def has_more_p(fingers, gate):
    return sum(one.gate == gate for one in fingers.p) > sum(one.gate == gate for one in fingers.n)


def columns_of(fingers):
    return sum(columns for columns, _ in columns_on(fingers).values())


def half_columns_of(fingers):
    return sum(halves for _, halves in columns_on(fingers).values())
