"""Subcircuits of SPICE texts, and those of rows of cells."""
import re


def subcircuits(text):
    """The lines of each subcircuit by its name, joined and in lower case."""
    lines, found, inside = [], {}, None
    for line in text.lower().splitlines():
        line = re.sub(r"(^|\s)\$.*", "", line)
        if line.lstrip().startswith("+") and lines:
            lines[-1] += " " + line.lstrip()[1:]
        elif line.strip() and not line.lstrip().startswith("*"):
            lines.append(line.strip())
    rails = [word for line in lines if line.startswith(".global") for word in line.split()[1:]]
    for line in lines:
        words = re.sub(r"\s*=\s*", "=", line).split()
        if words[0] == ".subckt":
            pins = [word for word in words[2:] if "=" not in word]
            inside = found.setdefault(words[1], [" ".join([".subckt", words[1], *pins, *(r for r in rails if r not in pins)])])
        elif words[0] == ".ends":
            inside = None
        elif inside is not None and words[0].startswith("m"):
            sizes = [word for word in words[6:] if word[:2] in ("w=", "l=", "m=")]
            bulk = "vdd" if words[5][0] == "p" else "gnd"
            inside.append(" ".join([*words[:4], bulk, words[5][0], *sizes]))
    return found


def named(place, net):
    return net if net in ("vdd", "gnd") else f"{place}#{net}"


def of_row(text, top, cells):
    """The subcircuit of a row of the cells of a SPICE text."""
    known = subcircuits(text)
    pins, devices = [], []
    for place, cell in enumerate(cells):
        head, *lines = known[cell.lower()]
        pins += [pin for pin in (named(place, net) for net in head.split()[2:]) if pin not in pins]
        for line in lines:
            device, drain, gate, source, *rest = line.split()
            nets = [named(place, net) for net in (drain, gate, source)]
            devices.append(" ".join([f"{device}_{place}", *nets, *rest]))
    return "\n".join([f".subckt {top.lower()} {' '.join(pins)}", *devices, ".ends", ""])
