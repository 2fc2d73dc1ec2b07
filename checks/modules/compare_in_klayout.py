"""Runs inside KLayout, called by checks/klayout with the words spice, folder and lambda_nm: compares each cell of the
folder with its subcircuit, and prints a line for each. Status 1: one differs. Status 2: there is none.
"""
import collections
import os
import re
import sys

import pya

UNIT = float(globals().get("lambda_nm", 300)) / 2000


def micron(word):
    number, scale = re.fullmatch(r"([0-9.]+(?:e[-+]?[0-9]+)?)([a-z]*)", word).groups()
    return float(number) * {"u": 1.0, "n": 1e-3, "p": 1e-6, "m": 1e3, "": 1e6}[scale[:1]]


def wanted(text, name):
    """The summed width in grid units for each kind and each set of nets."""
    lines, sums, inside = [], collections.Counter(), False
    for line in text.lower().splitlines():
        line = re.sub(r"(^|\s)\$.*", "", line)
        if line.lstrip().startswith("+") and lines:
            lines[-1] += " " + line.lstrip()[1:]
        elif line.strip() and not line.lstrip().startswith("*"):
            lines.append(line)
    for line in lines:
        words = re.sub(r"\s*=\s*", "=", line).split()
        if words[0] == ".subckt":
            inside = words[1] == name
        elif inside and words[0].startswith("m"):
            drain, gate, source, kind = words[1], words[2], words[3], words[5][0]
            values = dict(word.split("=", 1) for word in words[6:])
            copies = round(micron(values.get("m", "1")) / 1e6)
            sums[kind, gate, *sorted((drain, source))] += copies * round(micron(values["w"]) / UNIT)
    return sums


def drawn(path, name):
    layout = pya.Layout()
    layout.read(path)
    found = pya.LayoutToNetlist(pya.RecursiveShapeIterator(layout, layout.cell(name), []))

    def on(number):
        return found.make_layer(layout.layer(number, 0), f"layer{number}")

    well, active, poly, contact, metal1, via, metal2 = (on(n) for n in (42, 43, 46, 25, 49, 50, 51))
    p_active, n_active = active & well, active - well
    kinds = {}
    for kind, area in (("p", p_active), ("n", n_active)):
        ends = area - poly
        found.register(ends, "ends_" + kind)
        gate = area & poly
        found.register(gate, "gate_" + kind)
        found.extract_devices(pya.DeviceExtractorMOS3Transistor(kind), {"SD": ends, "G": gate, "P": poly})
        kinds[kind] = ends
    for layer in (poly, contact, metal1, via, metal2, *kinds.values()):
        found.connect(layer)
    for ends in kinds.values():
        found.connect(ends, contact)
    found.connect(poly, contact)
    found.connect(contact, metal1)
    found.connect(metal1, via)
    found.connect(via, metal2)
    for number, layers in ((43, kinds.values()), (46, [poly]), (49, [metal1]), (51, [metal2])):
        texts = pya.Texts(layout.cell(name).shapes(layout.layer(number, 0)))
        labels = found.make_text_layer(layout.layer(number, 0), f"labels{number}")
        for layer in layers:
            found.connect(layer, labels)
    found.extract_netlist()
    netlist = found.netlist()
    netlist.flatten()
    sums = collections.Counter()
    for circuit in netlist.each_circuit():
        for device in circuit.each_device():
            nets = [device.net_for_terminal(t).expanded_name().lower() for t in ("S", "G", "D")]
            sums[device.device_class().name, nets[1], *sorted((nets[0], nets[2]))] += round(device.parameter("W") / UNIT)
    return sums


def metal(layout, cell, names):
    """What these layers of the cell cover."""
    found = pya.Region()
    for at in layout.layer_indexes():
        if str(layout.get_info(at)).split(" ")[0] in names:
            found += pya.Region(layout.cell(cell).begin_shapes_rec(at))
    return found.merged()


def has_same_metal(path, name):
    """Whether the abstract beside the drawing, where there is one, has its metal."""
    if not os.path.exists(path[:-3] + "lef"):
        return True
    shapes, abstract = pya.Layout(), pya.Layout()
    shapes.read(path)
    abstract.read(path[:-3] + "lef")
    return all(
        (metal(shapes, name, [f"{number}/0"]) ^ metal(abstract, name, [f"{layer}.PIN", f"{layer}.OBS"])).is_empty()
        for number, layer in ((49, "metal1"), (51, "metal2"))
    )


def has_cell(path, name):
    layout = pya.Layout()
    layout.read(path)
    return layout.has_cell(name)


text, count, bad = open(spice, encoding="latin-1").read(), 0, 0
for file in sorted(os.listdir(folder)):
    if file.endswith(".gds"):
        cell = file[:-4]
        path = os.path.join(folder, file)
        if not has_cell(path, cell):
            print(f"{file}: ignored, no cell has its name")
            continue
        if not re.search(rf"^\s*\.subckt\s+{re.escape(cell)}\s", text, re.I | re.M):
            print(f"{file}: ignored, SPICE has no such subcircuit")
            continue
        same = wanted(text, cell) == drawn(path, cell) and has_same_metal(path, cell)
        count, bad = count + 1, bad + (not same)
        print(f"{cell}: {'the same' if same else 'DIFFERS'}")
if not count:
    print(f"klayout: {folder} has no cell of {spice}", file=sys.stderr)
    sys.exit(2)
sys.exit(1 if bad else 0)
