"""Widths, distances and surrounds of a cell, and its transistors, by KLayout: the same kind of work as `extract`.

    QT_QPA_PLATFORM=offscreen klayout -z -r benchmarks/klayout_extract.py -rd gds=cell.gds -rd cell=top
"""
import pya

UNIT = 150  # nanometres, half a lambda
LAYERS = {"well": 42, "active": 43, "poly": 46, "contact": 25, "metal1": 49, "via": 50, "metal2": 51}
# Least widths and distances in units, and surrounds of one layer by another.
WIDTHS = {"well": 20, "active": 6, "poly": 4, "contact": 4, "metal1": 6, "via": 4, "metal2": 6}
SPACES = {"well": 12, "active": 6, "poly": 4, "contact": 4, "metal1": 6, "via": 6, "metal2": 6}
SURROUNDS = (("active", "contact", 2), ("metal1", "contact", 2), ("metal1", "via", 2), ("metal2", "via", 2))

layout = pya.Layout()
layout.read(gds)
top = layout.cell(cell)
found = pya.LayoutToNetlist(pya.RecursiveShapeIterator(layout, top, []))
on = {name: found.make_layer(layout.layer(number, 0), name) for name, number in LAYERS.items()}
broken = sum(on[name].width_check(WIDTHS[name] * UNIT).count() + on[name].space_check(SPACES[name] * UNIT).count() for name in LAYERS)
broken += sum((on[around] & on[inner]).enclosed_check(on[around], least * UNIT).count() for around, inner, least in SURROUNDS)
broken += (on["active"] - on["poly"]).separation_check(on["poly"], UNIT).count() if on["poly"].count() else 0
for kind, area in (("p", on["active"] & on["well"]), ("n", on["active"] - on["well"])):
    ends, gates = area - on["poly"], area & on["poly"]
    found.register(ends, "ends_" + kind)
    found.register(gates, "gates_" + kind)
    found.extract_devices(pya.DeviceExtractorMOS3Transistor(kind), {"SD": ends, "G": gates, "P": on["poly"]})
    found.connect(ends)
    found.connect(ends, on["contact"])
for name in ("poly", "contact", "metal1", "via", "metal2"):
    found.connect(on[name])
for one, other in (("poly", "contact"), ("contact", "metal1"), ("metal1", "via"), ("via", "metal2")):
    found.connect(on[one], on[other])
found.extract_netlist()
nets = sum(circuit.each_net() is not None and len(list(circuit.each_net())) for circuit in found.netlist().each_circuit())
print("broken", broken, "nets", nets)
