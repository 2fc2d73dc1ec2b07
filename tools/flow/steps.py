"""The steps from a design in Verilog and a library of cells to a block that was checked. Each reports its result."""
from __future__ import annotations

import re
import shutil
from dataclasses import dataclass, field
from pathlib import Path

import block
import gdsii
import project
import technology
import tools
import transistors
import waveform
from library import Library
from tools import Failed


@dataclass
class Flow:
    """The flow while it runs: what is asked for, and what its steps leave for later ones."""
    library: Library
    design: Path
    testbench: Path
    out: Path
    density: float | None
    inputs: list[str] = field(default_factory=list)
    outputs: list[str] = field(default_factory=list)
    behaviour: waveform.Trace = field(default_factory=waveform.Trace)
    devices: int = 0

    @property
    def name(self) -> str:
        return self.design.stem

    @property
    def project(self) -> Path:
        return self.out / "project"

    @property
    def verilog(self) -> Path:
        return self.project / "synthesis" / f"{self.name}.rtlnopwr.v"

    @property
    def block(self) -> Path:
        return self.out / "block" / f"{self.name}.gds"

    def behave(self) -> str:
        """The design under its testbench: what all later simulations are compared with."""
        self.behaviour = self.simulated("behaviour", [self.design])
        return f"{self.behaviour.end / 1000:g} ns under {self.testbench.name}"

    def simulated(self, name: str, sources: list[Path]) -> waveform.Trace:
        folder = self.out / "simulation" / name
        tools.simulate([self.testbench, *sources], folder)
        written = folder / f"{self.name}.vcd"
        if not written.exists():
            raise Failed(f"{self.testbench} writes no {written.name}")
        return waveform.read(written, "dut")

    def compared(self, found: waveform.Trace) -> str:
        instants = self.behaviour.instants(self.inputs)
        count, wrong = waveform.differences(self.behaviour, found, instants, self.outputs)
        if wrong or not count:
            raise Failed(f"{len(wrong)} of {count} levels differ: {wrong[0]}" if wrong else "nothing was compared")
        return f"{count} levels at {len(instants)} instants are those of the design"

    def configure(self, seed: int) -> None:
        settings = project.settings(self.density, self.library.parts().words, self.library.filler)
        project.configure(self.project, self.library.tech, self.library.grid, seed, settings)

    def synthesise(self) -> str:
        """Gates of the library (yosys, by qflow)."""
        project.write(self.project, self.design, self.library.views)
        self.configure(1)
        lacks = ", ".join(self.library.parts().missing)
        try:
            tools.qflow("synthesize", self.project, project.NAME, self.name)
        except Failed as fault:
            more = f"; the library has no {lacks}" if lacks else ""
            raise Failed(f"{fault}{more}; see {self.project / 'log' / 'synth.log'}") from None
        self.inputs, self.outputs = waveform.ports(self.verilog.read_text())
        used = re.findall(r"^X\S+ .* (\S+)$", self.netlist(), re.M)
        sizes = self.library.transistors()
        lost = sorted(set(used) - set(sizes))
        if lost or not used:
            raise Failed((f"{' '.join(lost)}: no cell of the library does this" if lost else "no cell is left")
                         + (f"; it has no {lacks}" if lacks else "") + f"; see {self.project / 'log' / 'synth.log'}")
        self.devices = sum(sizes[cell] for cell in used)
        kinds = ", ".join(f"{used.count(cell)} {cell}" for cell in sorted(set(used)))
        return f"{len(used)} cells of {self.devices} transistors: {kinds}"

    def netlist(self) -> str:
        """The synthesised netlist without the fillers, which have no transistors."""
        text = (self.project / "synthesis" / f"{self.name}.spc").read_text()
        filler = re.escape(self.library.filler)
        return re.sub(rf"^(\.include .*|\.end|X\S+ (?:.* )?{filler})\n", "", text, flags=re.M)

    def simulate_gates(self) -> str:
        """The synthesised netlist under the same testbench."""
        return self.compared(self.simulated("gates", [self.verilog, self.library.views.with_suffix(".v")]))

    def place_and_route(self, seed: int) -> str:
        """One placement (graywolf) and its wires (qrouter), drawn over the cells."""
        layout = self.project / "layout"
        shutil.rmtree(layout, ignore_errors=True)
        layout.mkdir()
        self.configure(seed)
        for step in ("place", "route"):
            tools.qflow(step, self.project, project.NAME, self.name)
        log = (self.project / "log" / "route.log").read_text()
        if "Final: No failed routes!" not in log:
            raise Failed(next(iter(re.findall(r"^Final: (.*)$", log, re.M)), "the router did not come to its end"))
        placed = self.placed()
        self.draw(placed)
        rows = len({it.y for it in placed.components})
        return f"seed {seed}: {len(placed.nets)} nets, {len(placed.components)} cells with fillers in {rows} rows"

    def placed(self) -> block.Placed:
        return block.read_def(self.project / "layout" / f"{self.name}.def")

    def draw(self, placed: block.Placed) -> None:
        """Writes the block as its cells with its wires; flat; and flat for `extract`."""
        tech, unit = self.library.tech, self.library.tech.unit_nm
        sizes = {macro.name: (macro.width * unit, macro.height * unit) for macro in self.library.macros()}
        rules = block.read_technology(self.library.views.with_suffix(".lef").read_text())
        structures = self.library.structures()
        structures[self.name] = block.draw(self.name, placed, rules, sizes, unit, (tech.vdd, tech.gnd))
        self.block.parent.mkdir(exist_ok=True)
        gdsii.write(self.block, structures.values())
        gdsii.write(self.block.with_name("flat.gds"), [gdsii.flat(structures, self.name)])
        gdsii.write(self.block.with_name("two_metals.gds"), [block.for_extract(structures, self.name)])

    def check_rules(self) -> str:
        """Magic's own rules on the block."""
        found = tools.magic_rules(self.block.with_name("flat.gds"), self.name, self.block.parent)
        if found.rules:
            raise Failed(str(found))
        return f"no broken rule; 6.5.b, which is void, at {found.void} places"

    def extract(self) -> str:
        """The rules of the cells on the whole block, by `cellgen extract`."""
        flat = self.block.with_name("two_metals.gds")
        found = technology.extract(self.library.height, flat, self.name, self.library.has_taps)
        if not found.is_clean:
            raise Failed(found.said)
        if len(found.devices) != self.devices:
            raise Failed(f"{len(found.devices)} transistors, not {self.devices}")
        return f"no broken rule; {len(found.devices)} transistors"

    def compare(self) -> str:
        """The drawing's netlist beside the synthesised one."""
        folder = self.block.parent
        drawn = tools.magic_netlist(self.block, self.name, folder, self.library.has_taps)
        wanted = folder / "source.spice"
        wanted.write_text(self.library.subcircuits() + self.netlist())
        match = tools.netgen(drawn, wanted, self.name, folder, "compare")
        if not match.is_same:
            raise Failed(match.said)
        return match.said

    def control(self) -> str:
        """The same comparison has to find two exchanged nets of the netlist, and a via missing in the drawing."""
        return f"{self.exchange_nets()}; {self.leave_out_a_via()}"

    def exchange_nets(self) -> str:
        folder, tech = self.block.parent, self.library.tech
        top = self.netlist()
        name, first, *rest = re.search(r"^X.*$", top, re.M).group(0).split()
        others = [at for at, net in enumerate(rest[:-1]) if net not in (first, tech.vdd, tech.gnd)]
        if not others:
            raise Failed(f"{name} has no two nets that could be exchanged")
        last = others[-1]
        rest[last], first = first, rest[last]
        exchanged = re.sub(r"^X.*$", " ".join([name, first, *rest]), top, count=1, flags=re.M)
        wrong = folder / "exchanged.spice"
        wrong.write_text(self.library.subcircuits() + exchanged)
        match = tools.netgen(folder / "drawn.spice", wrong, self.name, folder, "control")
        if match.is_same:
            raise Failed("two exchanged nets were not found")
        return f"{first} and {rest[last]} exchanged at {name}: {match.said}"

    def leave_out_a_via(self) -> str:
        folder = self.block.parent / "open"
        folder.mkdir(exist_ok=True)
        structures = gdsii.read(self.block)
        top, tech = structures[self.name], self.library.tech
        nets = self.placed().nets
        signal = next(name for name, wiring in nets.items() if name not in (tech.vdd, tech.gnd) and wiring.vias)
        _, x, y = nets[signal].vias[0]
        cuts, centre = (gdsii.LAYERS["via"], gdsii.LAYERS["via2"]), gdsii.Box(x, y, x + 1, y + 1)
        top.boxes = [(layer, box) for layer, box in top.boxes if layer not in cuts or not box.overlaps(centre)]
        gdsii.write(folder / self.block.name, structures.values())
        tools.magic_netlist(folder / self.block.name, self.name, folder, self.library.has_taps)
        wanted = folder / "source.spice"
        wanted.write_text((self.block.parent / wanted.name).read_text())
        match = tools.netgen(folder / "drawn.spice", wanted, self.name, folder, "control")
        if match.is_same:
            raise Failed("a via that was left out was not found")
        return f"a via of {signal} left out: {match.said}"

    def simulate_transistors(self) -> str:
        """The drawing's transistors under the inputs of the testbench (ngspice)."""
        folder = self.out / "simulation" / "transistors"
        folder.mkdir(parents=True, exist_ok=True)
        out = folder / "levels.data"
        out.unlink(missing_ok=True)
        deck = folder / "block.cir"
        drawn = (self.block.parent / "drawn.spice").read_text()
        deck.write_text(transistors.deck(self.name, drawn, self.behaviour, self.inputs, self.outputs, out.name))
        tools.ngspice(deck)
        return self.compared(transistors.read(out, self.outputs)) + ", all full"

    def picture(self) -> str:
        out = self.block.with_suffix(".svg")
        tools.script("block-picture", [self.block, "--cell", self.name], out)
        return str(out)
