"""Made cells as Magic reads them, and their netlists as netgen compares them."""
import pathlib
import re
import subprocess
import tempfile

TOP = pathlib.Path(__file__).resolve().parent.parent.parent

ABSTRACT = """
lef read {name}.lef
load {name}
quit -noprompt
"""

DRAWING = """
gds read {name}.gds
load {name}
select top cell
{ports}
extract all
ext2spice lvs
ext2spice subcircuit top on
ext2spice -o drawn.spice
quit -noprompt
"""

BODIES = """
path sys +/usr/share/qflow/tech/osu050
tech load SCN3ME_SUBM.30
scalegrid 1 4
cif istyle "lambda=0.30(p)"
drc off
gds read {name}.gds
load {name}
select top cell
port makeall
extract no all
extract all
ext2spice lvs
ext2spice subcircuit top on
ext2spice -o bodies.spice
quit -noprompt
"""

# Drain and source can be exchanged, fingers in parallel are one transistor, and areas of diffusion are not compared.
SETUP = """
foreach circuit {-circuit1 -circuit2} {
    foreach kind {n p nfet pfet} {
        if {[catch {permute "$circuit $kind" drain source}]} { continue }
        property "$circuit $kind" remove as ad ps pd
        property "$circuit $kind" tolerance {w 0.001} {l 0.001}
        property "$circuit $kind" parallel enable
        property "$circuit $kind" parallel {w add}
    }
}
"""

# What Magic says of a file that it reads well.
QUIET = re.compile(
    r"\s*$|Magic 8|Starting magic|Using |Input style|Processing system|Loading |Warning: Calma reading|Library|Reading |LEF read|"
    r"Moving label|Extracting|exttospice|Main console|This action cannot be undone|DRC|.*[Bb]oundary|\d+ \d+ \d+ \d+"
)


def run(words, folder, **more):
    ended = subprocess.run(words, cwd=folder, capture_output=True, text=True, check=False, timeout=300, **more)
    return ended.stdout + ended.stderr


def complaint(script, room):
    """The first line with which Magic does not read well."""
    (room / "read.tcl").write_text(script)
    said = run(["magic", "-dnull", "-noconsole", "-T", str(TOP / "docs/cellgen.tech"), "read.tcl"], room, stdin=subprocess.DEVNULL)
    return next((f"Magic says: {line}" for line in said.splitlines() if not QUIET.match(line)), "")


def difference(drawn, wanted, name, room):
    """What netgen finds of two netlists: nothing where they are the same."""
    said = run(["netgen-lvs", "-batch", "lvs", f"{drawn} {name}", f"{wanted} {name}", "setup.tcl", "compared"], room)
    well = "Circuits match uniquely." in said and "Property errors were found" not in said
    told = re.findall("Result: .*|Property errors were found.*", said) or [said[-200:]]
    return "" if well else f"netgen says: {told[-1]}"


def body_difference(lines, name, room):
    """The same of the netlist with the bodies that Magic finds by wells and taps."""
    (room / "read.tcl").write_text(BODIES.format(name=name))
    said = run(["magic", "-dnull", "-noconsole", "-rcfile", "/dev/null", "read.tcl"], room, stdin=subprocess.DEVNULL)
    if not (room / "bodies.spice").exists():
        return f"Magic says: {said.strip().splitlines()[-1:]}"
    models = [re.sub(r"^(m\S*(?: \S+){4}) ([np])", r"\1 \2fet", line) for line in lines]
    (room / "with_bodies.spice").write_text("\n".join([*models, ".ends", ""]))
    told = difference("bodies.spice", "with_bodies.spice", name, room)
    return told and f"with bodies, {told}"


def check(lines, name, made, has_taps):
    """What is to be said of a made cell: nothing where it is the same."""
    with tempfile.TemporaryDirectory() as folder:
        room = pathlib.Path(folder)
        files = [file for file in (made / f"{name}.gds", made / f"{name}.lef") if file.exists()]
        for file in files:
            (room / file.name).write_bytes(file.read_bytes())
        (room / "wanted.spice").write_text("\n".join([*lines, ".ends", ""]))
        (room / "setup.tcl").write_text(SETUP)
        ports = "\n".join(f"findlabel {pin}\nport make" for pin in lines[0].split()[2:])
        loud = complaint(ABSTRACT.format(name=name), room) if len(files) > 1 else ""
        loud = loud or complaint(DRAWING.format(name=name, ports=ports), room)
        if loud:
            return loud
        told = difference("drawn.spice", "wanted.spice", name, room)
        return told or (body_difference(lines, name, room) if has_taps else "")
