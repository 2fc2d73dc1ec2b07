# The netlist of a block's drawing: GDS, CELL and OUT of the environment. With BODIES the technology SCN3ME_SUBM.30 reports each
# transistor's body by wells and taps; else docs/cellgen.tech, with which Magic was called, gives bodies by their names.
if {[info exists ::env(BODIES)]} {
    path sys +/usr/share/qflow/tech/osu050
    tech load SCN3ME_SUBM.30
    scalegrid 1 4
    cif istyle "lambda=0.30(p)"
}
drc off
gds read $::env(GDS)
load $::env(CELL)
select top cell
port makeall
extract no all
extract all
ext2spice lvs
ext2spice subcircuit top on
ext2spice hierarchy on
ext2spice -o $::env(OUT)
quit -noprompt
