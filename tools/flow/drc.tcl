# Magic's rules on a block: GDS, CELL and STYLE of the environment; the technology SCN3ME_SUBM.30 of Debian's qflow-tech-osu050.
# Says a line `rule COUNT TEXT : FIRST BOX` for each broken rule.
path sys +/usr/share/qflow/tech/osu050
tech load SCN3ME_SUBM.30
scalegrid 1 4
drc off
drc euclidean off
cif istyle "lambda=0.30($::env(STYLE))"
gds read $::env(GDS)
load $::env(CELL)
select top cell
box grow center 60i
drc on
drc check
drc catchup
foreach {why boxes} [drc listall why] { puts "rule [llength $boxes] $why : [lindex $boxes 0]" }
puts "rules looked at"
quit -noprompt
