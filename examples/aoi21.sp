* An AND-OR-INVERT gate: y = not ((a and b) or c).
.SUBCKT aoi21 a b c y vdd gnd
*.PININFO a:I b:I c:I y:O vdd:B gnd:B
MPA p1 a vdd vdd p W=6u L=0.6u
MPB p1 b vdd vdd p W=6u L=0.6u
MPC y c p1 vdd p W=6u L=0.6u
MNA y a n1 gnd n W=3u L=0.6u
MNB n1 b gnd gnd n W=3u L=0.6u
MNC y c gnd gnd n W=1.5u L=0.6u
.ENDS
