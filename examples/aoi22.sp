* An AND-OR-INVERT gate: y = not ((a and b) or (c and d)).
.SUBCKT aoi22 a b c d y vdd gnd
*.PININFO a:I b:I c:I d:I y:O vdd:B gnd:B
MPA y a p vdd p W=6u L=0.6u
MPB y b p vdd p W=6u L=0.6u
MPC p c vdd vdd p W=6u L=0.6u
MPD p d vdd vdd p W=6u L=0.6u
MNA y a n1 gnd n W=3u L=0.6u
MNB n1 b gnd gnd n W=3u L=0.6u
MNC y c n2 gnd n W=3u L=0.6u
MND n2 d gnd gnd n W=3u L=0.6u
.ENDS
