* An OR-AND-INVERT gate: y = not ((a or b) and c).
.SUBCKT oai21 a b c y vdd gnd
*.PININFO a:I b:I c:I y:O vdd:B gnd:B
MPA p1 a vdd vdd p W=6u L=0.6u
MPB y b p1 vdd p W=6u L=0.6u
MPC y c vdd vdd p W=3u L=0.6u
MNA y a n1 gnd n W=3u L=0.6u
MNB y b n1 gnd n W=3u L=0.6u
MNC n1 c gnd gnd n W=3u L=0.6u
.ENDS
