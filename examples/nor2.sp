* y = not (a or b): P in series, N in parallel.
.SUBCKT nor2 a b y vdd gnd
*.PININFO a:I b:I y:O vdd:B gnd:B
MPA p1 a vdd vdd p W=6u L=0.6u
MPB y b p1 vdd p W=6u L=0.6u
MNA y a gnd gnd n W=1.5u L=0.6u
MNB y b gnd gnd n W=1.5u L=0.6u
.ENDS
