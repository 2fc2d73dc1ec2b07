* y = not (a and b): P in parallel, N in series.
.SUBCKT nand2 a b y vdd gnd
*.PININFO a:I b:I y:O vdd:B gnd:B
MPA y a vdd vdd p W=3u L=0.6u
MPB y b vdd vdd p W=3u L=0.6u
MNA y a n1 gnd n W=3u L=0.6u
MNB n1 b gnd gnd n W=3u L=0.6u
.ENDS
