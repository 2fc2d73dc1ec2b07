* A buffer: two inverters in a row, the second twice as strong.
.SUBCKT buf a y vdd gnd
*.PININFO a:I y:O vdd:B gnd:B
MP1 b a vdd vdd p W=3u L=0.6u
MN1 b a gnd gnd n W=1.5u L=0.6u
MP2 y b vdd vdd p W=6u L=0.6u
MN2 y b gnd gnd n W=3u L=0.6u
.ENDS
