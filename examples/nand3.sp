* y = not (a and b and c).
.SUBCKT nand3 a b c y vdd gnd
*.PININFO a:I b:I c:I y:O vdd:B gnd:B
MPA y a vdd vdd p W=3u L=0.6u
MPB y b vdd vdd p W=3u L=0.6u
MPC y c vdd vdd p W=3u L=0.6u
MNA y a n1 gnd n W=4.5u L=0.6u
MNB n1 b n2 gnd n W=4.5u L=0.6u
MNC n2 c gnd gnd n W=4.5u L=0.6u
.ENDS
