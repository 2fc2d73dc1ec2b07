* A multiplexer that inverts: y = not a where s is low, not b where it is high.
.SUBCKT mux2 a b s y vdd gnd
*.PININFO a:I b:I s:I y:O vdd:B gnd:B
MPS sn s vdd vdd p W=3u L=0.6u
MNS sn s gnd gnd n W=1.5u L=0.6u
MPA p1 a vdd vdd p W=6u L=0.6u
MP1 y s p1 vdd p W=6u L=0.6u
MPB p2 b vdd vdd p W=6u L=0.6u
MP2 y sn p2 vdd p W=6u L=0.6u
MNA n1 a gnd gnd n W=3u L=0.6u
MN1 y sn n1 gnd n W=3u L=0.6u
MNB n2 b gnd gnd n W=3u L=0.6u
MN2 y s n2 gnd n W=3u L=0.6u
.ENDS
