* A multiplexer of two transmission gates: y is a where s is high, b where sn is. Each of its rows has a cycle.
.SUBCKT tgmux a b s sn y vdd gnd
*.PININFO a:I b:I s:I sn:I y:O vdd:B gnd:B
MPA a sn y vdd p W=3u   L=0.6u
MNA a s  y gnd n W=1.5u L=0.6u
MPB b s  y vdd p W=3u   L=0.6u
MNB b sn y gnd n W=1.5u L=0.6u
.ENDS
