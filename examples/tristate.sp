* A tri-state inverter, each half of two fingers. Trunks of its first row form a cycle: `--low` makes it.
.SUBCKT tristate a en y vdd gnd
*.PININFO a:I en:I y:O vdd:B gnd:B
MPE  enb en  vdd vdd p W=3u   L=0.6u
MNE  enb en  gnd gnd n W=1.5u L=0.6u
MPA1 p1  a   vdd vdd p W=6u   L=0.6u
MPY1 y   enb p1  vdd p W=6u   L=0.6u
MPA2 p1  a   vdd vdd p W=6u   L=0.6u
MPY2 y   enb p1  vdd p W=6u   L=0.6u
MNA1 n1  a   gnd gnd n W=3u   L=0.6u
MNY1 y   en  n1  gnd n W=3u   L=0.6u
MNA2 n1  a   gnd gnd n W=3u   L=0.6u
MNY2 y   en  n1  gnd n W=3u   L=0.6u
.ENDS
