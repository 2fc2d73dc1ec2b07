* The carry of a full adder: co = (a and b) or (c and (a or b)), both rows of the same shape.
.SUBCKT carry a b c co vdd gnd
*.PININFO a:I b:I c:I co:O vdd:B gnd:B
MP1 p1 a vdd vdd p W=6u L=0.6u
MP2 p1 b vdd vdd p W=6u L=0.6u
MP3 m c p1 vdd p W=6u L=0.6u
MP4 p2 b vdd vdd p W=6u L=0.6u
MP5 m a p2 vdd p W=6u L=0.6u
MN1 n1 a gnd gnd n W=3u L=0.6u
MN2 n1 b gnd gnd n W=3u L=0.6u
MN3 m c n1 gnd n W=3u L=0.6u
MN4 n2 b gnd gnd n W=3u L=0.6u
MN5 m a n2 gnd n W=3u L=0.6u
MPO co m vdd vdd p W=3u L=0.6u
MNO co m gnd gnd n W=1.5u L=0.6u
.ENDS
