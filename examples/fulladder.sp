* A mirror full adder: s = a xor b xor c, co its carry.
.SUBCKT fulladder a b c co s vdd gnd
*.PININFO a:I b:I c:I co:O s:O vdd:B gnd:B
MP1 p1 a vdd vdd p W=6u L=0.6u
MP2 p1 b vdd vdd p W=6u L=0.6u
MP3 m c p1 vdd p W=6u L=0.6u
MP4 p2 b vdd vdd p W=6u L=0.6u
MP5 m a p2 vdd p W=6u L=0.6u
MN1 n1 a gnd gnd n W=3u L=0.6u
MN2 n1 b gnd gnd n W=3u L=0.6u
MN3 m c n1 gnd n W=3u L=0.6u
MN4 n2 b gnd gnd n W=3u L=0.6u
MN5 m a n2 gnd n W=3u L=0.6u
MP6 p3 a vdd vdd p W=6u L=0.6u
MP7 p3 b vdd vdd p W=6u L=0.6u
MP8 p3 c vdd vdd p W=6u L=0.6u
MP9 k m p3 vdd p W=6u L=0.6u
MPA p4 a vdd vdd p W=6u L=0.6u
MPB p5 b p4 vdd p W=6u L=0.6u
MPC k c p5 vdd p W=6u L=0.6u
MN6 n3 a gnd gnd n W=3u L=0.6u
MN7 n3 b gnd gnd n W=3u L=0.6u
MN8 n3 c gnd gnd n W=3u L=0.6u
MN9 k m n3 gnd n W=3u L=0.6u
MNA n4 a gnd gnd n W=3u L=0.6u
MNB n5 b n4 gnd n W=3u L=0.6u
MNC k c n5 gnd n W=3u L=0.6u
MPO co m vdd vdd p W=3u L=0.6u
MNO co m gnd gnd n W=1.5u L=0.6u
MPS s k vdd vdd p W=3u L=0.6u
MNS s k gnd gnd n W=1.5u L=0.6u
.ENDS
