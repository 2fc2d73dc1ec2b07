* A library of three cells in one file.
.SUBCKT or2 a b y vdd gnd
*.PININFO a:I b:I y:O vdd:B gnd:B
MPA p1 a vdd vdd p W=6u L=0.6u
MPB n b p1 vdd p W=6u L=0.6u
MNA n a gnd gnd n W=1.5u L=0.6u
MNB n b gnd gnd n W=1.5u L=0.6u
MPY y n vdd vdd p W=3u L=0.6u
MNY y n gnd gnd n W=1.5u L=0.6u
.ENDS or2

.SUBCKT and2 a b y vdd gnd
*.PININFO a:I b:I y:O vdd:B gnd:B
MPA n a vdd vdd p W=3u L=0.6u
MPB n b vdd vdd p W=3u L=0.6u
MNA n a n1 gnd n W=3u L=0.6u
MNB n1 b gnd gnd n W=3u L=0.6u
MPY y n vdd vdd p W=3u L=0.6u
MNY y n gnd gnd n W=1.5u L=0.6u
.ENDS and2

* y = (a and b) or (c and d)
.SUBCKT ao22 a b c d y vdd gnd
*.PININFO a:I b:I c:I d:I y:O vdd:B gnd:B
MPA n a p vdd p W=6u L=0.6u
MPB n b p vdd p W=6u L=0.6u
MPC p c vdd vdd p W=6u L=0.6u
MPD p d vdd vdd p W=6u L=0.6u
MNA n a n1 gnd n W=3u L=0.6u
MNB n1 b gnd gnd n W=3u L=0.6u
MNC n c n2 gnd n W=3u L=0.6u
MND n2 d gnd gnd n W=3u L=0.6u
MPY y n vdd vdd p W=3u L=0.6u
MNY y n gnd gnd n W=1.5u L=0.6u
.ENDS ao22
