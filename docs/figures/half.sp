* Gate a has more P fingers, gate b more N fingers.
.SUBCKT half a b x y z vdd gnd
MPA z a vdd vdd p W=3u   L=0.6u
MPC z a vdd vdd p W=3u   L=0.6u
MPB x b y   vdd p W=3u   L=0.6u
MNA x a z   gnd n W=1.5u L=0.6u
MNB y b gnd gnd n W=1.5u L=0.6u
MNC x b z   gnd n W=1.5u L=0.6u
.ENDS
