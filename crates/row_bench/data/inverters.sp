* Three separate inverters: each row of three columns has a gap.
.SUBCKT x3 a b c x y z vdd gnd
MPA x a vdd vdd p W=3u   L=0.6u
MNA x a gnd gnd n W=1.5u L=0.6u
MPB y b vdd vdd p W=3u   L=0.6u
MNB y b gnd gnd n W=1.5u L=0.6u
MPC z c vdd vdd p W=3u   L=0.6u
MNC z c gnd gnd n W=1.5u L=0.6u
.ENDS
