* Made up for the course: at one line net m has to be above k, at another one below y. With doglegs two tracks are enough.
.SUBCKT turn m vdd gnd
M1 m a m vdd p W=3u L=0.6u
M2 k a gnd gnd n W=1.5u L=0.6u
M3 m b k vdd p W=3u L=0.6u
M4 gnd b k gnd n W=1.5u L=0.6u
M5 y c y vdd p W=3u L=0.6u
M6 m c gnd gnd n W=1.5u L=0.6u
.ENDS
