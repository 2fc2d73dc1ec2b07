* Two pairs of switches: a and b join x and y, c and d join u and v, in both rows.
.SUBCKT ring a b c d x y u v vdd gnd
MPA x a y vdd p W=3u   L=0.6u
MNA x a y gnd n W=1.5u L=0.6u
MPB x b y vdd p W=3u   L=0.6u
MNB x b y gnd n W=1.5u L=0.6u
MPC u c v vdd p W=3u   L=0.6u
MNC u c v gnd n W=1.5u L=0.6u
MPD u d v vdd p W=3u   L=0.6u
MND u d v gnd n W=1.5u L=0.6u
.ENDS
