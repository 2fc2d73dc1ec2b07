* Four inverters of three fingers each on net b, and the inverter before them. Gate b has too many ways to pair.
.SUBCKT many a y0 y1 y2 y3 vdd gnd
MPA b  a vdd vdd p W=3u   L=0.6u
MNA b  a gnd gnd n W=1.5u L=0.6u
MP0 y0 b vdd vdd p W=3u   L=0.6u M=3
MN0 y0 b gnd gnd n W=1.5u L=0.6u M=3
MP1 y1 b vdd vdd p W=3u   L=0.6u M=3
MN1 y1 b gnd gnd n W=1.5u L=0.6u M=3
MP2 y2 b vdd vdd p W=3u   L=0.6u M=3
MN2 y2 b gnd gnd n W=1.5u L=0.6u M=3
MP3 y3 b vdd vdd p W=3u   L=0.6u M=3
MN3 y3 b gnd gnd n W=1.5u L=0.6u M=3
.ENDS
