* A latch as libraries write it: global rails, lines that go on, areas and perimeters.
.GLOBAL vdd gnd

.SUBCKT latch E D Q
*.PININFO E:I D:I Q:O
MPE  en E vdd vdd pmos W=3u L=0.6u
+ AD=3.6p PD=8.4u
MNE  en E gnd gnd nmos W=1.5u L=0.6u  $ the inverted enable
+ AD=1.8p PD=5.4u
MPD  p1 D  vdd vdd pmos W=3u   L=0.6u
MPS  m  en p1  vdd pmos W=3u   L=0.6u
MND  n1 D  gnd gnd nmos W=1.5u L=0.6u
MNS  m  E  n1  gnd nmos W=1.5u L=600n
MPQ  Q  m  vdd vdd pmos W=3u   L=0.6u
MNQ  Q  m  gnd gnd nmos W=1.5u L=0.6u
MPK  m  Q  vdd vdd pmos W=0.9u L=0.6u
MNK  m  Q  gnd gnd nmos W=900N L=6e-7
.ENDS latch
