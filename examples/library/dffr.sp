* A flip-flop with an asynchronous reset: where r is high, q is low. The other cells of a block are in cells.sp.
.subckt dffr c d r q vdd gnd
*.PININFO c:I d:I r:I q:O vdd:B gnd:B
Mp1 cn c vdd vdd pfet w=3u l=0.6u
Mn1 cn c gnd gnd nfet w=1.5u l=0.6u
Mp2 p1 d vdd vdd pfet w=3u l=0.6u
Mp3 m c p1 vdd pfet w=3u l=0.6u
Mn2 n1 d gnd gnd nfet w=1.5u l=0.6u
Mn3 m cn n1 gnd nfet w=1.5u l=0.6u
Mp4 mn m x1 vdd pfet w=3u l=0.6u
Mp13 x1 r vdd vdd pfet w=3u l=0.6u
Mn4 mn m gnd gnd nfet w=1.5u l=0.6u
Mn13 mn r gnd gnd nfet w=1.5u l=0.6u
Mp5 p2 mn vdd vdd pfet w=1.5u l=0.6u
Mp6 m cn p2 vdd pfet w=1.5u l=0.6u
Mn5 n2 mn gnd gnd nfet w=1.5u l=0.6u
Mn6 m c n2 gnd nfet w=1.5u l=0.6u
Mp7 p3 mn vdd vdd pfet w=3u l=0.6u
Mp8 s cn p3 vdd pfet w=3u l=0.6u
Mn7 n3 mn gnd gnd nfet w=1.5u l=0.6u
Mn8 s c n3 gnd nfet w=1.5u l=0.6u
Mp9 sn s x2 vdd pfet w=3u l=0.6u
Mp14 x2 r vdd vdd pfet w=3u l=0.6u
Mn9 sn s gnd gnd nfet w=1.5u l=0.6u
Mn14 sn r gnd gnd nfet w=1.5u l=0.6u
Mp10 p4 sn vdd vdd pfet w=1.5u l=0.6u
Mp11 s c p4 vdd pfet w=1.5u l=0.6u
Mn10 n4 sn gnd gnd nfet w=1.5u l=0.6u
Mn11 s cn n4 gnd nfet w=1.5u l=0.6u
Mp12 q s vdd vdd pfet w=3u l=0.6u
Mn12 q s gnd gnd nfet w=1.5u l=0.6u
.ends dffr
