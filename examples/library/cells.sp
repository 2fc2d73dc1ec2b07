* A small library: sixteen cells for a synthesised block. Channels of 0.6 um; a series of n transistors is n times as wide.

.subckt inv1 a y vdd gnd
*.PININFO a:I y:O vdd:B gnd:B
Mp1 y a vdd vdd pfet w=3u l=0.6u
Mn1 y a gnd gnd nfet w=1.5u l=0.6u
.ends inv1

.subckt inv2 a y vdd gnd
*.PININFO a:I y:O vdd:B gnd:B
Mp1 y a vdd vdd pfet w=6u l=0.6u
Mn1 y a gnd gnd nfet w=3u l=0.6u
.ends inv2

.subckt buf2 a y vdd gnd
*.PININFO a:I y:O vdd:B gnd:B
Mp1 n a vdd vdd pfet w=3u l=0.6u
Mn1 n a gnd gnd nfet w=1.5u l=0.6u
Mp2 y n vdd vdd pfet w=6u l=0.6u
Mn2 y n gnd gnd nfet w=3u l=0.6u
.ends buf2

.subckt nand2 a b y vdd gnd
*.PININFO a:I b:I y:O vdd:B gnd:B
Mp1 y a vdd vdd pfet w=3u l=0.6u
Mp2 y b vdd vdd pfet w=3u l=0.6u
Mn1 y a n1 gnd nfet w=3u l=0.6u
Mn2 n1 b gnd gnd nfet w=3u l=0.6u
.ends nand2

.subckt nand3 a b c y vdd gnd
*.PININFO a:I b:I c:I y:O vdd:B gnd:B
Mp1 y a vdd vdd pfet w=3u l=0.6u
Mp2 y b vdd vdd pfet w=3u l=0.6u
Mp3 y c vdd vdd pfet w=3u l=0.6u
Mn1 y a n1 gnd nfet w=3u l=0.6u
Mn2 n1 b n2 gnd nfet w=3u l=0.6u
Mn3 n2 c gnd gnd nfet w=3u l=0.6u
.ends nand3

.subckt nor2 a b y vdd gnd
*.PININFO a:I b:I y:O vdd:B gnd:B
Mp1 p1 a vdd vdd pfet w=6u l=0.6u
Mp2 y b p1 vdd pfet w=6u l=0.6u
Mn1 y a gnd gnd nfet w=1.5u l=0.6u
Mn2 y b gnd gnd nfet w=1.5u l=0.6u
.ends nor2

.subckt nor3 a b c y vdd gnd
*.PININFO a:I b:I c:I y:O vdd:B gnd:B
Mp1 p1 a vdd vdd pfet w=6u l=0.6u
Mp2 p2 b p1 vdd pfet w=6u l=0.6u
Mp3 y c p2 vdd pfet w=6u l=0.6u
Mn1 y a gnd gnd nfet w=1.5u l=0.6u
Mn2 y b gnd gnd nfet w=1.5u l=0.6u
Mn3 y c gnd gnd nfet w=1.5u l=0.6u
.ends nor3

* y = not (a and b or c)
.subckt aoi21 a b c y vdd gnd
*.PININFO a:I b:I c:I y:O vdd:B gnd:B
Mp1 p1 a vdd vdd pfet w=6u l=0.6u
Mp2 p1 b vdd vdd pfet w=6u l=0.6u
Mp3 y c p1 vdd pfet w=6u l=0.6u
Mn1 y a n1 gnd nfet w=3u l=0.6u
Mn2 n1 b gnd gnd nfet w=3u l=0.6u
Mn3 y c gnd gnd nfet w=1.5u l=0.6u
.ends aoi21

* y = not (a and b or c and d)
.subckt aoi22 c d a b y vdd gnd
*.PININFO c:I d:I a:I b:I y:O vdd:B gnd:B
Mp1 p1 a vdd vdd pfet w=6u l=0.6u
Mp2 p1 b vdd vdd pfet w=6u l=0.6u
Mp3 y c p1 vdd pfet w=6u l=0.6u
Mp4 y d p1 vdd pfet w=6u l=0.6u
Mn1 y a n1 gnd nfet w=3u l=0.6u
Mn2 n1 b gnd gnd nfet w=3u l=0.6u
Mn3 y c n2 gnd nfet w=3u l=0.6u
Mn4 n2 d gnd gnd nfet w=3u l=0.6u
.ends aoi22

* y = not ((a or b) and c)
.subckt oai21 a b c y vdd gnd
*.PININFO a:I b:I c:I y:O vdd:B gnd:B
Mp1 p1 a vdd vdd pfet w=6u l=0.6u
Mp2 y b p1 vdd pfet w=6u l=0.6u
Mp3 y c vdd vdd pfet w=3u l=0.6u
Mn1 n1 a gnd gnd nfet w=3u l=0.6u
Mn2 n1 b gnd gnd nfet w=3u l=0.6u
Mn3 y c n1 gnd nfet w=3u l=0.6u
.ends oai21

* y = not ((a or b) and (c or d))
.subckt oai22 a b c d y vdd gnd
*.PININFO a:I b:I c:I d:I y:O vdd:B gnd:B
Mp1 p1 a vdd vdd pfet w=6u l=0.6u
Mp2 y b p1 vdd pfet w=6u l=0.6u
Mp3 p2 c vdd vdd pfet w=6u l=0.6u
Mp4 y d p2 vdd pfet w=6u l=0.6u
Mn1 n1 a gnd gnd nfet w=3u l=0.6u
Mn2 n1 b gnd gnd nfet w=3u l=0.6u
Mn3 y c n1 gnd nfet w=3u l=0.6u
Mn4 y d n1 gnd nfet w=3u l=0.6u
.ends oai22

* y = a xor b
.subckt xor2 a b y vdd gnd
*.PININFO a:I b:I y:O vdd:B gnd:B
Mp1 an a vdd vdd pfet w=3u l=0.6u
Mn1 an a gnd gnd nfet w=1.5u l=0.6u
Mp2 bn b vdd vdd pfet w=3u l=0.6u
Mn2 bn b gnd gnd nfet w=1.5u l=0.6u
Mp3 p1 a vdd vdd pfet w=6u l=0.6u
Mp4 p1 b vdd vdd pfet w=6u l=0.6u
Mp5 y an p1 vdd pfet w=6u l=0.6u
Mp6 y bn p1 vdd pfet w=6u l=0.6u
Mn3 y a n1 gnd nfet w=3u l=0.6u
Mn4 n1 b gnd gnd nfet w=3u l=0.6u
Mn5 y an n2 gnd nfet w=3u l=0.6u
Mn6 n2 bn gnd gnd nfet w=3u l=0.6u
.ends xor2

* y = b where s is high, else a
.subckt mux2 s a b y vdd gnd
*.PININFO s:I a:I b:I y:O vdd:B gnd:B
Mp1 sn s vdd vdd pfet w=3u l=0.6u
Mn1 sn s gnd gnd nfet w=1.5u l=0.6u
Mp2 p1 a vdd vdd pfet w=3u l=0.6u
Mp3 yn s p1 vdd pfet w=3u l=0.6u
Mp4 p2 b vdd vdd pfet w=3u l=0.6u
Mp5 yn sn p2 vdd pfet w=3u l=0.6u
Mn2 n1 a gnd gnd nfet w=1.5u l=0.6u
Mn3 yn sn n1 gnd nfet w=1.5u l=0.6u
Mn4 n2 b gnd gnd nfet w=1.5u l=0.6u
Mn5 yn s n2 gnd nfet w=1.5u l=0.6u
Mp6 y yn vdd vdd pfet w=6u l=0.6u
Mn6 y yn gnd gnd nfet w=3u l=0.6u
.ends mux2

* s = a xor b, c = a and b
.subckt halfadd a b c s vdd gnd
*.PININFO a:I b:I c:O s:O vdd:B gnd:B
Mp1 cn a vdd vdd pfet w=3u l=0.6u
Mp2 cn b vdd vdd pfet w=3u l=0.6u
Mn1 cn a n1 gnd nfet w=3u l=0.6u
Mn2 n1 b gnd gnd nfet w=3u l=0.6u
Mp3 c cn vdd vdd pfet w=3u l=0.6u
Mn3 c cn gnd gnd nfet w=1.5u l=0.6u
Mp4 p1 a vdd vdd pfet w=6u l=0.6u
Mp5 sn b p1 vdd pfet w=6u l=0.6u
Mp6 sn cn vdd vdd pfet w=3u l=0.6u
Mn4 n2 a gnd gnd nfet w=3u l=0.6u
Mn5 n2 b gnd gnd nfet w=3u l=0.6u
Mn6 sn cn n2 gnd nfet w=3u l=0.6u
Mp7 s sn vdd vdd pfet w=3u l=0.6u
Mn7 s sn gnd gnd nfet w=1.5u l=0.6u
.ends halfadd

* q follows d while e is high, and keeps its value else
.subckt latch d e q vdd gnd
*.PININFO d:I e:I q:O vdd:B gnd:B
Mp1 en e vdd vdd pfet w=3u l=0.6u
Mn1 en e gnd gnd nfet w=1.5u l=0.6u
Mp2 p1 d vdd vdd pfet w=3u l=0.6u
Mp3 m en p1 vdd pfet w=3u l=0.6u
Mn2 n1 d gnd gnd nfet w=1.5u l=0.6u
Mn3 m e n1 gnd nfet w=1.5u l=0.6u
Mp4 k m vdd vdd pfet w=1.5u l=0.6u
Mn4 k m gnd gnd nfet w=1.5u l=0.6u
Mp5 p2 k vdd vdd pfet w=1.5u l=0.6u
Mp6 m e p2 vdd pfet w=1.5u l=0.6u
Mn5 n2 k gnd gnd nfet w=1.5u l=0.6u
Mn6 m en n2 gnd nfet w=1.5u l=0.6u
Mp7 q m vdd vdd pfet w=3u l=0.6u
Mn7 q m gnd gnd nfet w=1.5u l=0.6u
.ends latch

* A flip-flop: q takes d at the rising edge of c. Two latches of clocked inverters, the first open while c is low.
.subckt dff c d q vdd gnd
*.PININFO c:I d:I q:O vdd:B gnd:B
Mp1 cn c vdd vdd pfet w=3u l=0.6u
Mn1 cn c gnd gnd nfet w=1.5u l=0.6u
Mp2 p1 d vdd vdd pfet w=3u l=0.6u
Mp3 m c p1 vdd pfet w=3u l=0.6u
Mn2 n1 d gnd gnd nfet w=1.5u l=0.6u
Mn3 m cn n1 gnd nfet w=1.5u l=0.6u
Mp4 mn m vdd vdd pfet w=3u l=0.6u
Mn4 mn m gnd gnd nfet w=1.5u l=0.6u
Mp5 p2 mn vdd vdd pfet w=1.5u l=0.6u
Mp6 m cn p2 vdd pfet w=1.5u l=0.6u
Mn5 n2 mn gnd gnd nfet w=1.5u l=0.6u
Mn6 m c n2 gnd nfet w=1.5u l=0.6u
Mp7 p3 mn vdd vdd pfet w=3u l=0.6u
Mp8 s cn p3 vdd pfet w=3u l=0.6u
Mn7 n3 mn gnd gnd nfet w=1.5u l=0.6u
Mn8 s c n3 gnd nfet w=1.5u l=0.6u
Mp9 sn s vdd vdd pfet w=3u l=0.6u
Mn9 sn s gnd gnd nfet w=1.5u l=0.6u
Mp10 p4 sn vdd vdd pfet w=1.5u l=0.6u
Mp11 s c p4 vdd pfet w=1.5u l=0.6u
Mn10 n4 sn gnd gnd nfet w=1.5u l=0.6u
Mn11 s cn n4 gnd nfet w=1.5u l=0.6u
Mp12 q s vdd vdd pfet w=3u l=0.6u
Mn12 q s gnd gnd nfet w=1.5u l=0.6u
.ends dff
