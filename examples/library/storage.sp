* Cells that store a bit, with set, reset or without a clock: an SR latch, a C-element, flip-flops and a latch.
.subckt srlatch s r q qn vdd gnd
*.PININFO s:I r:I q:O qn:O
mn1a q r gnd gnd n w=1.5u l=0.6u
mn1b q qn gnd gnd n w=1.5u l=0.6u
mp1a q r x1 vdd p w=3u l=0.6u
mp1b x1 qn vdd vdd p w=3u l=0.6u
mn2a qn s gnd gnd n w=1.5u l=0.6u
mn2b qn q gnd gnd n w=1.5u l=0.6u
mp2a qn s x2 vdd p w=3u l=0.6u
mp2b x2 q vdd vdd p w=3u l=0.6u
.ends

.subckt celement a b y vdd gnd
*.PININFO a:I b:I y:O
mp1 p1 a vdd vdd p w=3u l=0.6u
mp2 n b p1 vdd p w=3u l=0.6u
mn1 n b n1 gnd n w=3u l=0.6u
mn2 n1 a gnd gnd n w=3u l=0.6u
mp3 p2 a vdd vdd p w=3u l=0.6u
mp4 p2 b vdd vdd p w=3u l=0.6u
mp5 n y p2 vdd p w=3u l=0.6u
mn3 n2 a gnd gnd n w=3u l=0.6u
mn4 n2 b gnd gnd n w=3u l=0.6u
mn5 n y n2 gnd n w=3u l=0.6u
mp9 y n vdd vdd p w=3u l=0.6u
mn9 y n gnd gnd n w=1.5u l=0.6u
.ends

.subckt dffr d c rn q vdd gnd
*.PININFO d:I c:I rn:I q:O
mp1 cn c vdd vdd p w=3u l=0.6u
mn1 cn c gnd gnd n w=1.5u l=0.6u
mn2 d cn m gnd n w=1.5u l=0.6u
mp2 d c m vdd p w=3u l=0.6u
mp3a mb m vdd vdd p w=3u l=0.6u
mp3b mb rn vdd vdd p w=3u l=0.6u
mn3a mb m x3 gnd n w=3u l=0.6u
mn3b x3 rn gnd gnd n w=3u l=0.6u
mp4 mf mb vdd vdd p w=3u l=0.6u
mn4 mf mb gnd gnd n w=1.5u l=0.6u
mn5 mf c m gnd n w=1.5u l=0.6u
mp5 mf cn m vdd p w=3u l=0.6u
mn6 mb c s gnd n w=1.5u l=0.6u
mp6 mb cn s vdd p w=3u l=0.6u
mp7 q s vdd vdd p w=3u l=0.6u
mn7 q s gnd gnd n w=1.5u l=0.6u
mp8a sf q vdd vdd p w=3u l=0.6u
mp8b sf rn vdd vdd p w=3u l=0.6u
mn8a sf q x8 gnd n w=3u l=0.6u
mn8b x8 rn gnd gnd n w=3u l=0.6u
mn9 sf cn s gnd n w=1.5u l=0.6u
mp9 sf c s vdd p w=3u l=0.6u
.ends

.subckt dffsr d c sn rn q qn vdd gnd
*.PININFO d:I c:I sn:I rn:I q:O qn:O
mp00 n1 sn vdd vdd p w=3u l=0.6u
mp01 n1 n4 vdd vdd p w=3u l=0.6u
mp02 n1 n2 vdd vdd p w=3u l=0.6u
mn00 n1 sn u0 gnd n w=3u l=0.6u
mn01 u0 n4 v0 gnd n w=3u l=0.6u
mn02 v0 n2 gnd gnd n w=3u l=0.6u
mp10 n2 rn vdd vdd p w=3u l=0.6u
mp11 n2 n1 vdd vdd p w=3u l=0.6u
mp12 n2 c vdd vdd p w=3u l=0.6u
mn10 n2 rn u1 gnd n w=3u l=0.6u
mn11 u1 n1 v1 gnd n w=3u l=0.6u
mn12 v1 c gnd gnd n w=3u l=0.6u
mp20 n3 n2 vdd vdd p w=3u l=0.6u
mp21 n3 c vdd vdd p w=3u l=0.6u
mp22 n3 n4 vdd vdd p w=3u l=0.6u
mn20 n3 n2 u2 gnd n w=3u l=0.6u
mn21 u2 c v2 gnd n w=3u l=0.6u
mn22 v2 n4 gnd gnd n w=3u l=0.6u
mp30 n4 rn vdd vdd p w=3u l=0.6u
mp31 n4 n3 vdd vdd p w=3u l=0.6u
mp32 n4 d vdd vdd p w=3u l=0.6u
mn30 n4 rn u3 gnd n w=3u l=0.6u
mn31 u3 n3 v3 gnd n w=3u l=0.6u
mn32 v3 d gnd gnd n w=3u l=0.6u
mp40 q sn vdd vdd p w=3u l=0.6u
mp41 q n2 vdd vdd p w=3u l=0.6u
mp42 q qn vdd vdd p w=3u l=0.6u
mn40 q sn u4 gnd n w=3u l=0.6u
mn41 u4 n2 v4 gnd n w=3u l=0.6u
mn42 v4 qn gnd gnd n w=3u l=0.6u
mp50 qn rn vdd vdd p w=3u l=0.6u
mp51 qn n3 vdd vdd p w=3u l=0.6u
mp52 qn q vdd vdd p w=3u l=0.6u
mn50 qn rn u5 gnd n w=3u l=0.6u
mn51 u5 n3 v5 gnd n w=3u l=0.6u
mn52 v5 q gnd gnd n w=3u l=0.6u
.ends

.subckt latr d e rn q vdd gnd
*.PININFO d:I e:I rn:I q:O
mp1 en e vdd vdd p w=3u l=0.6u
mn1 en e gnd gnd n w=1.5u l=0.6u
mn2 d e m gnd n w=1.5u l=0.6u
mp2 d en m vdd p w=3u l=0.6u
mp3a mb m vdd vdd p w=3u l=0.6u
mp3b mb rn vdd vdd p w=3u l=0.6u
mn3a mb m x3 gnd n w=3u l=0.6u
mn3b x3 rn gnd gnd n w=3u l=0.6u
mp4 q mb vdd vdd p w=3u l=0.6u
mn4 q mb gnd gnd n w=1.5u l=0.6u
mn5 q en m gnd n w=1.5u l=0.6u
mp5 q e m vdd p w=3u l=0.6u
.ends
