* An inverter whose transistors are wider than a finger may be.
.SUBCKT wide a y vdd gnd
MP y a vdd vdd p W=12.15u L=0.6u
MN y a gnd gnd n W=6u L=0.6u
.ENDS
