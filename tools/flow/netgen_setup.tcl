# Drain and source can be exchanged, fingers in parallel are one transistor, and areas of diffusion are not compared.
permute default
foreach circuit {-circuit1 -circuit2} {
    foreach kind {n p nfet pfet} {
        # (a netlist has the models n and p, or nfet and pfet)
        if {[catch {permute "$circuit $kind" drain source}]} { continue }
        property "$circuit $kind" remove as ad ps pd
        property "$circuit $kind" tolerance {w 0.001} {l 0.001}
        property "$circuit $kind" parallel enable
        property "$circuit $kind" parallel {w add} {l critical}
    }
}
