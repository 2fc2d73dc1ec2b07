# One line on a cell: which it is, how it ended, and what to correct where it was refused. The first file is `advice`, the
# second the cell's report. Of a fault, as `spice Empty line 3` or `gate a`, the line of `advice` by status and word comes
# before that of the status. On a terminal a made cell's line is overwritten by the next one; elsewhere it is not reported.
FILENAME == ARGV[1] { key = $1; sub(/^[^ ]+ /, ""); advice[key] = $0; next }
FNR == 1 { said = $0 }
FNR > 1 && FNR < 5 { more = more "; " $0 }
FNR == 2 { first = $1; second = $2 }
END {
    line = "cell " at " of " count ": " name ": " (said == "" ? "status " status : said)
    if (status == 0) {
        if (terminal) printf "\r%s\033[K", line
        exit
    }
    key = status
    if ((status "-" second) in advice) key = status "-" second
    if ((status "-" first) in advice) key = status "-" first
    line = line more
    if (key in advice) line = line " (" advice[key] ")"
    if (terminal) printf "\r\033[K"
    print line
}
