# The row of a cell in the table, from its report; with `low` it has the column `fewest`.
$1 == "columns" || $1 == "gaps" || $1 == "tracks" || $1 == "lemmas" || $1 == "fewest" { at[$1] = $2 }
$1 == "size" { at["size"] = $2 " " $3 }
function said(word) { return word in at ? at[word] : "-" }
END {
    print name, status, seconds, said("columns"), said("gaps"), said("tracks"), ("size" in at ? at["size"] : "- -"), \
        said("lemmas") (low ? " " said("fewest") : ""), word
}
