#!/usr/bin/env bash
# Prints docs/ARCHITECTURE.md with the column 'stands on' of its table of crates as crates.txt has it.
# To write it: bash checks/stands_on.sh >map && mv map docs/ARCHITECTURE.md
set -euo pipefail
cd "$(dirname "$0")/.."
awk '
    FNR == NR {
        if ($0 ~ /^[a-z]/) {
            crate = $1
            sub(/:.*/, "", crate)
            uses = ""
            for (k = 2; k <= NF && $k !~ /^#/; k++) uses = uses (k > 2 ? ", " : "") "`" $k "`"
            below[crate] = uses
        }
        next
    }
    /^## / { here = ($0 == "## The table of crates") }
    here && /^\| `/ {
        split($0, cell, / *\| */)
        crate = cell[2]
        gsub(/`/, "", crate)
        print "| " cell[2] " | " cell[3] " | " below[crate] (below[crate] == "" ? "| " : " | ") cell[5] (cell[5] == "" ? "|" : " |")
        next
    }
    { print }
' crates.txt docs/ARCHITECTURE.md
