#!/usr/bin/env bash
# What no proof reads: that the documents, the code and the folders agree. Prints what is wrong, if anything;
# it takes a second or two, so `.ci/run` runs it first.
set -euo pipefail
cd "$(dirname "$0")/.."
pages=(README.md docs/*.md)
wrong=0

say() {
    [ -z "$1" ] || { echo "$1"; wrong=1; }
}

# headings that definitions and code cite as `docs/FILE.md, "HEADING"`, with further ones after `and`
missing_headings() {
    grep -rE 'docs/[A-Z]+\.md, "' crates --include='*.antt' --include='*.rt' | grep -v '/out/' |
        while IFS=: read -r file line; do
            page=$(sed -E 's/.*(docs\/[A-Z]+\.md),.*/\1/' <<<"$line")
            grep -oE '"[^"]+"' <<<"${line#*"$page"}" | tr -d '"' | while read -r heading; do
                grep -qxE "#{2,3} $heading" "$page" || echo "$file: $page has no heading $heading"
            done
        done
}

# headings that pages cite as `FILE.md, "HEADING"`
missing_cited() {
    grep -oE '[A-Z]+\.md, "[^"]+"' "${pages[@]}" | sort -u | while IFS=: read -r page cited; do
        file=docs/${cited%%,*}
        heading=$(grep -oE '"[^"]+"' <<<"$cited" | tr -d '"')
        [ "$heading" = HEADING ] || grep -qxF -e "## $heading" -e "### $heading" "$file" ||
            echo "$page: $file has no heading $heading"
    done
}

# files that links of pages lead to
missing_links() {
    grep -oE '\]\([^)#]+' "${pages[@]}" | while IFS=: read -r page link; do
        [ -e "$(dirname "$page")/${link#](}" ] || echo "$page: no file ${link#](}"
    done
}

# files and folders that pages name in full, as `crates/emu/args`, or from a crate on, as `design_core/specs/Event`
missing_files() {
    grep -oE '`(crates|docs|checks|examples|bench|[a-z_]+/(specs|src|proofs))/[A-Za-z_./]+`' "${pages[@]}" |
        tr -d '`' | sort -u | while IFS=: read -r page name; do
        [ -e "$name" ] || [ -e "crates/$name" ] || [ -e "crates/$name.antt" ] || git check-ignore -q "$name" ||
            [[ $name =~ NAME|FILE|STORY ]] || echo "$page: no $name"
    done
}

# names that the table of what is proved gives in its last column
missing_clauses() {
    known=$(cat $(git ls-files 'crates/*/src/*.rt' 'crates/*/specs/*.antt') | grep -oE '[A-Za-z_]+' | sort -u)
    awk '/^## /{here = ($0 == "## What is proved")} here && /^\|/' docs/ARCHITECTURE.md |
        awk -F ' \\| ' '{print $NF}' | grep -oE '`[A-Za-z_:]+`' | tr -d '`' | tr ':' '\n' | sort -u |
        grep -vxF -e '' -f <(echo "$known") | sed 's/^/docs\/ARCHITECTURE.md: nothing is called /' || true
}

# crates without a row, and rows that do not say what crates.txt says
wrong_map() {
    for crate in $(sed -nE 's/^([a-z_]+):.*/\1/p' crates.txt); do
        [ -d "crates/$crate" ] || echo "crates.txt: no crate $crate"
        grep -qE "^\| \`$crate\` \|" docs/ARCHITECTURE.md || echo "docs/ARCHITECTURE.md: no row of $crate"
    done
    for crate in crates/*/; do
        grep -q "^$(basename "$crate"):" crates.txt || echo "crates.txt: no line of $(basename "$crate")"
    done
    bash checks/stands_on.sh | diff -q - docs/ARCHITECTURE.md >/dev/null ||
        echo "docs/ARCHITECTURE.md: 'stands on' differs from crates.txt; checks/stands_on.sh prints it as it should be"
}

# crates with definitions that the table of definitions does not name
unmapped_definitions() {
    table=$(awk '/^## /{here = ($0 == "## Where a definition stands")} here' docs/ARCHITECTURE.md)
    for crate in $(git ls-files 'crates/*/specs/*.antt' | cut -d/ -f2 | sort -u); do
        grep -qF "\`$crate/specs" <<<"$table" || echo "docs/ARCHITECTURE.md: no definitions of $crate"
    done
}

# faults that the printer has and the page of faults has not, and the other way round
wrong_faults() {
    diff <(cat crates/emu_app/src/answer.rt crates/case_texts/src/printed.rt |
        grep -oE 'b" ?[A-Z][A-Za-z]+ ?"|b"refused [a-z]+ [A-Z][A-Za-z]+ ?"|rank [A-Z][a-z]+' |
        grep -oE '[A-Z][A-Za-z]+' | sort -u) \
        <(grep -oE '^\| `[A-Z][A-Za-z]+`' docs/FAULTS.md | grep -oE '[A-Za-z]+' | sort -u) |
        sed -nE 's/^< (.*)/docs\/FAULTS.md: no row of \1/p; s/^> (.*)/docs\/FAULTS.md: nothing prints \1/p'
}

# places of a machine, and numbers of papers that are no part of the repository
strange_words() {
    git grep -nE '/(work|tmp/[a-z]|home|root|opt)/' -- ':!LICENSE' ':!checks' || true
    git grep -nE '\b[DRTW][0-9]{1,2}(\.[0-9]+)?\b|\b[Rr]ow [0-9]+\b|[Dd]ocument 0[0-9]' -- \
        '*.md' '*.rt' '*.antt' '*.sh' '*.py' '*.edit' ':!checks' || true
}

long_files() {
    git ls-files 'crates/*.rt' 'crates/*.antt' | xargs wc -l |
        awk '$2 != "total" && $1 > 800 {print $2 " has " $1 " lines"}'
}

# recorded commands and calls without a line above that says why they are there, and their texts that none names
untold_cases() {
    for cases in crates/emu_cases/data crates/layer_cases/data; do
        awk -v cases="$cases" '/^#|^$/ {told = /^# /; next} !told {print cases "/cases.txt: line " NR " has no reason above it"}' \
            $cases/cases.txt
        git ls-files "$cases/*/*" | sed "s|^$cases/||" | sort |
            comm -23 - <(tr ' ' '\n' <$cases/cases.txt | sort -u) | sed "s|^|$cases: no line names |"
    done
}

say "$(missing_headings)"
say "$(missing_cited)"
say "$(missing_links)"
say "$(missing_files)"
say "$(missing_clauses)"
say "$(wrong_map)"
say "$(unmapped_definitions)"
say "$(wrong_faults)"
say "$(untold_cases)"
say "$(strange_words)"
say "$(long_files)"
diff -r examples/inverter crates/emu/data -x run.sh || say 'crates/emu/data differs from examples/inverter'
exit $wrong
