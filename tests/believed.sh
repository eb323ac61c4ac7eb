#!/usr/bin/env bash
# How many lines a sceptic must read: the definitions that the promises rest on, without proofs and without code.
#   tests/believed.sh            lines by crate, for two sets of roots:
#                                  meaning: what is promised, `Correct`, `Irrefutable` and `Earned`
#                                  contracts: what stands in the clauses of the functions that C can call (#[unsafe(no_mangle)])
#   tests/believed.sh --names    with each definition that is reached, and its lines
#   tests/believed.sh --check    and fails unless the documents give these two figures
#
# From a root on, each name in a definition is followed to the definition that it names, in the same file or by the file's imports, and
# so on (the blocks of tests/definitions.awk: a signature with its clauses, a data or record declaration, a module's parameters). A law is
# reached only if a definition names it. Counted are the lines of the definitions reached, without blank lines, comments and imports. Not
# counted: the kit's own definitions (lists, numbers, equality) and the structs and enums that the code declares.
# A variable with the name of a definition that its file sees is taken for it: the figure errs on the large side.
set -euo pipefail
export LC_ALL=C
cd "$(dirname "$0")/.."

case "${1:-}" in
    '') list=0 ;;
    --names) list=1 ;;
    --check)
        figures=$("$0")
        echo "$figures" | grep 'lines in'
        for set in meaning contracts; do
            lines=$(sed -n "s/^$set: \([0-9]*\) lines.*/\1/p" <<<"$figures")
            for file in docs/ARCHITECTURE.md crates/demands/proofs/Demands.antt; do
                grep -q "\b$lines lines" "$file" || { echo "believed: $file does not say $lines lines for $set" >&2; exit 1; }
            done
        done
        exit 0 ;;
    *) echo 'believed: --names or --check, or nothing' >&2; exit 2 ;;
esac
roots='crates/demands/specs/Correct.antt:Correct crates/demands/specs/Correct.antt:Irrefutable crates/demands/specs/Earned.antt:Earned'

{ find crates -name out -prune -o -path '*/specs/*.antt' -print -o -path '*/src/*.rt' -print; ls crates/*/proofs/*.antt; } | sort | xargs awk -f tests/definitions.awk |
    awk -F '\t' -v list="$list" -v roots="$roots" '
# Rattle.CRATE.specs.A.B is crates/CRATE/specs/A/B.antt, and with proofs in place of specs likewise.
function file_of(path) {
    if (path !~ /^Rattle\.[a-z_0-9]+\.(specs|proofs)\./) return ""
    sub(/^Rattle\./, "", path)
    gsub(/\./, "/", path)
    return "crates/" path ".antt"
}

function imports(file, text,    path, names, n, i, w, from) {
    if (match(text, /\.\{.*\}/)) {
        path = file_of(substr(text, 1, RSTART - 1))
        n = split(substr(text, RSTART + 2, RLENGTH - 3), names, /, */)
        for (i = 1; i <= n; i++) {
            split(names[i], w, " ")
            if (path != "") bring(file, w[2] == "as" ? w[3] : w[1], path "\t" w[1])
        }
        return
    }
    split(text, w, " ")
    n = split(w[1], from, ".")
    if (file_of(w[1]) != "") module[file, w[2] == "as" ? w[3] : from[n]] = file_of(w[1])
}

# `what` is in sight in file under name, and an operator under its signs too.
function bring(file, name, what,    parts, n, i) {
    sight[file, name] = sight[file, name] what "\n"
    if (name !~ /◌/) return
    n = split(name, parts, "◌")
    for (i = 1; i <= n; i++) if (parts[i] != "") sight[file, parts[i]] = sight[file, parts[i]] what "\n"
}

# A name that a file of the repository is said to have and has not would make the figure too small.
function reach_name(what,    ids, n, i, from) {
    split(what, from, "\t")
    if (!(what in defines) && from[1] in read) { print "believed: " from[1] " does not define " from[2] > "/dev/stderr"; bad = 1 }
    n = split(defines[what], ids, " ")
    for (i = 1; i <= n; i++) reach(ids[i])
}

function reach(id,    words, n, i, w, from, all, m, j) {
    if (id in reached) return
    reached[id] = 1
    if (lines[id]) order[++count] = id
    if (id in outer) reach(outer[id])
    n = split(texts[id], words, /[(){};,@" \n]+/)
    for (i = 1; i <= n; i++) {
        w = words[i]
        if (w == "" || w ~ /^\./ || w ~ /\.$/) continue
        split(w, from, ".")
        if (from[2] != "" && (home[id], from[1]) in module) { reach_name(module[home[id], from[1]] "\t" from[2]); continue }
        if (!((home[id], from[1]) in sight)) continue
        m = split(sight[home[id], from[1]], all, "\n")
        for (j = 1; j < m; j++) reach_name(all[j])
    }
}

function report(title,    i, id, crate, total, by, seen, names) {
    for (i = 1; i <= count; i++) {
        id = order[i]
        crate = home[id]
        sub(/^crates\//, "", crate)
        sub(/\/.*/, "", crate)
        if (!(crate in by)) seen[++names] = crate
        by[crate] += lines[id]
        total += lines[id]
        if (list) printf "  %s: %s (%d)\n", home[id], id in first ? first[id] : "parameters of a module", lines[id]
    }
    for (i = 1; i <= names; i++) printf "  %-12s %5d\n", seen[i], by[seen[i]]
    printf "%s: %d lines in %d definitions\n", title, total, count
    if (total < 1) bad = 1
    split("", reached); split("", order)
    count = 0
}

{ read[$2] = 1 }
$1 == "use" { imports($2, $3) }
$1 == "name" { defines[$2 "\t" $4] = defines[$2 "\t" $4] $3 " "; bring($2, $4, $2 "\t" $4); if (!($3 in first)) first[$3] = $4 }
$1 == "name" && $4 ~ /^contract of / { contracts[++exported] = $3 }
$1 == "in" { outer[$3] = $4 }
$1 == "line" { texts[$3] = texts[$3] $4 "\n"; home[$3] = $2; if ($2 ~ /\.antt$/) lines[$3]++ }
END {
    n = split(roots, root, " ")
    for (i = 1; i <= n; i++) {
        sub(/:/, "\t", root[i])
        read[substr(root[i], 1, index(root[i], "\t") - 1)] = 1
        reach_name(root[i])
    }
    report("meaning")
    for (i = 1; i <= exported; i++) reach(contracts[i])
    report("contracts")
    exit bad
}'
