#!/usr/bin/env bash
# Every definition that docs/TRACE.md names is defined in the file that it names; one that the file only imports is not.
#   crate/File: `name`, `Type.constructor`          of crates/crate/specs/File.antt, or of crates/crate/proofs/File.antt
#   crates/crate/src/file.rt: `item`, or `item` in crates/crate/src/file.rt
set -euo pipefail
export LC_ALL=C
cd "$(dirname "$0")/.."

trace=${1:-docs/TRACE.md}
crates=$(cd crates && printf '%s|' *)
names='`[^`]+`((, |; |, proved [a-z ]*by )`[^`]+`)*'

# FILE, a tab and NAME, or FILE alone, for each mention
mentions() {
    grep -oE "(^|[^A-Za-z/])(${crates%|})(/[A-Z][A-Za-z]*)+(: $names)?" "$trace" |
        sed -E 's#^[^a-z]*([a-z_]+)/([A-Za-z/]+)#crates/\1/\2.antt#'
    grep -oE "crates/[a-z_]+/src/[a-z_/]+\.rt(:? $names)?" "$trace"
    grep -oE '`[^`]+` in crates/[a-z_]+/src/[a-z_/]+\.rt' "$trace" | sed -E 's/^(`.*`) in (.*)/\2: \1/'
}

defined=$(mktemp)
trap 'rm -f "$defined"' EXIT
# the definitions, with the laws beside them, and the theorems that stand in proofs/ (not the answers to what the code asks for)
{ find crates -path '*/specs/*.antt' -o -path '*/src/*.rt'; ls crates/*/proofs/*.antt; } | xargs awk -f tests/definitions.awk |
    awk -F '\t' '$1 == "name" || $1 == "field" { split($2, at, "/"); if (at[3] != "src") sub(at[2] "/" at[3], at[2], $2); print $2 "\t" $4 }' >"$defined"

checked=0
missing=0
while IFS= read -r mention; do
    file=${mention%%[: ]*}
    checked=$((checked + 1))
    if ! grep -Fq -- "$file"$'\t' "$defined"; then
        echo "$trace names $file, which is not there"
        missing=$((missing + 1))
        continue
    fi
    while IFS= read -r name; do
        [ -n "$name" ] || continue
        checked=$((checked + 1))
        if ! grep -Fxq -- "$file"$'\t'"$name" "$defined"; then
            echo "$trace names $name of $file, which does not define it"
            missing=$((missing + 1))
        fi
    done < <(printf '%s' "$mention" | grep -oE '`[^`]+`' | tr -d '`' || true)
done < <(mentions)
echo "trace: $((checked - missing)) of $checked names found"
[ "$checked" -gt 100 ] && [ "$missing" -eq 0 ]
