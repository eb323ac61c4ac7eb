#!/usr/bin/env bash
# The C calls over the vectors, with files and lent slices in blocks of exactly
# their lengths: right answers, and no read or write past the end of any. Then what
# the header says of lengths: null where there is nothing, and how far files are read.
set -euo pipefail
cd "$(dirname "$0")/.."

archive=crates/gate/out/libgate.a
vectors=tests/vectors
corpora=(narrow "$vectors/base/eval.bin")
for request in t04 t05 t06; do corpora+=(evals "$vectors/$request/eval.bin"); done
for request in t01 t04 t05 t06; do corpora+=(writes "$vectors/$request/write.bin"); done
for request in base t02 t03 t04 t05 t06; do corpora+=(checks "$vectors/$request/check.bin"); done
corpora+=(joins "$vectors/t07/join.bin")
if [ ! -f "$archive" ]; then
    echo "memory: $archive is not there: build it first" >&2
    exit 1
fi

scratch=$(mktemp -d)
trap 'rm -rf "$scratch"' EXIT
flags=(-std=c11 -Wall -Wextra -Werror -O1 -g -Iinclude)

# build NAME FLAGS...: the driver as NAME, the test of lengths as NAME-lengths.
build() {
    cc "${flags[@]}" "${@:2}" tests/memory/driver.c "$archive" -o "$scratch/$1"
    cc "${flags[@]}" "${@:2}" tests/memory/lengths.c "$archive" -o "$scratch/$1-lengths"
}

# The sanitizers instrument the driver alone: they vouch for its copies, for
# what it frees, and for the memcpy and memset that the archive calls.
build sanitized -fsanitize=address,undefined -fno-sanitize-recover=undefined
echo "memory: sanitized driver"
"$scratch/sanitized" "${corpora[@]}"
"$scratch/sanitized-lengths"

# The archive's own reads and writes are compiled without checks, so it is
# valgrind that watches them; it cannot run over a sanitized build. It sees the
# ends of the files' and the lent blocks, and whether the gate looks at a lent
# byte that nobody has set; it does not see the ends of arrays inside the
# archive's frame: nothing here watches those.
build plain
echo "memory: plain driver under valgrind"
valgrind --error-exitcode=1 --quiet "$scratch/plain" "${corpora[@]}"
valgrind --error-exitcode=1 --quiet "$scratch/plain-lengths"
