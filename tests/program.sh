#!/usr/bin/env bash
# The program as its user meets it: two files in the working folder, one line out.
# The expected lines are the reference checker's.
set -euo pipefail
cd "$(dirname "$0")/.."

program="$PWD/crates/focus/out/focus"
samples="$PWD/examples"
if [ ! -x "$program" ]; then
    echo "program: crates/focus/out/focus is not there: build it first" >&2
    exit 1
fi

for tool in cc mkfifo timeout; do
    if ! command -v "$tool" >/dev/null; then
        echo "program: $tool is not installed" >&2
        exit 1
    fi
done

scratch=$(mktemp -d)
trap 'rm -rf "$scratch"' EXIT
work="$scratch/work"
passed=0
failed=0

# Reads that fail or come in pieces: the library says how.
failing="$scratch/failing_read.so"
if ! cc -O1 -Wall -Wextra -shared -fPIC -o "$failing" tests/program/failing_read.c; then
    echo 'program: cc builds no shared library of tests/program/failing_read.c' >&2
    exit 1
fi

# A fresh folder with the files of a sample, nu-of-box if none is named.
fresh() {
    rm -rf "$work"
    mkdir "$work"
    cp "$samples/${1:-nu-of-box}/claim.bin" "$samples/${1:-nu-of-box}/proof.bin" "$work"
}

# A hang or a crash must not pass on what was printed before it. The next run's reads are the system's own again.
settings=()
run() {
    status=0
    (cd "$work" && timeout 10 env "${settings[@]}" "$program") >"$scratch/out" 2>"$scratch/err" </dev/null || status=$?
    settings=()
    [ "$status" -lt 124 ]
}

# report NAME EXPECTED GOOD, where GOOD is yes or no
report() {
    if [ "$3" = yes ]; then
        passed=$((passed + 1))
        return
    fi
    failed=$((failed + 1))
    echo "$1"
    echo "  expected: $2"
    echo "  got: stdout '$(head -c 300 "$scratch/out" | tr -d '\0')'," \
        "stderr '$(head -c 300 "$scratch/err" | tr -d '\0')', status $status"
}

# Compared as bytes: the line and its newline, nothing else on either stream.
verdict() {
    local good=no
    if run && printf '%s\n' "$2" | cmp -s - "$scratch/out" && [ ! -s "$scratch/err" ]; then
        good=yes
    fi
    report "$1" "stdout '$2', stderr ''" "$good"
}

# A file that cannot be read earns no verdict: a loader must not take one for it.
no_verdict() {
    local good=no
    if run && [ ! -s "$scratch/out" ] && [ "$(wc -l <"$scratch/err")" -eq 1 ] &&
        [[ $(cat "$scratch/err") == "$2"* ]]; then
        good=yes
    fi
    report "$1" "stdout '', stderr one line that begins with '$2'" "$good"
}

# The next run's reads of FILE, by settings of tests/program/failing_read.c
reads_of() {
    settings=(LD_PRELOAD="$failing" READ_FILE="$1" "${@:2}")
}

# FILE of the folder becomes a named pipe, through which its first COUNT bytes come, and after a while the rest and what follows
piped() {
    mv "$work/$1" "$scratch/whole"
    printf '%s' "${3:-}" >>"$scratch/whole"
    mkfifo "$work/$1"
    timeout 10 bash -c 'exec >"$1"; head -c "$2" "$3"; sleep 0.3; tail -c +"$(($2 + 1))" "$3"' \
        - "$work/$1" "$2" "$scratch/whole" 2>/dev/null &
}

# A sample without a line here would go untested, so it fails. A folder without
# a claim is no sample.
for claim in "$samples"/*/claim.bin; do
    sample=$(basename "$(dirname "$claim")")
    case "$sample" in
        nu-of-box) line='accept' ;;
        mu-of-box) line='refuse 38 at 3' ;;
        mu-of-box-refocused) line='refuse 39 at 4' ;;
        loop-without-box) line='refuse 39 at 1' ;;
        letter-unfocused) line='accept' ;;
        twins) line='accept' ;;
        slew) line='accept' ;;
        slew-and-park) line='refuse 37 at 0' ;;
        two-goals) line='accept' ;;
        no-goals) line='accept' ;;
        first-half | second-half | both-halves) line='accept' ;;
        *) line='(no line is written down for this sample)' ;;
    esac
    fresh "$sample"
    verdict "sample $sample" "$line"
done

# changed FILE OFFSET BYTE [SAMPLE]: a sample, two-goals if none is named, with one byte changed. Of the two goals their count is byte
# 26 of the claim, their roots are bytes 6 to 9 of the proof. The second goal's first member is byte 34, the axiom that proves it node 2.
changed() {
    local good="$samples/${4:-two-goals}/$1"
    fresh "${4:-two-goals}"
    { head -c "$2" "$good"; printf "$3"; tail -c +"$(($2 + 2))" "$good"; } >"$work/$1"
}
for goals in '\21' '\377'; do
    changed claim.bin 26 "$goals"
    verdict "goal count $goals" 'refuse 72 at 26'
done
changed claim.bin 26 '\0'
verdict 'goals behind a count of none' 'refuse 11 at 28'
changed claim.bin 34 '\4'
verdict 'members of the second goal that do not rise' 'refuse 14 at 36'
changed claim.bin 34 '\2'
verdict 'a goal that its root is not' 'refuse 36 at 2'
changed proof.bin 8 '\0'
verdict 'two roots that are one' 'refuse 34 at 8'
changed proof.bin 8 '\5'
verdict 'a root that is no node' 'refuse 34 at 8'
changed proof.bin 8 '\3'
verdict 'a root that is a child' 'refuse 35 at 1'
changed proof.bin 29 '\6'
verdict 'a root out of focus' 'refuse 36 at 2'
fresh two-goals
cp "$samples/nu-of-box/proof.bin" "$work"
verdict 'two goals with a proof of one' 'refuse 30 at 0'
fresh
cp "$samples/two-goals/proof.bin" "$work"
verdict 'one goal with a proof of two' 'refuse 30 at 0'

# No entries, no goals and no nodes, whose counts are bytes 4 and 6 of the claim and byte 4 of the proof.
changed claim.bin 4 '\1' no-goals
verdict 'an entry that is not there' 'refuse 11 at 8'
changed claim.bin 6 '\1' no-goals
verdict 'a goal that is not there' 'refuse 11 at 8'
changed claim.bin 6 '\21' no-goals
verdict 'seventeen goals over no entries' 'refuse 72 at 6'
changed proof.bin 4 '\1' no-goals
verdict 'a node that is not there' 'refuse 31 at 6'
changed claim.bin 3 '1' no-goals
verdict 'no entries in the form with one goal' 'refuse 12 at 4'
changed proof.bin 3 '1' no-goals
verdict 'no goals with a proof in the form with one' 'refuse 30 at 0'
fresh no-goals
printf '\1\0\0\0' | dd of="$work/claim.bin" bs=1 seek=6 conv=notrunc status=none
verdict 'a goal without members over no entries' 'refuse 12 at 8'
printf '\1\0\1\0\0\0' | dd of="$work/claim.bin" bs=1 seek=6 conv=notrunc status=none
verdict 'a goal over no entries' 'refuse 14 at 10'
fresh no-goals
cp "$samples/two-goals/proof.bin" "$work"
# The first root reads as a leaf without codes, the second is no node.
verdict 'no goals with the proof of two' 'refuse 33 at 8'
fresh no-goals
printf 'PRF2\1\0\0\0' >"$work/proof.bin"
verdict 'no goals and a node' 'refuse 35 at 0'
fresh two-goals
cp "$samples/no-goals/proof.bin" "$work"
verdict 'two goals with the proof of none' 'refuse 31 at 6'
printf '\0\0\0\0' >>"$work/proof.bin"
verdict 'two goals, their roots and no nodes' 'refuse 34 at 6'

fresh
: >"$work/claim.bin"
verdict 'empty claim' 'refuse 10 at 0'

fresh
: >"$work/proof.bin"
verdict 'empty proof' 'refuse 30 at 0'

# Zeros after a good file, up to and past the sizes at which a buffer or a
# two-byte length could cut them off. The place is the good file's length.
for size in 65536 65537 100000; do
    fresh
    truncate -s "$size" "$work/claim.bin"
    verdict "claim of $size bytes" 'refuse 11 at 22'

    fresh
    truncate -s "$size" "$work/proof.bin"
    verdict "proof of $size bytes" 'refuse 31 at 38'
done

for file in claim.bin proof.bin; do
    fresh
    rm "$work/$file"
    no_verdict "missing $file" "$file"

    fresh
    rm "$work/$file"
    mkdir "$work/$file"
    no_verdict "folder in place of $file" "$file"
done

# A file is judged only if it was read to its end. A read that fails once and then goes on must not make the rest of the file, or its
# start, be judged as if it were all: whichever read it is, and whatever the error.
eintr=4
eio=5
for file in claim.bin proof.bin; do
    case "$file" in
        claim.bin) size=22 more='refuse 11 at 22' ;;
        proof.bin) size=38 more='refuse 31 at 38' ;;
    esac

    fresh
    reads_of "$file" READ_FAILS=1 READ_ERRNO=$eio
    no_verdict "EIO on the first read of $file" "$file: Input/output error"

    fresh
    reads_of "$file" READ_FAILS=1 READ_ERRNO=$eintr
    no_verdict "EINTR on the first read of $file" "$file: Interrupted system call"

    fresh
    reads_of "$file" READ_FAILS=2 READ_ERRNO=$eintr
    no_verdict "EINTR on the second read of $file, at its end" "$file: Interrupted system call"

    for nth in 2 3; do
        fresh
        reads_of "$file" READ_PIECE=9 READ_FAILS=$nth READ_ERRNO=$eio
        no_verdict "EIO in the middle of $file, on read $nth" "$file: Input/output error"
    done

    fresh
    piped "$file" "$size" x
    reads_of "$file" READ_FAILS=2 READ_ERRNO=$eintr
    no_verdict "$file through a pipe, EINTR, one byte more" "$file: Interrupted system call"

    fresh
    reads_of "$file" READ_PIECE=1
    verdict "$file byte by byte" 'accept'

    fresh
    piped "$file" 15
    verdict "$file through a pipe in two pieces" 'accept'

    fresh
    piped "$file" "$size" x
    verdict "$file through a pipe, one byte more in a later piece" "$more"

    # A full buffer is enough: no read is tried after it.
    fresh
    truncate -s 65536 "$work/$file"
    reads_of "$file" READ_FAILS=2 READ_ERRNO=$eio
    verdict "$file of 65536 bytes, EIO after them" "$more"
done

echo "program: $passed passed, $failed failed"
[ "$failed" -eq 0 ]
