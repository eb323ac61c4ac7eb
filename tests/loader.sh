#!/usr/bin/env bash
# The examples that call the gate, built as their comments say: the loader gives a
# permit for a good pair only, and the number and place of what a bad one earns; the
# evaluation prints each entry's states; the writer makes the files of three good pairs of
# its tables; the join makes one pair of two, or says why not; the caller in Rust says what
# the loader says.
set -euo pipefail
cd "$(dirname "$0")/.."

archive=crates/gate/out/libgate.a
samples=examples
if [ ! -f "$archive" ]; then
    echo "loader: $archive is not there: build it first" >&2
    exit 1
fi

scratch=$(mktemp -d)
trap 'rm -rf "$scratch"' EXIT
flags=(-std=c11 -Wall -Wextra -Werror -pedantic -Iinclude)

cc "${flags[@]}" -O1 -g examples/loader/loader.c "$archive" -o "$scratch/loader"
cc "${flags[@]}" -O1 -g examples/evaluate/evaluate.c "$archive" -o "$scratch/evaluate"
cc "${flags[@]}" -O1 -g examples/writer/writer.c "$archive" -o "$scratch/writer"
cc "${flags[@]}" -O1 -g examples/join/join.c "$archive" -o "$scratch/join"
rustc --edition 2021 -O examples/caller/caller.rs -C link-arg="$archive" -o "$scratch/caller"

passed=0
failed=0

program=loader

# run NAME STATUS LINES ARGUMENTS...: both streams and the exit status, compared
# as bytes. No line on standard error is expected unless LINES is empty and the
# status is not 0.
run() {
    local name=$1 expected=$2 lines=$3 status=0 good=yes
    shift 3
    timeout 10 "$scratch/$program" "$@" >"$scratch/out" 2>"$scratch/err" </dev/null || status=$?
    if [ -n "$lines" ]; then
        printf '%s\n' "$lines" | cmp -s - "$scratch/out" && [ ! -s "$scratch/err" ] || good=no
    elif [ "$expected" -eq 0 ]; then
        [ ! -s "$scratch/out" ] && [ ! -s "$scratch/err" ] || good=no
    else
        [ ! -s "$scratch/out" ] && [ "$(wc -l <"$scratch/err")" -eq 1 ] || good=no
    fi
    [ "$status" -eq "$expected" ] || good=no
    if [ "$good" = yes ]; then
        passed=$((passed + 1))
        return
    fi
    failed=$((failed + 1))
    echo "$name"
    echo "  expected: stdout '$lines', status $expected"
    echo "  got: stdout '$(head -c 300 "$scratch/out" | tr -d '\0')'," \
        "stderr '$(head -c 300 "$scratch/err" | tr -d '\0')', status $status"
}

granted() {
    run "$1" 0 $'open: done\npresent: accept\ntake: tag '"$2"$'\nclose: done' "$2" "${@:3}"
}

# Nothing is held after a refused presentation, so taking is refused with 52.
denied() {
    run "$1" 1 $'open: done\npresent: '"$2"$'\ntake: refuse 52 at 0\nclose: done' 7 "${@:3}"
}

# No call is made: nothing on standard output, one line on standard error.
not_tried() {
    run "$1" 2 '' "${@:2}"
}

pair() {
    files=("$samples/$1/claim.bin" "$samples/$1/proof.bin")
}

pair nu-of-box
for tag in 7 0 1 65536 4294967295; do
    granted "a good pair under tag $tag" "$tag" "${files[@]}"
done

pair mu-of-box
denied 'mu of box' 'refuse 38 at 3' "${files[@]}"
pair mu-of-box-refocused
denied 'mu of box, refocused' 'refuse 39 at 4' "${files[@]}"
pair loop-without-box
denied 'loop without a box' 'refuse 39 at 1' "${files[@]}"
pair letter-unfocused
granted 'focus left inside the loop' 7 "${files[@]}"
pair twins
granted 'one formula under two entry numbers' 7 "${files[@]}"
pair slew
granted 'a box and a diamond of one action' 7 "${files[@]}"
pair slew-and-park
denied 'a box and a diamond of two actions' 'refuse 37 at 0' "${files[@]}"
pair two-goals
granted 'two goals' 7 "${files[@]}"
denied 'two goals with a proof of one' 'refuse 30 at 0' "${files[0]}" "$samples/nu-of-box/proof.bin"
denied 'one goal with a proof of two' 'refuse 30 at 0' "$samples/nu-of-box/claim.bin" "${files[1]}"
denied 'two goals with the proof of none' 'refuse 31 at 6' "${files[0]}" "$samples/no-goals/proof.bin"
pair no-goals
granted 'no goals' 7 "${files[@]}"
denied 'no goals with a proof of one' 'refuse 30 at 0' "${files[0]}" "$samples/nu-of-box/proof.bin"
denied 'one goal with the proof of none' 'refuse 30 at 0' "$samples/nu-of-box/claim.bin" "${files[1]}"
printf 'PRF2\1\0\0\0' >"$scratch/node.bin"
denied 'no goals and a node' 'refuse 35 at 0' "${files[0]}" "$scratch/node.bin"

# The box of `slew` is entry 2, its action byte 18.
pair slew
for action in '\0' '\20' '\377'; do
    { head -c 18 "${files[0]}"; printf "$action"; tail -c +20 "${files[0]}"; } >"$scratch/unfit.bin"
    denied "action $action" 'refuse 71 at 2' "$scratch/unfit.bin" "${files[1]}"
done

# Damaged copies of the good pair, each in one thing.
pair nu-of-box
claim=${files[0]}
proof=${files[1]}
head -c 21 "$claim" >"$scratch/claim.bin"
denied 'claim cut by a byte' 'refuse 11 at 21' "$scratch/claim.bin" "$proof"
{ printf 'CLM3'; tail -c +5 "$claim"; } >"$scratch/claim.bin"
denied 'claim of no form' 'refuse 10 at 0' "$scratch/claim.bin" "$proof"
# As a claim of one goal it ends inside the members: their count is taken for that of the goals.
{ printf 'CLM2'; tail -c +5 "$claim"; } >"$scratch/claim.bin"
denied 'claim under another opening' 'refuse 11 at 22' "$scratch/claim.bin" "$proof"
{ printf 'PRF2'; tail -c +5 "$proof"; } >"$scratch/proof.bin"
denied 'proof under another opening' 'refuse 30 at 0' "$claim" "$scratch/proof.bin"
{ cat "$claim"; printf '\0'; } >"$scratch/claim.bin"
denied 'claim with a byte more' 'refuse 11 at 22' "$scratch/claim.bin" "$proof"
{ head -c 6 "$proof"; printf '\200'; tail -c +8 "$proof"; } >"$scratch/proof.bin"
denied 'proof with an unfit map' 'refuse 33 at 6' "$claim" "$scratch/proof.bin"
: >"$scratch/proof.bin"
denied 'empty proof' 'refuse 30 at 0' "$claim" "$scratch/proof.bin"
{ cat "$proof"; head -c 100000 /dev/zero; } >"$scratch/proof.bin"
denied 'proof longer than the buffer' 'refuse 31 at 38' "$claim" "$scratch/proof.bin"
denied 'claim and proof exchanged' 'refuse 10 at 0' "$proof" "$claim"

not_tried 'missing claim' 7 "$scratch/none.bin" "$proof"
not_tried 'missing proof' 7 "$claim" "$scratch/none.bin"
not_tried 'folder in place of a proof' 7 "$claim" "$scratch"
not_tried 'no arguments'
for tag in '' 4294967296 -1 7x ' 7' 99999999999999999999; do
    not_tried "tag '$tag'" "$tag" "$claim" "$proof"
done

program=evaluate
run 'mu of box on a circle' 0 $'entry 0, kind 10:\nentry 1, kind 7:\nentry 2, kind 8:' "$samples/mu-of-box/claim.bin" "$samples/evaluate/circle.bin"
run 'nu of box on a circle' 0 $'entry 0, kind 10: 0\nentry 1, kind 7: 0\nentry 2, kind 9: 0' "$samples/nu-of-box/claim.bin" "$samples/evaluate/circle.bin"
run 'mu of box on a dead end' 0 $'entry 0, kind 10: 0 1\nentry 1, kind 7: 0 1\nentry 2, kind 8: 0 1' "$samples/mu-of-box/claim.bin" "$samples/evaluate/dead-end.bin"
run 'a box and a diamond of two actions on a mount' 0 $'entry 0, kind 2: 0 2\nentry 1, kind 3: 1\nentry 2, kind 7, action 1: 1 2\nentry 3, kind 6, action 2:' "$samples/slew-and-park/claim.bin" "$samples/evaluate/mount.bin"
run 'actions that an old model does not have' 0 $'entry 0, kind 2:\nentry 1, kind 3: 0\nentry 2, kind 7, action 1: 0\nentry 3, kind 6, action 1:' "$samples/slew/claim.bin" "$samples/evaluate/circle.bin"
run 'a claim of two goals on a circle' 0 $'entry 0, kind 10: 0\nentry 1, kind 7: 0\nentry 2, kind 9: 0\nentry 3, kind 2:\nentry 4, kind 3: 0' "$samples/two-goals/claim.bin" "$samples/evaluate/circle.bin"
# No entry has a line.
run 'a claim without entries on a mount' 0 '' "$samples/no-goals/claim.bin" "$samples/evaluate/mount.bin"
run 'an unfit action in an evaluation' 1 'refuse 71 at 2' "$scratch/unfit.bin" "$samples/evaluate/mount.bin"
run 'a proof in place of a model' 1 'refuse 60 at 0' "$samples/nu-of-box/claim.bin" "$samples/nu-of-box/proof.bin"

# The longest model: 64 states, each with all letters, and all states its successors
# by each action. A place beyond 65,535 is whole.
longest() {
    local list state
    list=$(printf '\\x40'; printf '\\x%02x' {0..63})
    state='\x03\xff\xff\xff\xff\xff\xff'$(for _ in {0..15}; do printf '%s' "$list"; done)
    printf 'MDL2\x40'
    for _ in {0..63}; do printf "$state"; done
}
longest >"$scratch/longest.bin"
states=$(seq -s ' ' 0 63)
lines="entry 0, kind 10: $states"$'\n'"entry 1, kind 7: $states"$'\n'"entry 2, kind 9: $states"
run 'the longest model' 0 "$lines" "$samples/nu-of-box/claim.bin" "$scratch/longest.bin"
{ cat "$scratch/longest.bin"; head -c 100000 /dev/zero; } >"$scratch/longer.bin"
run 'a model longer than the buffer' 1 'refuse 61 at 67013' "$samples/nu-of-box/claim.bin" "$scratch/longer.bin"
head -c 67012 "$scratch/longest.bin" >"$scratch/shorter.bin"
run 'the longest model cut by a byte' 1 'refuse 61 at 67012' "$samples/nu-of-box/claim.bin" "$scratch/shorter.bin"

run 'a missing model' 2 '' "$samples/nu-of-box/claim.bin" "$scratch/none.bin"

# same NAME FILE SAMPLE: a file that was written is the sample's, byte by byte.
same() {
    if cmp -s "$2" "$3"; then
        passed=$((passed + 1))
        return
    fi
    failed=$((failed + 1))
    echo "$1: $(wc -c <"$2" 2>/dev/null || echo no) bytes, not those of $3"
}

program=writer
made=("$scratch/made-claim.bin" "$scratch/made-proof.bin")
lines=$'claim: 22 bytes\nproof: 38 bytes\ncheck: accept'
run 'nu of box from its tables' 0 "$lines" "${made[@]}"
same 'the written claim' "${made[0]}" "$samples/nu-of-box/claim.bin"
same 'the written proof' "${made[1]}" "$samples/nu-of-box/proof.bin"
{ cat "$samples/nu-of-box/proof.bin"; head -c 1000 /dev/zero; } >"${made[1]}"
run 'over a longer file' 0 "$lines" "${made[@]}"
same 'the proof written over a longer file' "${made[1]}" "$samples/nu-of-box/proof.bin"
program=loader
granted 'the written pair' 7 "${made[@]}"
program=writer
lines=$'claim: 38 bytes\nproof: 49 bytes\ncheck: accept'
run 'two goals from their tables' 0 "$lines" "${made[@]}" goals
same 'the written claim of two goals' "${made[0]}" "$samples/two-goals/claim.bin"
same 'the written proof of two goals' "${made[1]}" "$samples/two-goals/proof.bin"
lines=$'claim: 8 bytes\nproof: 6 bytes\ncheck: accept'
run 'no goals from their tables' 0 "$lines" "${made[@]}" none
same 'the written claim without goals' "${made[0]}" "$samples/no-goals/claim.bin"
same 'the written proof without nodes' "${made[1]}" "$samples/no-goals/proof.bin"
run 'a word that says nothing to the writer' 2 '' "${made[@]}" goal
run 'a claim in a folder that is not there' 2 '' "$scratch/none/claim.bin" "${made[1]}"
run 'a folder in place of a proof' 2 '' "${made[0]}" "$scratch"
run 'a claim on a full disk' 2 '' /dev/full "${made[1]}"
run 'a proof on a full disk' 2 '' "${made[0]}" /dev/full
run 'no place for the proof' 2 '' "${made[0]}"
run 'no arguments for the writer' 2 ''

program=join
halves=("$samples"/{first,second}-half/{claim,proof}.bin)
lines=$'claim: 38 bytes\nproof: 69 bytes\ncheck: accept'
rm -f "${made[@]}"
run 'two halves' 0 "$lines" 5 "${halves[@]}" "${made[@]}"
same 'the joined claim' "${made[0]}" "$samples/both-halves/claim.bin"
same 'the joined proof' "${made[1]}" "$samples/both-halves/proof.bin"
program=loader
granted 'the joined pair' 7 "${made[@]}"

# unjoined NAME REFUSAL ENTRY HALVES...: nothing is written over the files of another pair.
unjoined() {
    cp "$samples/nu-of-box/claim.bin" "${made[0]}"
    cp "$samples/nu-of-box/proof.bin" "${made[1]}"
    run "$1" 1 "join: $2" "${@:3}" "${made[@]}"
    same "$1: the claim" "${made[0]}" "$samples/nu-of-box/claim.bin"
    same "$1: the proof" "${made[1]}" "$samples/nu-of-box/proof.bin"
}
program=join
unjoined 'an entry of another kind' 'refuse 73 at 2' 2 "${halves[@]}"
unjoined 'an entry out of range' 'refuse 73 at 65535' 65535 "${halves[@]}"
unjoined 'the halves exchanged' 'refuse 73 at 5' 5 "${halves[@]:2}" "${halves[@]:0:2}"
unjoined 'one half twice' 'refuse 73 at 5' 5 "${halves[@]:0:2}" "${halves[@]:0:2}"
# The letters of entries 3 and 4 are bytes 20 and 24 of a claim. With one of them changed the second pair is refused by itself; with
# both it is accepted, but the tables differ.
{ head -c 20 "${halves[2]}"; printf '\1'; tail -c +22 "${halves[2]}"; } >"$scratch/claim.bin"
unjoined 'a second half that does not hold' 'refuse 37 at 0' 5 "${halves[@]:0:2}" "$scratch/claim.bin" "${halves[3]}"
{ head -c 24 "$scratch/claim.bin"; printf '\1'; tail -c +26 "$scratch/claim.bin"; } >"$scratch/other.bin"
unjoined 'another table' 'refuse 73 at 5' 5 "${halves[@]:0:2}" "$scratch/other.bin" "${halves[3]}"
head -c 48 "${halves[1]}" >"$scratch/proof.bin"
unjoined 'the first proof cut, the second half bad' 'refuse 31 at 48' 5 "${halves[0]}" "$scratch/proof.bin" "$scratch/claim.bin" "${halves[3]}"
{ printf 'CLM2'; tail -c +5 "${halves[0]}"; } >"$scratch/claim.bin"
unjoined 'a claim in another form' 'refuse 10 at 0' 5 "$scratch/claim.bin" "${halves[@]:1}"
{ printf 'PRF2'; tail -c +5 "${halves[3]}"; } >"$scratch/proof.bin"
unjoined 'a proof in another form' 'refuse 30 at 0' 5 "${halves[@]:0:3}" "$scratch/proof.bin"
unjoined 'claims and proofs exchanged' 'refuse 10 at 0' 5 "${halves[1]}" "${halves[0]}" "${halves[@]:2}"
for i in 0 1 2 3; do
    missing=("${halves[@]}")
    missing[i]=$scratch/none.bin
    run "missing file $i" 2 '' 5 "${missing[@]}" "${made[@]}"
done
for entry in '' 65536 -1 5x ' 5' 000005; do
    run "entry '$entry'" 2 '' "$entry" "${halves[@]}" "${made[@]}"
done
run 'a joined claim on a full disk' 2 '' 5 "${halves[@]}" /dev/full "${made[1]}"
run 'a joined proof on a full disk' 2 '' 5 "${halves[@]}" "${made[0]}" /dev/full
run 'no place for the joined proof' 2 '' 5 "${halves[@]}" "${made[0]}"
run 'no arguments for the join' 2 ''

program=caller
run 'a good pair from Rust' 0 'accept' "${files[@]}"
run 'two goals from Rust' 0 'accept' "$samples/two-goals/claim.bin" "$samples/two-goals/proof.bin"
run 'no goals from Rust' 0 'accept' "$samples/no-goals/claim.bin" "$samples/no-goals/proof.bin"
run 'a cut proof from Rust' 1 'refuse 30 at 0' "$claim" /dev/null
run 'a missing proof from Rust' 2 '' "$claim" "$scratch/none.bin"

echo "loader: $passed passed, $failed failed"
[ "$failed" -eq 0 ]
