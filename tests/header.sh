#!/usr/bin/env bash
# The header by itself, in each language that it is for: it compiles alone and without a
# warning, its macros say what they should, a question about an answer that was kept in too
# few bits does not compile, and neither do structs that are laid out otherwise. Needs no
# archive; CC and CXX name other compilers.
set -euo pipefail
cd "$(dirname "$0")/.."

# The reasons are compared as words.
export LC_ALL=C

scratch=$(mktemp -d)
trap 'rm -rf "$scratch"' EXIT
flags=(-Wall -Wextra -Wpedantic -Werror -Iinclude)
# Right use stands these too. Misuse is compiled without: the header objects, not a warning.
strict=(-Wconversion -Wsign-conversion -Wtype-limits -Wshadow -Wvla)

passed=0
failed=0

# in_language LANGUAGE: how files are compiled from here on.
in_language() {
    language=$1
    case $language in
    c++*) compile=("${CXX:-c++}" -x c++ "-std=$language" "${flags[@]}") ;;
    *) compile=("${CC:-cc}" -x c "-std=$language" "${flags[@]}") ;;
    esac
}

good() {
    passed=$((passed + 1))
}

bad() {
    failed=$((failed + 1))
    echo "$language, $1"
    head -n 5 "$scratch/said"
}

# compiles NAME ARGUMENTS...: without a word.
compiles() {
    if "${compile[@]}" -fsyntax-only "${@:2}" >"$scratch/said" 2>&1 && [ ! -s "$scratch/said" ]; then
        good
    else
        bad "$1: does not compile"
    fi
}

# refused NAME REASON ARGUMENTS...: not compiled, and the compiler says so in these words.
refused() {
    if "${compile[@]}" -fsyntax-only "${@:3}" >"$scratch/said" 2>&1; then
        bad "$1: compiles"
    elif grep -qE -e "error: .*($2)" "$scratch/said"; then
        good
    else
        bad "$1: another reason than '$2'"
    fi
}

# runs NAME FILE: compiled without a word, and then everything is as it should be.
runs() {
    if "${compile[@]}" "${strict[@]}" "$2" -o "$scratch/program" >"$scratch/said" 2>&1 &&
        "$scratch/program" >"$scratch/said" 2>&1 && [ ! -s "$scratch/said" ]; then
        good
    else
        bad "$1"
    fi
}

# keeping BITS QUESTION CALL TYPES...: the question does not compile of what the call has
# answered where that was kept in one of these types; in 64 bits, of either sign, it does.
keeping() {
    local bits=$1 question=$2 call=$3 kept
    for kept in "${@:4}"; do
        refused "$question of a $kept" "answer_needs_${bits}_bits" \
            "-DQUESTION=$question" "-DCALL=$call" "-DKEPT=$kept" tests/header/ask.c
    done
    refused "$question of a double" 'invalid operands' \
        "-DQUESTION=$question" "-DCALL=$call" -DKEPT=double tests/header/ask.c
    for kept in uint64_t int64_t; do
        compiles "$question of a $kept" \
            "-DQUESTION=$question" "-DCALL=$call" "-DKEPT=$kept" tests/header/ask.c
    done
}

of_64_bits=(uint32_t int uint16_t bool)
of_32_bits=(uint16_t 'unsigned char' bool)
check='focus_check(0, 0, 0, 0)'
evaluate='focus_evaluate(0, 0, 0, 0, 0, 0, 0, 0)'
write='focus_write_claim(1, 0, 0, 0, 0, 0, 0, 0, 0, 0)'
join='focus_join(0, 0, 0, 0, 0, 0, 0, 0, 0, 0, 0, 0, 0)'

for language in c99 c11 c17 c++98 c++11 c++17; do
    in_language "$language"
    compiles 'the header alone' "${strict[@]}" include/focus_gate.h
    for struct in focus_gate focus_entry focus_node; do
        refused "$struct packed" "${struct}_of_size_" -fpack-struct include/focus_gate.h
    done
    runs 'its macros in use' tests/header/use.c

    keeping 64 FOCUS_TOOK 'focus_take(gate)' "${of_64_bits[@]}"
    keeping 64 FOCUS_WROTE "$write" "${of_64_bits[@]}"
    keeping 64 FOCUS_JOINED "$join" "${of_64_bits[@]}"
    keeping 64 FOCUS_JOINED_CLAIM "$join" "${of_64_bits[@]}"
    keeping 64 FOCUS_JOINED_PROOF "$join" "${of_64_bits[@]}"
    keeping 64 FOCUS_EVALUATED "$evaluate" "${of_64_bits[@]}"
    keeping 64 FOCUS_EVALUATE_NUMBER "$evaluate" "${of_64_bits[@]}"
    keeping 64 FOCUS_EVALUATE_PLACE "$evaluate" "${of_64_bits[@]}"
    for question in FOCUS_DONE FOCUS_NUMBER FOCUS_PLACE; do
        keeping 32 "$question" "$check" "${of_32_bits[@]}"
        compiles "$question of a uint32_t" \
            "-DQUESTION=$question" "-DCALL=$check" -DKEPT=uint32_t tests/header/ask.c
    done
done

echo "header: $passed passed, $failed failed"
[ "$failed" -eq 0 ]
