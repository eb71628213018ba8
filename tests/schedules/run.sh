#!/usr/bin/env bash
# Runs the program `schedules` on stored cases and on the examples, and compares what it prints byte for byte: run.sh PROGRAM
# A case is a folder with card.txt, calls.txt, length.txt (the argument) and expected.txt; a card or calls file that is left out is missing on
# purpose. An example's listing-L.txt is its listing of length L. The large cases are made here.
# The last line is a count; a case that differs has a line of its own and makes this fail.
set -euo pipefail

if [ $# -ne 1 ] || [ ! -x "$1" ]; then
    echo "usage: run.sh PROGRAM" >&2
    exit 2
fi
program="$(readlink -f "$1")"
here="$(cd "$(dirname "${BASH_SOURCE[0]}")" && pwd)"
examples="$here/../../examples"
work="$(mktemp -d)"
trap 'rm -rf "$work"' EXIT
passed=0
failed=0

# judge NAME FOUND EXPECTED: counts whether two files are the same
judge() {
    if cmp -s "$2" "$3"; then
        passed=$((passed + 1))
    else
        echo "differs: $1 ($(cmp "$2" "$3" 2>&1 | tail -n 1))"
        failed=$((failed + 1))
    fi
}

# list FOLDER [ARGUMENT..]: runs the program in a folder of its own with the two files of FOLDER
list() {
    local folder="$1" run="$work/run"
    shift
    rm -rf "$run"
    mkdir "$run"
    for file in card.txt calls.txt; do
        if [ -e "$folder/$file" ]; then
            cp "$folder/$file" "$run/"
        fi
    done
    (cd "$run" && "$program" "$@") >"$work/output" 2>"$work/errors" </dev/null || echo "ended with status $?" >>"$work/output"
}

# compare NAME FOLDER LENGTH EXPECTED: lists it, and nothing is wrong besides
compare() {
    list "$2" "$3"
    grep -E '^(usage|schedules): ' "$work/errors" >>"$work/output" || true
    judge "$1" "$work/output" "$4"
}

for folder in "$here"/cases/*/; do
    compare "$(basename "$folder")" "$folder" "$(cat "$folder/length.txt")" "$folder/expected.txt"
done
for listing in "$examples"/*/listing-*.txt; do
    length="${listing##*/listing-}"
    compare "$(basename "$(dirname "$listing")") $length" "$(dirname "$listing")" "${length%.txt}" "$listing"
done

# what the page of the example tells: how many of its orders bring an operation to its end, all of them with the old value 7
every="$examples/every-order"
for told in 13,0 14,1 15,16 16,146; do
    list "$every" "${told%,*}"
    grep -c 'done,' "$work/output" >"$work/count" || true
    grep -c 'done,1,7,0,0,0,' "$work/output" >>"$work/count" || true
    printf '%s\n%s\n' "${told#*,}" "${told#*,}" >"$work/expected"
    judge "every-order ${told%,*}, lines with done" "$work/count" "$work/expected"
done

# all_run PROCESSES LENGTH: the listing where nobody is back yet
all_run() {
    awk -v p="$1" -v n="$2" 'BEGIN {
        for (k = 0; k < n; k++) { last *= p; last += p - 1; answers = answers ",run" }
        for (x = 0; x <= last; x++) {
            line = ""
            rest = x
            for (k = 0; k < n; k++) { line = (rest % p) line; rest = int(rest / p) }
            print line answers
        }
    }'
}

# the folder that each large case is made in
large="$work/large"
mkdir "$large"

# card K with three processes, of which none is back before its step 14
sed '1s/.*/card,3,1,1,100/' "$examples/card-k/card.txt" >"$large/card.txt"
printf 'call,%d,0,9,0,0,0\n' 0 1 2 >"$large/calls.txt"
for length in 9 12; do
    all_run 3 "$length" >"$large/expected.txt"
    compare "three processes, length $length" "$large" "$length" "$large/expected.txt"
done

# an output that is closed early ends the program; process 0 alone is back at its step 15, and then 1 steps
(cd "$large" && timeout 20 "$program" 16 2>/dev/null </dev/null | head -n 1 >"$work/output") || true
awk 'BEGIN { for (k = 0; k < 14; k++) runs = runs ",run"; print "0000000000000001" runs ",done,1,7,0,0,0,15,run" }' >"$work/expected"
judge closed-output "$work/output" "$work/expected"

# a listing that takes long tells on standard error how far it is, every two seconds or later, by rising numbers of 177,147 pieces; no other line is there
(cd "$large" && timeout 8 "$program" 16 >/dev/null 2>"$work/errors" </dev/null) || true
awk '
    !/^listed [0-9]+ of 177147 beginnings of schedules, [0-9]+ s$/ { print; next }
    $2 <= done || $2 >= 177147 || $8 < seconds + 2 || $8 > seconds + 60 { print }
    { done = $2; seconds = $8; told++ }
    END { print (told > 1 ? "told" : "not told") }' "$work/errors" >"$work/output"
echo told >"$work/expected"
judge "a long listing tells how far it is" "$work/output" "$work/expected"

# two processes that touch nothing: 1 has the first turn and is back at its step 12, 0 alone at its step 13; then only the other goes on
printf 'card,2,1,1,100\nvar,7\nsheet,2\nins,2,0,77,0\nins,11,0,0,0\n' >"$large/card.txt"
printf 'call,%d,0,0,0,0,0\n' 0 1 >"$large/calls.txt"
all_run 2 13 | awk -F , -v OFS=, '
    { ones = gsub(/1/, "1", $1) }
    ones == 13 { next }
    ones == 12 { $(substr($1, 13) == "0" ? 13 : 14) = "done,1,77,0,0,0,12" }
    ones == 0 { $14 = "done,1,77,0,0,0,13" }
    { print }' >"$large/expected.txt"
compare "one of two is back" "$large" 13 "$large/expected.txt"

# 65,536 bytes of calls are judged by their lines, one more is refusal 1; the card is judged first
awk 'BEGIN { for (i = 0; i < 65536; i++) print "" }' >"$large/calls.txt"
echo line,1,refused,2 >"$large/expected.txt"
compare calls-65536 "$large" 3 "$large/expected.txt"
echo >>"$large/calls.txt"
echo calls,refused,1 >"$large/expected.txt"
compare calls-65537 "$large" 3 "$large/expected.txt"
awk 'BEGIN { for (i = 0; i < 16385; i++) printf "x" }' >"$large/card.txt"
echo card,refused,1,0 >"$large/expected.txt"
compare card-16385 "$large" 3 "$large/expected.txt"

# a wrong argument, or a wrong number of them, is the usage line on standard error and nothing else, whatever the files are
echo "usage: schedules L (the number of steps, a decimal below 4294967296)" >"$work/expected"
for arguments in '' 'x' '016' '00' '-1' '+1' '1x' '0x1' '1.0' '4294967296' '18446744073709551617' '1 2'; do
    # shellcheck disable=SC2086
    list "$large" $arguments
    cat "$work/errors" >>"$work/output"
    judge "argument '$arguments'" "$work/output" "$work/expected"
done
for argument in '' ' 1' '1 '; do
    list "$large" "$argument"
    cat "$work/errors" >>"$work/output"
    judge "the argument '$argument'" "$work/output" "$work/expected"
done

# an output that cannot be written is told in one line on standard error, that of a refusal too
echo "schedules: the listing could not be written: No space left on device" >"$work/expected"
for folder in "$every" "$here/../../examples/refused-card"; do
    (cd "$folder" && "$program" 12) >/dev/full 2>"$work/errors" </dev/null || true
    judge "full-output in $(basename "$folder")" "$work/errors" "$work/expected"
done

# so is one that fills up on the way: a file of at most 512 KiB
echo "schedules: the listing could not be written: File too large" >"$work/expected"
(trap '' XFSZ && ulimit -f 512 && cd "$every" && "$program" 16 >"$work/output") 2>"$work/errors" </dev/null || true
judge "an output that fills up" "$work/errors" "$work/expected"

echo "$((passed + failed)) cases, $failed failed"
[ "$failed" -eq 0 ]
