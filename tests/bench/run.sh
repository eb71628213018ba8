#!/usr/bin/env bash
# Runs a bench program on stored cases and on the examples, and compares what it prints byte for byte: run.sh PROGRAM
# A case is a folder with card.txt, calls.txt and expected.txt; a card or calls file that is left out is missing on purpose.
# The large cases are made here. The last line is a count; a case that differs has a line of its own and makes this fail.
set -euo pipefail

if [ $# -ne 1 ] || [ ! -x "$1" ]; then
    echo "usage: run.sh PROGRAM" >&2
    exit 2
fi
program="$(readlink -f "$1")"
here="$(cd "$(dirname "${BASH_SOURCE[0]}")" && pwd)"
work="$(mktemp -d)"
trap 'rm -rf "$work"' EXIT
passed=0
failed=0

# judge NAME FOUND EXPECTED: counts whether two files are the same
judge() {
    if cmp -s "$2" "$3"; then
        passed=$((passed + 1))
    else
        echo "differs: $1 ($(cmp "$2" "$3" 2>&1 | tail -n 1))"
        failed=$((failed + 1))
    fi
}

# failures: what the program has told of a wrong call or a failure
failures() {
    grep -E "^(usage|$(basename "$program")): " "$work/errors" || true
}

# compare NAME FOLDER: runs the program in a folder of its own with the two files of FOLDER; it tells no failure on standard error
compare() {
    local run="$work/run"
    rm -rf "$run"
    mkdir "$run"
    for file in card.txt calls.txt; do
        if [ -e "$2/$file" ]; then
            cp "$2/$file" "$run/"
        fi
    done
    (cd "$run" && "$program") >"$work/output" 2>"$work/errors" </dev/null || echo "ended with status $?" >>"$work/output"
    failures >>"$work/output"
    judge "$1" "$work/output" "$2/expected.txt"
}

# repeat COUNT LINE: that line so many times
repeat() {
    awk -v count="$1" -v line="$2" 'BEGIN { for (i = 0; i < count; i++) print line }'
}

# the folder that each large case is made in
large="$work/large"
mkdir "$large"
card_k="$here/cases/listing/card.txt"

for folder in "$here"/cases/*/; do
    compare "$(basename "$folder")" "$folder"
done
# an example of another program has no expected.txt
for expected in "$here"/../../examples/*/expected.txt; do
    folder="$(dirname "$expected")"
    compare "$(basename "$folder")" "$folder"
done

# 65,536 bytes of calls are read: 9,362 steps of 7 bytes, and two empty lines
cp "$card_k" "$large/card.txt"
{ repeat 9362 step,0; printf '\n\n'; } >"$large/calls.txt"
{ repeat 9362 step,0,refused,8; printf 'line,9363,refused,2\nline,9364,refused,2\n'; } >"$large/expected.txt"
compare calls-65536 "$large"

# one byte more is refusal 1
printf '\n' >>"$large/calls.txt"
echo calls,refused,1 >"$large/expected.txt"
compare calls-65537 "$large"
repeat 20000 step,0 >>"$large/calls.txt"
compare calls-over "$large"

# the card is judged first
printf 'card,9,1,1,5\n' >"$large/card.txt"
echo card,refused,3,1 >"$large/expected.txt"
compare card-before-calls "$large"

# as many lines as fit: empty lines, each of them counted
cp "$card_k" "$large/card.txt"
repeat 65536 '' >"$large/calls.txt"
awk 'BEGIN { for (i = 1; i <= 65536; i++) print "line," i ",refused,2" }' >"$large/expected.txt"
compare lines-65536 "$large"

# an output that is closed early ends the program
(cd "$large" && timeout 20 "$program") 2>/dev/null </dev/null | head -n 1 >"$work/output" || true
head -n 1 "$large/expected.txt" >"$work/first"
judge closed-output "$work/output" "$work/first"

# an output that cannot be written is told in one line on standard error, that of a refusal too
echo "$(basename "$program"): the session could not be written: No space left on device" >"$work/expected"
for folder in "$large" "$here/../../examples/refused-card"; do
    (cd "$folder" && "$program") >/dev/full 2>"$work/errors" </dev/null || true
    judge "full-output in $(basename "$folder")" "$work/errors" "$work/expected"
done

# so is one that fills up on the way: a file of at most 512 KiB
echo "$(basename "$program"): the session could not be written: File too large" >"$work/expected"
(trap '' XFSZ && ulimit -f 512 && cd "$large" && "$program" >"$work/output") 2>"$work/errors" </dev/null || true
judge "an output that fills up" "$work/errors" "$work/expected"

# one line of 65,536 bytes without an end, and with one
awk 'BEGIN { for (i = 0; i < 65536; i++) printf "9" }' >"$large/calls.txt"
echo line,1,refused,2 >"$large/expected.txt"
compare line-unended "$large"
{ printf 'look,0\n'; awk 'BEGIN { for (i = 0; i < 65521; i++) printf "9" }'; printf '\nlook,0\n'; } >"$large/calls.txt"
printf 'look,0,7\nline,2,refused,2\nlook,0,7\n' >"$large/expected.txt"
compare line-long "$large"

# operation after operation: 560 calls of card K with 14 steps each
sed 's/100/1000000/' "$card_k" >"$large/card.txt"
awk 'BEGIN { for (i = 0; i < 560; i++) { print "call,0,0," 10 + i % 90 ",0,0,0"; for (k = 0; k < 14; k++) print "step,0" } }' >"$large/calls.txt"
awk 'BEGIN {
    old = 7
    for (i = 0; i < 560; i++) {
        print "call,0,taken"
        for (k = 0; k < 13; k++) print "step,0,run"
        print "step,0,done," i + 1 "," old ",0,0,0,14"
        old = 10 + i % 90
    }
}' >"$large/expected.txt"
compare operations "$large"

# a card text of 16,384 bytes is judged by its lines, one of 16,385 is refusal 1
echo look,0 >"$large/calls.txt"
{ cat "$card_k"; awk -v n="$((16384 - $(wc -c <"$card_k")))" 'BEGIN { for (i = 0; i < n; i++) printf "x" }'; } >"$large/card.txt"
echo card,refused,2,8 >"$large/expected.txt"
compare card-16384 "$large"
printf x >>"$large/card.txt"
echo card,refused,1,0 >"$large/expected.txt"
compare card-16385 "$large"

# a change's text of 16,384 bytes is judged by its lines, one of 16,385 is refusal 1; the line after it is a command
cp "$card_k" "$large/card.txt"
tail -n +3 "$card_k" >"$large/text"
rest=$((16384 - $(wc -c <"$large/text")))
for size in 16384 16385; do
    { echo change,0,2,6; cat "$large/text"; repeat "$((rest - 1 + size - 16384))" x | tr -d '\n'; printf '\nlook\nlook,0\n'; } >"$large/calls.txt"
    [ "$size" -eq 16384 ] && refusal=2,6 || refusal=1,0
    printf 'change,0,refused,%s\nline,8,refused,2\nlook,0,7\n' "$refusal" >"$large/expected.txt"
    compare "change-$size" "$large"
done

# a change that tells all the lines that are left of 65,536 bytes
{ printf 'look,0\nchange,0,2,4294967295\n'; cat "$large/text"; } >"$large/calls.txt"
repeat "$((65536 - $(wc -c <"$large/calls.txt")))" '' >>"$large/calls.txt"
printf 'look,0,7\nchange,0,refused,1,0\n' >"$large/expected.txt"
compare change-to-the-end "$large"

# with standard input closed the first file that is opened has its number, 0
cp "$here/cases/listing/card.txt" "$here/cases/listing/calls.txt" "$large/"
(cd "$large" && "$program") >"$work/output" 2>"$work/errors" <&- || echo "ended with status $?" >>"$work/output"
failures >>"$work/output"
judge input-closed "$work/output" "$here/cases/listing/expected.txt"

echo "$((passed + failed)) cases, $failed failed"
[ "$failed" -eq 0 ]
