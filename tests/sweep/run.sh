#!/usr/bin/env bash
# Runs the program `sweep` on stored cases and on the examples, and compares what it prints byte for byte: run.sh PROGRAM
# A case is a folder with card.txt, calls.txt, arguments.txt (steps and seed) and expected.txt; a card or calls file that is left out is missing on
# purpose. An example's sweep-STEPS-SEED.txt is what it prints for these. The large cases are made here.
# The last line is a count; a case that differs has a line of its own and makes this fail.
set -euo pipefail

if [ $# -ne 1 ] || [ ! -x "$1" ]; then
    echo "usage: run.sh PROGRAM" >&2
    exit 2
fi
program="$(readlink -f "$1")"
here="$(cd "$(dirname "${BASH_SOURCE[0]}")" && pwd)"
examples="$here/../../examples"
work="$(mktemp -d)"
trap 'rm -rf "$work"' EXIT
passed=0
failed=0

# judge NAME FOUND EXPECTED: counts whether two files are the same
judge() {
    if cmp -s "$2" "$3"; then
        passed=$((passed + 1))
    else
        echo "differs: $1 ($(cmp "$2" "$3" 2>&1 | tail -n 1))"
        failed=$((failed + 1))
    fi
}

# sweep FOLDER [ARGUMENT..]: runs the program in a folder of its own with the two files of FOLDER
sweep() {
    local folder="$1" run="$work/run"
    shift
    rm -rf "$run"
    mkdir "$run"
    for file in card.txt calls.txt; do
        if [ -e "$folder/$file" ]; then
            cp "$folder/$file" "$run/"
        fi
    done
    (cd "$run" && "$program" "$@") >"$work/output" 2>"$work/errors" </dev/null || echo "ended with status $?" >>"$work/output"
}

# compare NAME FOLDER STEPS SEED EXPECTED: sweeps, and nothing is wrong besides
compare() {
    sweep "$2" "$3" "$4"
    grep -E '^(usage|sweep): ' "$work/errors" >>"$work/output" || true
    judge "$1" "$work/output" "$5"
}

for folder in "$here"/cases/*/; do
    read -r steps seed <"$folder/arguments.txt"
    compare "$(basename "$folder")" "$folder" "$steps" "$seed" "$folder/expected.txt"
done
for expected in "$examples"/*/sweep-*.txt; do
    IFS=- read -r _ steps seed <<<"$(basename "$expected" .txt)"
    compare "$(basename "$(dirname "$expected")") $steps $seed" "$(dirname "$expected")" "$steps" "$seed" "$expected"
done

# what the page of the example tells: whatever the seed, nothing faults, and the two beams have 200 courses together
for seed in 1 2 3 4 5 6 7 8; do
    sweep "$examples/overnight" 20000 "$seed"
    awk -F , '$1 == "fault" { print } $1 == "look" { sum += $3 } END { print sum }' "$work/output" >"$work/found"
    printf 'fault,0\n200\n' >"$work/expected"
    judge "overnight, seed $seed" "$work/found" "$work/expected"
done

# the folder that each large case is made in
large="$work/large"
mkdir "$large"

# one process on card K: 14 steps while the value is altered, 13 from then on
sed '1s/.*/card,1,1,1,1000000000000000000/' "$examples/card-k/card.txt" >"$large/card.txt"
echo call,0,0,9,0,0,0 >"$large/calls.txt"
for steps in 130001 1300002 1300014; do
    printf 'steps,%d\ndone,%d\nfault,0\nwait,14,32\ngate,%d\nlook,0,9\n' "$steps" $(((steps - 1) / 13)) $(((steps - 1) / 13 + 1 + ((steps - 1) % 13 > 10))) >"$large/expected.txt"
    compare "card K, $steps steps" "$large" "$steps" "$steps" "$large/expected.txt"
done

# a sweep that takes long tells on standard error how far it is, every two seconds or later: the steps, their rate and the seconds left at this rate fit
# together; no other line is there
all=1000000000000
(cd "$large" && timeout 8 "$program" "$all" 1 >"$work/output" 2>"$work/errors" </dev/null) || true
awk -v all="$all" '
    !/^[0-9]+ of [0-9]+ steps, [0-9]+ a second, [0-9]+ s left$/ { print; next }
    { seconds = $5 > 0 ? int($1 / $5) : 0 }
    $1 <= done || $3 != all || seconds < last + 2 || seconds > last + 60 || $8 != int((all - $1) / $5) { print }
    { done = $1; last = seconds; told++ }
    END { print (told > 1 ? "told" : "not told") }' "$work/errors" >>"$work/output"
echo told >"$work/expected"
judge "a long sweep tells how far it is" "$work/output" "$work/expected"

# an output that cannot be written is told in one line on standard error, that of a refusal too
echo "sweep: the counts could not be written: No space left on device" >"$work/expected"
for folder in "$large" "$here/../../examples/refused-card"; do
    (cd "$folder" && "$program" 100 1) >/dev/full 2>"$work/errors" </dev/null || true
    judge "full-output in $(basename "$folder")" "$work/errors" "$work/expected"
done

# 65,536 bytes of calls are judged by their lines, one more is refusal 1; the card is judged first
awk 'BEGIN { for (i = 0; i < 65536; i++) print "" }' >"$large/calls.txt"
echo line,1,refused,2 >"$large/expected.txt"
compare calls-65536 "$large" 3 1 "$large/expected.txt"
echo >>"$large/calls.txt"
echo calls,refused,1 >"$large/expected.txt"
compare calls-65537 "$large" 3 1 "$large/expected.txt"
awk 'BEGIN { for (i = 0; i < 16385; i++) printf "x" }' >"$large/card.txt"
echo card,refused,1,0 >"$large/expected.txt"
compare card-16385 "$large" 3 1 "$large/expected.txt"

# a wrong argument, or a wrong number of them, is the usage line on standard error and nothing else, whatever the files are
echo "usage: sweep STEPS SEED (decimals below 18446744073709551616, SEED not 0)" >"$work/expected"
# misused NAME ARGUMENT..: it is so
misused() {
    local name="$1"
    shift
    sweep "$large" "$@"
    cat "$work/errors" >>"$work/output"
    judge "$name" "$work/output" "$work/expected"
}
for arguments in '' '1' '1 2 3' 'x 1' '1 x' '1 0' '016 1' '1 016' '00 1' '1 00' '-1 1' '1 -1' '+1 1' '1 +1' '1x 1' '0x1 1' '1.0 1' '1e3 1' \
    '18446744073709551616 1' '1 18446744073709551616' '1 18446744073709551617' '36893488147419103232 1' '1 99999999999999999999999999999999'; do
    # shellcheck disable=SC2086
    misused "arguments '$arguments'" $arguments
done
long="$(printf '%05000d' 7)"
for argument in '' ' 1' '1 ' $'1\n' "$long" "1$long"; do
    misused "steps '${argument:0:9}'" "$argument" 1
    misused "seed '${argument:0:9}'" 1 "$argument"
done

echo "$((passed + failed)) cases, $failed failed"
[ "$failed" -eq 0 ]
