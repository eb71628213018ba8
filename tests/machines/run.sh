#!/usr/bin/env bash
# Runs the program `machines` on stored cases and on the examples, and compares what it prints byte for byte: run.sh PROGRAM
# A case is a folder with machines.txt, card0.txt and so on, calls.txt and expected.txt; a file that is left out is missing on purpose. An example's
# printed.txt is what it prints. Every stored case of the bench program is one of a single machine too, and of one among four (single.py).
# The large cases are made here. The last line is a count; a case that differs has a line of its own and makes this fail.
set -euo pipefail

if [ $# -ne 1 ] || [ ! -x "$1" ]; then
    echo "usage: run.sh PROGRAM" >&2
    exit 2
fi
program="$(readlink -f "$1")"
here="$(cd "$(dirname "${BASH_SOURCE[0]}")" && pwd)"
examples="$here/../../examples"
work="$(mktemp -d)"
trap 'rm -rf "$work"' EXIT
passed=0
failed=0

# judge NAME FOUND EXPECTED: counts whether two files are the same
judge() {
    if cmp -s "$2" "$3"; then
        passed=$((passed + 1))
    else
        echo "differs: $1 ($(cmp "$2" "$3" 2>&1 | tail -n 1))"
        failed=$((failed + 1))
    fi
}

# play FOLDER [ARGUMENT..]: runs the program in a folder of its own with the files of FOLDER, for two minutes at most
play() {
    local folder="$1" run="$work/run" file
    shift
    rm -rf "$run"
    mkdir "$run"
    for file in machines.txt card0.txt card1.txt card2.txt card3.txt card4.txt calls.txt; do
        [ ! -e "$folder/$file" ] || cp -r "$folder/$file" "$run/"
    done
    (cd "$run" && timeout 120 "$program" "$@") >"$work/output" 2>"$work/errors" </dev/null || echo "ended with status $?" >>"$work/output"
}

# compare NAME FOLDER EXPECTED: plays it, and nothing is wrong besides
compare() {
    play "$2"
    grep -E '^(usage|machines): ' "$work/errors" >>"$work/output" || true
    judge "$1" "$work/output" "$3"
}

# repeat COUNT LINE: that line so many times
repeat() {
    awk -v count="$1" -v line="$2" 'BEGIN { for (i = 0; i < count; i++) print line }'
}

# fill COUNT CHARACTER: that character so many times
fill() {
    repeat "$1" "$2" | tr -d '\n'
}

for folder in "$here"/cases/*/; do
    compare "$(basename "$folder")" "$folder" "$folder/expected.txt"
done
for printed in "$examples"/*/printed.txt; do
    compare "examples/$(basename "$(dirname "$printed")")" "$(dirname "$printed")" "$printed"
done

# as the bench program has it: a single machine, and one of four
sessions=("$examples"/*/expected.txt)
python3 "$here/single.py" "$work/single" "$here"/../bench/cases/* "${sessions[@]%/expected.txt}"
for folder in "$work"/single/*/; do
    compare "$(basename "$folder")" "$folder" "$folder/expected.txt"
done

# the folder that each large case is made in
large="$work/large"
mkdir "$large"
card_k="$here/cases/one-machine/card0.txt"
cp "$card_k" "$large/card0.txt"

# machines.txt of 16,384 bytes is judged by its lines, with a ceiling of 16,361 digits; one of 16,385 bytes is refusal 1
echo look,0,0 >"$large/calls.txt"
for size in 16384 16385 40000; do
    { printf 'machines,1,9\nmachine,0,'; fill "$((size - 24))" 9; echo; } >"$large/machines.txt"
    [ "$size" -eq 16384 ] && echo look,0,0,7 >"$large/expected.txt" || echo machines,refused,1,0 >"$large/expected.txt"
    compare "machines-$size" "$large" "$large/expected.txt"
done
{ printf 'machines,1,9\nmachine,0,9\n'; repeat 16358 ''; } >"$large/machines.txt"
echo machines,refused,2,3 >"$large/expected.txt"
compare machines-of-many-lines "$large" "$large/expected.txt"

# 65,536 bytes of calls are read, one byte more is refusal 1; a refused card comes before, and machines.txt before that
printf 'machines,1,9\nmachine,0,9\n' >"$large/machines.txt"
{ repeat 7281 step,0,0; printf 'turn\n\n\n'; } >"$large/calls.txt"
{ repeat 7281 step,0,0,refused,8; printf 'turn,taken\nline,7283,refused,2\nline,7284,refused,2\n'; } >"$large/expected.txt"
compare calls-65536 "$large" "$large/expected.txt"
echo >>"$large/calls.txt"
echo calls,refused,1 >"$large/expected.txt"
compare calls-65537 "$large" "$large/expected.txt"
printf 'machines,2,9\nmachine,0,9\nmachine,0,9\n' >"$large/machines.txt"
echo card,1,refused,2,1 >"$large/expected.txt"
compare card-before-calls "$large" "$large/expected.txt"
fill 16385 x >"$large/card1.txt"
echo card,1,refused,1,0 >"$large/expected.txt"
compare card-16385 "$large" "$large/expected.txt"
sed -i 1s/9/0/ "$large/machines.txt"
echo machines,refused,18,0 >"$large/expected.txt"
compare machines-before-card "$large" "$large/expected.txt"

# as many lines as fit: empty lines, each of them counted
printf 'machines,1,9\nmachine,0,9\n' >"$large/machines.txt"
repeat 65536 '' >"$large/calls.txt"
awk 'BEGIN { for (i = 1; i <= 65536; i++) print "line," i ",refused,2" }' >"$large/expected.txt"
compare lines-65536 "$large" "$large/expected.txt"

# an output that is closed early ends the program
cp "$large"/{machines,card0,calls}.txt "$work/run/"
(cd "$work/run" && timeout 20 "$program") 2>/dev/null </dev/null | head -n 1 >"$work/output" || true
head -n 1 "$large/expected.txt" >"$work/expected"
judge closed-output "$work/output" "$work/expected"

# an output that cannot be written is told in one line on standard error, that of a refusal too
echo told >"$work/expected"
for kind in lines refusal; do
    (cd "$work/run" && "$program") >/dev/full 2>"$work/errors" </dev/null || true
    sed 's/^machines: .*No space left on device$/told/' "$work/errors" >"$work/output"
    judge "full-output, $kind" "$work/output" "$work/expected"
    echo x >"$work/run/machines.txt"
done

# so is one that fills up on the way: a file of at most 512 KiB
cp "$large/machines.txt" "$work/run/"
(trap '' XFSZ && ulimit -f 512 && cd "$work/run" && "$program" >"$work/output") 2>"$work/errors" </dev/null || true
sed 's/^machines: .*File too large$/told/' "$work/errors" >"$work/output"
judge "an output that fills up" "$work/output" "$work/expected"

# T = 5,000: 357 operations of 14 steps each and two steps of the next one, then nothing more in this turn; a new turn goes on with the third step
sed 1s/100/1000000/ "$card_k" >"$large/card0.txt"
printf 'machines,1,5000\nmachine,100,100000\n' >"$large/machines.txt"
{
    awk 'BEGIN { for (i = 0; i < 400; i++) { print "call,0,0,0," 10 + i % 90 ",0,0,0"; for (k = 0; k < 14; k++) print "step,0,0" } }'
    echo turn
    repeat 13 step,0,0
} >"$large/calls.txt"
awk 'BEGIN {
    old = 7
    for (i = 0; i < 400; i++) {
        print "call,0,0," (i < 358 ? "taken" : "refused,7")
        for (k = 0; k < 14; k++) {
            if (++made > 5000) print "step,0,0,refused,19"
            else print "step,0,0," (k < 13 ? "run" : "done," i + 1 "," old ",0,0,0,14")
        }
        if (i < 357) old = 10 + i % 90
    }
    print "turn,taken"
    for (k = 0; k < 11; k++) print "step,0,0,run"
    print "step,0,0,done,358," old ",0,0,0,14"
    print "step,0,0,refused,8"
}' >"$large/expected.txt"
compare long-turn "$large" "$large/expected.txt"

# a change's text of 16,384 bytes is judged by its lines, one of 16,385 is refusal 1, to a machine that is not there it is 5; the line after it is a command
cp "$card_k" "$large/card0.txt"
tail -n +3 "$card_k" >"$large/text"
rest=$((16384 - $(wc -c <"$large/text")))
for case in 16384,0,2,6 16385,0,1,0 16385,1,5,0; do
    IFS=, read -r size machine number line <<<"$case"
    { echo "change,$machine,0,2,6"; cat "$large/text"; fill "$((rest - 1 + size - 16384))" x; printf '\nlook\nlook,0,0\n'; } >"$large/calls.txt"
    printf 'change,%s,0,refused,%s,%s\nline,8,refused,2\nlook,0,0,7\n' "$machine" "$number" "$line" >"$large/expected.txt"
    compare "change-$size-machine-$machine" "$large" "$large/expected.txt"
done

# a folder in the place of a file counts as empty
rm "$large/machines.txt"
mkdir "$large/machines.txt"
echo machines,refused,2,1 >"$large/expected.txt"
compare folder-as-machines "$large" "$large/expected.txt"
rmdir "$large/machines.txt"

# an argument is the usage line on standard error and nothing else, whatever the files are
for argument in x '' 1 --help; do
    play "$large" "$argument"
    cat "$work/errors" >>"$work/output"
    echo "usage: machines (reads machines.txt, card0.txt to card3.txt and calls.txt in the current folder)" >"$work/expected"
    judge "argument '$argument'" "$work/output" "$work/expected"
done

echo "$((passed + failed)) cases, $failed failed"
[ "$failed" -eq 0 ]
