#!/usr/bin/env bash
# Runs the programs of the waveforms on stored cases and compares what they print byte for byte: run.sh WAVES READINGS
# sessions/ has a card and its calls, and in expected.txt the dump; a file that is left out is missing on purpose. Every such dump is read back.
# dumps/ has dumps, whole and damaged, and in expected.txt what is read off them, in expected-STEP.txt after that step.
# The large cases are made here. The last line is a count; a case that differs has a line of its own and makes this fail.
set -euo pipefail

if [ $# -ne 2 ] || [ ! -x "$1" ] || [ ! -x "$2" ]; then
    echo "usage: run.sh WAVES READINGS" >&2
    exit 2
fi
waves="$(readlink -f "$1")"
readings="$(readlink -f "$2")"
here="$(cd "$(dirname "${BASH_SOURCE[0]}")" && pwd)"
work="$(mktemp -d)"
trap 'rm -rf "$work"' EXIT
passed=0
failed=0

# judge NAME FOUND EXPECTED: counts whether two files are the same
judge() {
    if cmp -s "$2" "$3"; then
        passed=$((passed + 1))
    else
        echo "differs: $1 ($(cmp "$2" "$3" 2>&1 | tail -n 1))"
        failed=$((failed + 1))
    fi
}

# run FOLDER PROGRAM [ARGUMENT..]: runs a program in a folder, for two minutes at most; its output and what it says are kept
run() {
    local folder="$1"
    shift
    (cd "$folder" && timeout 120 "$@") >"$work/output" 2>"$work/errors" </dev/null || echo "ended with status $?" >>"$work/output"
}

# write NAME FOLDER [EXPECTED]: the dump of the card and calls of a folder
write() {
    local room="$work/room"
    rm -rf "$room"
    mkdir "$room"
    for file in card.txt calls.txt; do
        [ ! -e "$2/$file" ] || cp "$2/$file" "$room/"
    done
    run "$room" "$waves"
    cat "$work/errors" >>"$work/output"
    judge "$1" "$work/output" "${3:-$2/expected.txt}"
}

# read_off NAME FOLDER EXPECTED [STEP]: what is read off the dump of a folder
read_off() {
    run "$2" "$readings" dump.vcd "${@:4}"
    cat "$work/errors" >>"$work/output"
    judge "$1${4:+ after step $4}" "$work/output" "$3"
}

# values DUMP: what stands in a good dump, a line for each time, by its lines alone
values() {
    awk '/^\$var/ { place[$4] = n++ }
        /^#/ { if (time != "") print line(); time = substr($0, 2) }
        /^b/ { sum = 0; for (i = 2; i <= length($1); i++) sum = 2 * sum + substr($1, i, 1); value[place[$2]] = sum }
        function line(  text, i) { text = time; for (i = 0; i < n; i++) text = text "," sprintf("%.0f", value[i]); return text }
        END { print line() }' "$1"
}

# usage_line NAME PROGRAM [ARGUMENT..]: nothing is printed, and standard error is the program's usage line
usage_line() {
    local name="$1"
    shift
    run "$work" "$@"
    cat "$work/errors" >>"$work/output"
    case "$1" in
        "$waves") echo "usage: waves" ;;
        *) echo "usage: readings DUMP [STEP] (a step from 0 to 1000000000000000000)" ;;
    esac >"$work/expected"
    judge "usage of $name" "$work/output" "$work/expected"
}

# repeat COUNT LINE: that line so many times
repeat() {
    awk -v count="$1" -v line="$2" 'BEGIN { for (i = 0; i < count; i++) print line }'
}

for folder in "$here"/sessions/*/; do
    name="$(basename "$folder")"
    write "$name" "$folder"
    if grep -q '^#0$' "$folder/expected.txt"; then
        mkdir -p "$work/back"
        cp "$folder/expected.txt" "$work/back/dump.vcd"
        values "$work/back/dump.vcd" >"$work/values"
        read_off "$name read back" "$work/back" "$work/values"
    fi
done
write "examples/waves" "$here/../../examples/waves" "$here/../../examples/waves/dump.vcd"
for folder in "$here"/dumps/*/; do
    name="$(basename "$folder")"
    read_off "$name" "$folder" "$folder/expected.txt"
    for expected in "$folder"expected-*.txt; do
        [ -e "$expected" ] || continue
        step="${expected##*expected-}"
        read_off "$name" "$folder" "$expected" "${step%.txt}"
    done
done

# a dump that is not there, and one that is a folder, count as empty
large="$work/large"
mkdir "$large"
echo dump,refused,2,1 >"$work/expected"
run "$large" "$readings" nowhere.vcd
judge no-dump "$work/output" "$work/expected"
run "$large" "$readings" nowhere.vcd 5
judge no-dump-with-step "$work/output" "$work/expected"
run "$large" "$readings" .
judge folder-as-dump "$work/output" "$work/expected"
run "$large" "$readings" ''
judge no-name "$work/output" "$work/expected"

# a dump whose path has more than 800 bytes
part="$(printf 'x%.0s' {1..200})"
far="$large/$part/$part/$part/$part"
mkdir -p "$far"
cp "$here/dumps/good/dump.vcd" "$far/a long way off.vcd"
run "$work" "$readings" "$far/a long way off.vcd"
judge far-away "$work/output" "$here/dumps/good/expected.txt"

# calls of 65,536 bytes are played, one byte more is refusal 1, and a refused card comes before
card_k="$here/sessions/card-k/card.txt"
sed 1s/100/1000000/ "$card_k" >"$large/card.txt"
awk 'BEGIN {
    for (i = 0; i < 560; i++) { print "call,0,0," 10 + i % 90 ",0,0,0"; for (k = 0; k < 14; k++) print "step,0" }
}' >"$large/calls.txt"
rest=$((65536 - $(wc -c <"$large/calls.txt")))
repeat "$rest" '' >>"$large/calls.txt"
awk 'function bits(n) { return n < 2 ? n "" : bits(int(n / 2)) n % 2 }
BEGIN {
    print "$timescale 1 us $end\n$scope module card $end\n$var wire 32 ! v0 $end\n$upscope $end\n$enddefinitions $end\n#0\nb111 !"
    for (i = 0; i < 560; i++) print "#" 14 * i + 10 "\nb" bits(10 + i % 90) " !"
    print "#" 560 * 14
}' >"$large/dump.vcd"
write calls-65536 "$large" "$large/dump.vcd"
values "$large/dump.vcd" >"$work/values"
read_off calls-65536 "$large" "$work/values"
for at in 0 9 10 7833 7834 7840 7841 1000000000000000000; do
    awk -F, -v at="$at" '$1 + 0 <= at + 0 { value = $2 } END { print at "," value }' "$work/values" >"$work/expected"
    read_off calls-65536 "$large" "$work/expected" "$at"
done
printf '\n' >>"$large/calls.txt"
echo calls,refused,1 >"$work/expected"
write calls-65537 "$large" "$work/expected"
printf 'card,9,1,1,5\n' >"$large/card.txt"
echo card,refused,3,1 >"$work/expected"
write card-before-calls "$large" "$work/expected"

# a dump of 4,194,304 bytes is read, one byte more is refusal 1: v0 goes from 0 to 1 and back at every step, and the last line has what is missing
dump_of() {
    awk -v size="$1" 'BEGIN {
        head = "$timescale 1 us $end\n$scope module card $end\n$var wire 32 ! v0 $end\n$upscope $end\n$enddefinitions $end\n#0\nb0 !\n"
        printf "%s", head
        left = size - length(head)
        for (time = 1000000; left >= 41; time++) { printf "#%d\nb%d !\n", time, value = 1 - value; left -= 14 }
        printf "#%d\nb", time
        for (left -= 13; left > 0; left--) printf "1"
        print " !"
    }'
}
dump_of 4194304 >"$large/dump.vcd"
values "$large/dump.vcd" >"$work/values"
read_off dump-4194304 "$large" "$work/values"
tail -n 1 "$work/values" | sed 's/^[0-9]*/999999999999999999/' >"$work/expected"
read_off dump-4194304 "$large" "$work/expected" 999999999999999999
dump_of 4194305 >"$large/dump.vcd"
echo dump,refused,1,0 >"$work/expected"
read_off dump-4194305 "$large" "$work/expected"
read_off dump-4194305 "$large" "$work/expected" 0
repeat 600000 'b0 !' >"$large/dump.vcd"
repeat 600000 'b1 !' >>"$large/dump.vcd"
read_off dump-over "$large" "$work/expected"

# damage far in a large dump has its line
dump_of 4000000 | sed 's/^#1142857$/#01142857/' >"$large/dump.vcd"
echo "dump,refused,2,$(grep -n '^#01142857$' "$large/dump.vcd" | cut -d: -f1)" >"$work/expected"
read_off far-line "$large" "$work/expected"

# arguments are judged before any file
usage_line "waves with an argument" "$waves" x
usage_line "readings without one" "$readings"
usage_line "readings with three" "$readings" dump.vcd 1 2
for step in '' 07 00 +7 -1 ' 7' '7 ' 7.0 x 1000000000000000001 18446744073709551616 18446744073709551617 "$(repeat 5000 1 | tr -d '\n')"; do
    usage_line "readings with step '${step:0:30}'" "$readings" "$large/dump.vcd" "$step"
done

# an output that is closed early ends the program; one that cannot be written is told in one line on standard error, that of a refusal too
dump_of 4194304 >"$large/dump.vcd"
(cd "$large" && timeout 60 "$readings" dump.vcd) 2>/dev/null </dev/null | head -n 1 >"$work/output" || true
echo 0,0 >"$work/expected"
judge closed-output "$work/output" "$work/expected"
cp "$card_k" "$large/card.txt"
cp "$here/../bench/cases/listing/calls.txt" "$large/"
echo told >"$work/expected"
for kind in whole refused; do
    for program in waves readings; do
        arguments=()
        [ "$program" = waves ] || arguments=(dump.vcd)
        (cd "$large" && "${!program}" "${arguments[@]}") >/dev/full 2>"$work/errors" </dev/null || true
        sed "s/^$program: .*No space left on device$/told/" "$work/errors" >"$work/output"
        judge "full output of $program, $kind" "$work/output" "$work/expected"
    done
    echo x >"$large/card.txt"
    echo x >"$large/dump.vcd"
done

# so is one that fills up on the way: of a dump after 1,024 bytes, which have room for the header, of its values after 512 KiB
cp "$card_k" "$large/card.txt"
awk 'BEGIN { for (i = 1; i <= 200; i++) { print "call,0,0," i ",0,0,0"; for (k = 0; k < 14; k++) print "step,0" } }' >"$large/calls.txt"
sed -i '1s/,[0-9]*$/,1000000/' "$large/card.txt"
dump_of 4194304 >"$large/dump.vcd"
for case in waves,1 readings,512,dump.vcd; do
    IFS=, read -r program blocks argument <<<"$case"
    (trap '' XFSZ && ulimit -f "$blocks" && cd "$large" && "${!program}" ${argument:+"$argument"} >"$work/output") 2>"$work/errors" </dev/null || true
    sed "s/^$program: .*File too large$/told/" "$work/errors" >"$work/output"
    judge "an output of $program that fills up" "$work/output" "$work/expected"
done

echo "waves and readings: $((passed + failed)) cases, $failed failed"
[ "$failed" -eq 0 ]
