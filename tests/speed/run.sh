#!/usr/bin/env bash
# Times the proved program steps_speed (the card by value) against tests/speed/steps/steps.rs on the same steps, by turns: both must end with the same cells.
# The processes step by pseudo-random numbers. The card in lent words is timed by sweep.py.
# usage: run.sh [STEPS [ROUNDS]]   (default 10,000,000 and 5). It prints nanoseconds of processor time per step, the least of all rounds, and the ratio of
# the least times and of the medians.
set -euo pipefail
steps=${1:-10000000}
rounds=${2:-5}
here=$(cd "$(dirname "${BASH_SOURCE[0]}")" && pwd)
root=$(cd "$here/../.." && pwd)
for tool in rt rustc; do
    if ! command -v "$tool" >/dev/null; then
        echo "run.sh: $tool is not on the PATH" >&2
        exit 2
    fi
done
build=$(mktemp -d)
trap 'rm -rf "$build"' EXIT
rustc --edition 2021 -O -o "$build/steps" "$here/steps/steps.rs"
proved=$("$root/tools/build" steps_speed)

# timed CELLS INPUT COMMAND..: milliseconds of processor time of a command that is given an input and writes its cells to a file
timed() {
    local cells=$1 input=$2 TIMEFORMAT=%3U
    shift 2
    { time "$@" <<<"$input" >"$build/$cells"; } 2>&1 | tr -d . | sed 's/^0*\(.\)/\1/'
}

# compare NAME INPUT WORD..: the proved program by turns with the Rust program, which is called with those words
compare() {
    local name=$1 input=$2
    shift 2
    : >"$build/rust"
    : >"$build/rattle"
    for ((round = 0; round < rounds; round++)); do
        timed rust.cells '' "$build/steps" "$steps" "$@" >>"$build/rust"
        timed rattle.cells "$input" "$proved" >>"$build/rattle"
        if ! cmp -s "$build/rust.cells" "$build/rattle.cells"; then
            echo "run.sh: steps_speed and the Rust program end with other cells" >&2
            diff "$build/rust.cells" "$build/rattle.cells" >&2 || true
            exit 1
        fi
    done
    paste -d ' ' <(sort -n "$build/rattle") <(sort -n "$build/rust") | awk -v name="$name" -v n="$steps" '
        { a[NR] = $1; b[NR] = $2 }
        END {
            m = int((NR + 1) / 2)
            printf "%s: Rattle %.1f ns a step, Rust %.1f; ratio %.2f of the least, %.2f of the medians\n", name, a[1] * 1e6 / n, b[1] * 1e6 / n, a[1] / b[1], a[m] / b[m]
        }'
}

echo "$steps steps, $rounds rounds"
compare 'by value, pseudo-random' "$steps"
