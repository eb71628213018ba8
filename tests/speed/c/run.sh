#!/usr/bin/env bash
# Times a step through the C header against tests/speed/steps/steps.rs on the same steps, by turns: both must end with the same cells. Then prints what the
# library takes of code and of stack.
# usage: run.sh [STEPS [ROUNDS]]   (default 10,000,000 and 5). It prints nanoseconds of processor time per step, the least of all rounds, and the ratio of
# the least times and of the medians.
set -euo pipefail
steps=${1:-10000000}
rounds=${2:-5}
here=$(cd "$(dirname "${BASH_SOURCE[0]}")" && pwd)
root=$(cd "$here/../../.." && pwd)
for tool in rt rustc cc; do
    if ! command -v "$tool" >/dev/null; then
        echo "run.sh: $tool is not on the PATH" >&2
        exit 2
    fi
done
build=$(mktemp -d)
trap 'rm -rf "$build"' EXIT
"$root/library" "$build/library" >/dev/null
rustc --edition 2021 -O -o "$build/rust" "$here/../steps/steps.rs"
cc -std=c99 -O2 -I"$build/library" -o "$build/c" "$here/steps.c" "$build/library/liblace_card.a"
cc -std=c99 -O2 -I"$build/library" -o "$build/stack" "$here/stack.c" "$build/library/liblace_card.a" -pthread

# timed PROGRAM: milliseconds of processor time of a program that makes the steps and writes its cells to a file
timed() {
    local TIMEFORMAT=%3U
    { time "$build/$1" "$steps" >"$build/$1.cells"; } 2>&1 | tr -d . | sed 's/^0*\(.\)/\1/' >>"$build/$1.times"
}

for ((round = 0; round < rounds; round++)); do
    timed rust
    timed c
    if ! cmp -s "$build/rust.cells" "$build/c.cells"; then
        echo "run.sh: the C program and the Rust program end with other cells" >&2
        diff "$build/rust.cells" "$build/c.cells" >&2 || true
        exit 1
    fi
done
paste -d ' ' <(sort -n "$build/c.times") <(sort -n "$build/rust.times") | awk -v n="$steps" -v rounds="$rounds" '
    { a[NR] = $1; b[NR] = $2 }
    END {
        m = int((NR + 1) / 2)
        printf "%d steps, %d rounds: from C %.1f ns a step, Rust %.1f; ratio %.2f of the least, %.2f of the medians\n", n, rounds, a[1] * 1e6 / n, b[1] * 1e6 / n, a[1] / b[1], a[m] / b[m]
    }'
size "$build/library/liblace_card.a" | awk 'NR == 2 { printf "bytes of code and constants: %d; of data: %d\n", $1, $2 + $3 }'
"$build/stack"
