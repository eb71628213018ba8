#!/usr/bin/env bash
# Works out by the simulator what the program replay must print, and compares it with crates/replay/stdout.
set -euo pipefail
here=$(cd "$(dirname "${BASH_SOURCE[0]}")" && pwd)
crate="$here/../../crates/replay"
if ! command -v rustc >/dev/null; then
    echo "run.sh: rustc is not installed; the simulator cannot be compiled" >&2
    exit 2
fi
build=$(mktemp -d)
trap 'rm -rf "$build"' EXIT
rustc --edition 2021 -O -o "$build/simulator" "$here/../simulator/main.rs"
"$build/simulator" replay "$crate/stdin" | diff - "$crate/stdout"
echo "replay: $(grep -c '^##' "$crate/stdin") schedules as the simulator plays them"
