#!/bin/sh
# Compares a program `machines` with the simulator on 2,000 generated cases, and plays the own lines of each machine, less the steps that got 19, alone on
# a single card: on the simulator's and, where BENCH is given, on that bench program.
# usage: machines.sh PROGRAM [BENCH]
set -eu
if [ $# -lt 1 ] || [ $# -gt 2 ]; then
    echo "usage: machines.sh PROGRAM [BENCH]" >&2
    exit 2
fi
if ! command -v rustc >/dev/null 2>&1; then
    echo "machines.sh: rustc is not installed; the simulator cannot be compiled" >&2
    exit 2
fi
here=$(cd "$(dirname "$0")" && pwd)
build=$(mktemp -d)
trap 'rm -rf "$build"' EXIT
rustc --edition 2021 -O -o "$build/simulator" "$here/main.rs"
program="$1"
shift
"$build/simulator" compare-machines "$program" 1 2000 "$@"
