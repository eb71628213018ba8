#!/bin/sh
# Compares a program `schedules` with the simulator's listings of 1,000 generated cases, each made by trying every schedule; the last has 1,594,322 lines.
# usage: schedules.sh PROGRAM
set -eu
if [ $# -ne 1 ]; then
    echo "usage: schedules.sh PROGRAM" >&2
    exit 2
fi
if ! command -v rustc >/dev/null 2>&1; then
    echo "schedules.sh: rustc is not installed; the simulator cannot be compiled" >&2
    exit 2
fi
here=$(cd "$(dirname "$0")" && pwd)
build=$(mktemp -d)
trap 'rm -rf "$build"' EXIT
rustc --edition 2021 -O -o "$build/simulator" "$here/main.rs"
"$build/simulator" compare-schedules "$1" 1 1000
