#!/bin/sh
# Compares a program `sweep` with what the simulator prints on 2,000 generated cases.
# usage: sweeps.sh PROGRAM
set -eu
if [ $# -ne 1 ]; then
    echo "usage: sweeps.sh PROGRAM" >&2
    exit 2
fi
if ! command -v rustc >/dev/null 2>&1; then
    echo "sweeps.sh: rustc is not installed; the simulator cannot be compiled" >&2
    exit 2
fi
here=$(cd "$(dirname "$0")" && pwd)
build=$(mktemp -d)
trap 'rm -rf "$build"' EXIT
rustc --edition 2021 -O -o "$build/simulator" "$here/main.rs"
"$build/simulator" compare-sweeps "$1" 1 2000
