#!/bin/sh
# Tests the simulator itself, compares a bench program with it on 3,000 generated cases (every third with changes of programs), and looks for waits past
# the longest; then compares the dumps that WAVES writes of 1,000 generated sessions, and what READINGS reads off these and off whole and damaged dumps.
# usage: run.sh BENCH WAVES READINGS
set -eu
if [ $# -ne 3 ]; then
    echo "usage: run.sh BENCH WAVES READINGS" >&2
    exit 2
fi
if ! command -v rustc >/dev/null 2>&1; then
    echo "run.sh: rustc is not installed; the simulator cannot be compiled" >&2
    exit 2
fi
here=$(cd "$(dirname "$0")" && pwd)
build=$(mktemp -d)
trap 'rm -rf "$build"' EXIT
rustc --edition 2021 -O -o "$build/simulator" "$here/main.rs"
"$build/simulator" selftest
"$build/simulator" compare "$1" 1 3000
"$build/simulator" waits
"$build/simulator" compare-waves "$2" "$3" 1 1000
"$build/simulator" damaged-dumps "$3" 1 2000
