#!/usr/bin/env bash
# Tests a program that runs sessions on a card in lent words (crates/lent_session): on the stored cases of the bench program, and on the simulator's generated
# cases, the schedules of the program replay and the stored cases again, as they are, with loans too short first and with altered loans.
# usage: run.sh PROGRAM
set -euo pipefail
if [ $# -ne 1 ] || [ ! -x "$1" ]; then
    echo "usage: run.sh PROGRAM" >&2
    exit 2
fi
if ! command -v rustc >/dev/null; then
    echo "run.sh: rustc is not installed; the simulator cannot be compiled" >&2
    exit 2
fi
here=$(cd "$(dirname "${BASH_SOURCE[0]}")" && pwd)
build=$(mktemp -d)
trap 'rm -rf "$build"' EXIT
rustc --edition 2021 -O -o "$build/simulator" "$here/../simulator/main.rs"
"$here/../bench/run.sh" "$1"
"$build/simulator" lent "$1" 1 3000 "$here/../../crates/replay/stdin" "$here/../bench/cases"
