#!/usr/bin/env bash
# Tries the must-fail edits that the gate leaves out, those of tests/must_fail/wide, in a copy of the repository. Each must be refused at a fact, as the gate's
# own. What `rt` has proved of the same files on this machine it begins with, and the crates below are built first where that is missing.
# Usage: tests/must_fail/wide.sh [CRATE..]
set -euo pipefail
root="$(cd "$(dirname "$0")/../.." && pwd)"
wide="$root/tests/must_fail/wide"
copy=$(mktemp -d)
trap 'rm -rf "$copy"' EXIT
[ $# -gt 0 ] || set -- $(ls "$wide")

# without what was built here
(cd "$root" && tar -c --exclude='crates/*/out' --exclude='crates/*/must-fail' crates crates.txt tests) | tar -x -C "$copy"
for crate in "$@"; do
    [ -d "$wide/$crate" ] || { echo "no edits of $crate in tests/must_fail/wide" >&2; exit 2; }
    cp -R "$wide/$crate" "$copy/crates/$crate/must-fail"
done
cd "$copy"
# it fails for an edit that cannot be tried too, of which reasons.py tells
rt must-fail "$@" | tee "$copy/told" | grep '^rt: ' || true
tests/must_fail/reasons.py "$copy/told" "$@"
