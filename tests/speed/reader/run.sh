#!/bin/sh
# Builds the proved reader as a static library in a folder of its own, links it with driver.rs and runs both readers in one process.
# Usage: tests/speed/reader/run.sh [FOLDER]   (needs rt and rustc)
set -e
here=$(cd "$(dirname "$0")" && pwd)
root=$(cd "$here/../../.." && pwd)
work=${1:-$(mktemp -d)}
mkdir -p "$work/crates/reader_speed/src"
for crate in grammar construction opening programs lines reader; do
    mkdir -p "$work/crates/$crate"
    for part in src specs proofs; do
        [ ! -e "$root/crates/$crate/$part" ] || cp -r "$root/crates/$crate/$part" "$work/crates/$crate/"
    done
done
cp "$here/reader_speed.rt.txt" "$work/crates/reader_speed/src/lib.rt"
grep -E '^(grammar|construction|opening|programs|lines|reader):' "$root/crates.txt" > "$work/crates.txt"
echo 'reader_speed staticlib: reader construction' >> "$work/crates.txt"
cd "$work/crates/reader_speed"
rt lib
rustc -O --edition 2021 -L out -l static=reader_speed "$here/driver.rs" -o out/driver 2>/dev/null
out/driver
