#!/usr/bin/env bash
# Tests the card for C programs: header and archive as ./library built them, beside the bench program.
# usage: run.sh FOLDER BENCH [SEEDS [SECONDS]]   (default 1,000 generated sessions and 5 seconds of random calls)
# A part whose tool is missing is skipped, which a line says; the plain build with cc must run. The last line is a count; what does not hold has a line of
# its own and makes this fail.
set -euo pipefail
if [ $# -lt 2 ] || [ $# -gt 4 ] || [ ! -f "$1/liblace_card.a" ] || [ ! -x "$2" ]; then
    echo "usage: run.sh FOLDER BENCH [SEEDS [SECONDS]]" >&2
    exit 2
fi
folder="$(readlink -f "$1")"
bench="$(readlink -f "$2")"
seeds="${3:-1000}"
seconds="${4:-5}"
here="$(cd "$(dirname "${BASH_SOURCE[0]}")" && pwd)"
top="$(cd "$here/../.." && pwd)"
work="$(mktemp -d)"
trap 'rm -rf "$work"' EXIT
passed=0
failed=0

# holds WHAT COMMAND..: counts whether a command succeeds; what it prints is shown where it does not
holds() {
    local what="$1"
    shift
    if "$@" >"$work/said" 2>&1; then
        passed=$((passed + 1))
    else
        echo "does not hold: $what"
        tail -n 20 "$work/said"
        failed=$((failed + 1))
    fi
}

# has TOOL WHAT: whether a tool is installed; a line says what is skipped without it
has() {
    command -v "$1" >/dev/null || {
        echo "skipped: $2 ($1 is not installed)"
        return 1
    }
}

# prints EXPECTED COMMAND..: whether a command succeeds and prints these bytes
prints() {
    local expected="$1"
    shift
    "$@" >"$work/printed" && cmp "$work/printed" "$expected"
}

# is_firmware COMMAND..: whether a command prints what bench prints of the example, which is stored there too
is_firmware() {
    (cd "$top/examples/firmware" && "$bench") >"$work/bench.firmware"
    prints "$work/bench.firmware" "$@" && cmp "$work/bench.firmware" "$top/examples/firmware/expected.txt"
}

# the header declares the functions that the archive has, and these need nothing but memcpy and memset
symbols() {
    nm "$folder/liblace_card.a" | sed -n "s/.* $1 //p" | sort
}
is_declared() {
    diff <(grep -v '^static' "$folder/lace_card.h" | grep -o '\blace_[a-z_]*(' | tr -d '(' | grep -v '^lace_loan_words_for$' | sort -u) <(symbols T)
}
needs_two() {
    [ "$(symbols U | tr '\n' ' ')" = "memcpy memset " ]
}

# the functions that tests/speed/c/stack.c calls, 15 of 23, take no more stack than the header tells: 17 KB to open a card, 13 KB to write one, 3 KB to change a
# program, else 2 KB; with what each was seen to take
stack_is_told() {
    cc -std=c99 -O2 -I"$folder" -o "$work/stack" "$top/tests/speed/c/stack.c" "$library" -pthread && "$work/stack" >"$work/stacks" || return 1
    cat "$work/stacks"
    awk '{
        most = /^of machines/ ? "card" : "open"
        count = split($0, parts, /[:,] */)
        for (i = 2; i <= count; i++) {
            bytes = name = parts[i]
            sub(/.* /, "", bytes)
            sub(/ [0-9]+$/, "", name)
            room = name == most ? 17 : name == "write" ? 13 : name == "change" ? 3 : 2
            if (bytes !~ /^[0-9]+$/ || bytes + 0 > room * 1024) wrong = 1
            seen++
        }
    }
    END { exit wrong || seen != 15 }' "$work/stacks"
}

# same_session PROGRAM FOLDER: whether a program prints what bench prints on the files of a folder
same_session() {
    rm -rf "$work/run"
    mkdir "$work/run"
    cp "$2"/c*.txt "$work/run/" 2>/dev/null || true
    (cd "$work/run" && "$bench" >"$work/bench.printed" && "$1" >"$work/session.printed" && cmp "$work/bench.printed" "$work/session.printed")
}
same_sessions() {
    local case
    for case in "$top"/tests/bench/cases/*/ "$top"/examples/*/; do
        if [ -e "$case/card.txt" ] || [ -e "$case/calls.txt" ]; then
            same_session "$1" "$case" || return 1
        fi
    done
}

if ! command -v cc >/dev/null; then
    echo "run.sh: cc is not installed" >&2
    exit 2
fi
strict=(-Wall -Wextra -pedantic -Werror -I"$folder")
library="$folder/liblace_card.a"
compilers=(cc)
for compiler in gcc clang; do
    ! has "$compiler" "its build of the card for C programs" || compilers+=("$compiler")
done
for compiler in "${compilers[@]}"; do
    for source in "$here"/{session,constants,random,machines}.c "$top/examples/firmware/main.c"; do
        name="$compiler-$(basename "$source" .c)"
        holds "$name compiles as C99 without a warning" "$compiler" -std=c99 -O2 "${strict[@]}" -o "$work/$name" "$source" "$library"
    done
    holds "$compiler: numbers of the header" "$work/$compiler-constants"
    holds "$compiler: two machines on one processor" prints "$here/two-machines/printed.txt" "$work/$compiler-machines" "$here/two-machines"
    holds "$compiler: firmware prints as bench does" is_firmware "$work/$compiler-main"
done
for compiler in g++ clang++; do
    if has "$compiler" "the header in C++ by it"; then
        holds "$compiler compiles the header as C++11 without a warning" "$compiler" -std=c++11 "${strict[@]}" -o "$work/$compiler" "$here/header.cc" "$library"
        holds "$compiler: it runs" "$work/$compiler"
    fi
done
! has nm "the names in the archive" || {
    holds "the header declares what the archive has" is_declared
    holds "the archive needs memcpy and memset alone" needs_two
}
holds "opening, writing, changing, steps and requests take no more stack than the header tells" stack_is_told

# the sanitizers of the system's compiler, if it has them
session="$work/cc-session"
random="$work/cc-random"
checked=(-std=c99 -g -O1 -fsanitize=address,undefined -fno-sanitize-recover=all)
if cc "${checked[@]}" -o "$work/probe" -x c - <<<'int main(void) { return 0; }' 2>/dev/null && "$work/probe"; then
    for name in session constants random machines; do
        holds "$name compiles with sanitizers" cc "${checked[@]}" "${strict[@]}" -o "$work/checked-$name" "$here/$name.c" "$library"
    done
    session="$work/checked-session"
    random="$work/checked-random"
    holds "numbers of the header, with sanitizers" "$work/checked-constants"
    holds "two machines on one processor, with sanitizers" prints "$here/two-machines/printed.txt" "$work/checked-machines" "$here/two-machines"
else
    echo "skipped: address and undefined-behaviour sanitizers (cc has none)"
fi
holds "random calls" "$random" "$seconds"
cat "$work/said"
holds "sessions through the header are those of bench" same_sessions "$session"

# projects of others: pkg-config and CMake find the library
if has pkg-config "a build by pkg-config"; then
    read -r -a flags <<<"$(pkg-config --cflags --libs "$folder/lace_card.pc")"
    holds "a build by pkg-config" cc -o "$work/by-pkg-config" "$top/examples/firmware/main.c" "${flags[@]}"
    holds "it prints as bench does" is_firmware "$work/by-pkg-config"
fi
# the README's lines for CMake are those of the project that is built here
is_snippet() {
    local line count=0
    while IFS= read -r line; do
        grep -qxF -- "$line" "$here/CMakeLists.txt" || return 1
        count=$((count + 1))
    done < <(sed -n '/^With CMake:/,/^The card/p' "$top/README.md" | sed -n 's/^    //p' | sed 's/ *#.*//')
    [ "$count" -eq 3 ]
}
holds "the snippet of the README is the project's" is_snippet
if has cmake "a build by CMake"; then
    holds "CMake takes the snippet" cmake -S "$here" -B "$work/cmake" -DLACE="$folder"
    holds "a build by CMake" cmake --build "$work/cmake"
    holds "it prints as bench does" is_firmware "$work/cmake/firmware"
fi

# generated sessions, by the simulator; and the same through the safe crate for Rust
if has rustc "generated sessions, and the safe crate for Rust"; then
    rust="$top/examples/rust-card"
    holds "the simulator compiles" rustc --edition 2021 -O -o "$work/simulator" "$top/tests/simulator/main.rs"
    holds "generated sessions through the header" "$work/simulator" lent "$session" 1 "$seeds" "$top/crates/replay/stdin" "$top/tests/bench/cases"
    tail -n 1 "$work/said"
    holds "the safe crate compiles" rustc --edition 2021 -O -D warnings --crate-type rlib --crate-name lace_card -L "native=$folder" --out-dir "$work" "$rust/src/lib.rs"
    holds "its own tests compile" rustc --edition 2021 -O -D warnings --test --crate-name lace_card -L "native=$folder" -o "$work/rust-tests" "$rust/src/lib.rs"
    holds "its own tests" "$work/rust-tests"
    holds "its program compiles" rustc --edition 2021 -O -D warnings -L "native=$folder" --extern "lace_card=$work/liblace_card.rlib" -o "$work/rust-session" "$rust/src/main.rs"
    holds "sessions through the safe crate are those of bench" same_sessions "$work/rust-session"
    # as many as it takes to see every label, answer and refusal, which the simulator counts
    holds "generated sessions through the safe crate" "$work/simulator" compare "$work/rust-session" 1 3000
fi
if has cargo "the safe crate as a package"; then
    holds "the safe crate as a package, without a registry" env LACE_CARD_DIR="$folder" CARGO_TARGET_DIR="$work/cargo" \
        cargo build --offline --quiet --manifest-path "$top/examples/rust-card/Cargo.toml"
fi

echo "card for C programs: $passed checks, $failed failed"
[ "$failed" -eq 0 ]
