# shellcheck shell=bash
# To be sourced, with speaking.sh, turn.sh and stamps.sh. How a command has `rt` prove and build a crate, in the crate's folder: a program by `rt run`, which
# also runs it there once, on no input, and a static library by `rt lib`. `root` is the repository, `program` the command's name. `rt` proves the crates below
# one after the other; what it says is kept in crates/CRATE/out/proving.log, and how far it is goes to standard error.

announced=''
waited=''
prover=''

# Says once, before the first word on progress, what is going on.
announce() {
    if [ -z "$announced" ]; then
        announced=yes
        tell "proving what is to be run; the first time this takes some minutes, later only what changed is proved again."
        tell "${#crates[@]} crates. Ctrl-C stops; what is proved by then stays proved."
    fi
}

# place_of CRATE: the how manieth of the crates it is
place_of() {
    local place
    for place in "${!crates[@]}"; do
        [ "${crates[$place]}" != "$1" ] || echo "$((place + 1))"
    done
}

# report LINE: tells what a line that rt says means for how far it is
report() {
    case "$1" in
    "rt: waiting for another rt to finish "* | "rt: "*"; waiting for it"*)
        [ -n "$waited" ] || tell "another run is proving here; waiting for it"
        waited=yes
        ;;
    "rt: chose --jobs "*" for "*)
        announce
        current="${1##* for }"
        began=$SECONDS
        say "proving $current"
        ;;
    "logic=proved "*)
        [ -z "$current" ] || say "proved $(place_of "$current") of ${#crates[@]}: $current ($((SECONDS - began)) s)"
        current=''
        ;;
    esac
}

# stop SIGNAL: what this command does when it is interrupted while it proves; rt's provers end with rt
stop() {
    trap '' INT TERM HUP
    if [ -n "$prover" ]; then
        kill -TERM "$prover" 2>/dev/null || true
        wait "$prover" 2>/dev/null || true
    fi
    tell "stopped; what is proved so far stays proved"
    trap - "$1"
    kill -s "$1" "$$"
}

# Ends this command where what is proved cannot be kept.
need_room() {
    local name place
    for name in "${crates[@]}"; do
        place="$root/crates/$name"
        [ ! -e "$place/out" ] || place="$place/out"
        [ -d "$place" ] && [ -w "$place" ] ||
            fail "it has to be proved first, and $place cannot be written; make it writable, or run ./$program in a copy of the repository that is your own"
    done
}

# have_rt VERB CRATE LOG: has rt do its work, with what it says in a log, and reports until it has ended; whether it succeeded
have_rt() {
    local line said current='' began=0
    trap 'stop INT' INT
    trap 'stop TERM' TERM
    trap 'stop HUP' HUP
    # what a program prints in its crate's folder goes nowhere; rt itself then speaks on standard error
    exec {said}< <(cd "$root/crates/$2" && if [ "$1" = run ]; then exec rt run </dev/null 2>&1 >/dev/null; else exec rt "$1" </dev/null 2>&1; fi)
    prover=$!
    while IFS= read -r line <&"$said" || [ -n "$line" ]; do
        printf '%s\n' "$line"
        report "$line"
    done >"$3"
    exec {said}<&-
    trap - INT TERM HUP
    wait "$prover"
}

# prove CRATE PRODUCT SUM: proves and builds a crate and what it rests on
prove() {
    local log="$root/crates/$1/out/proving.log" ended=0 why="the program could not be proved and built"
    need_room
    ! is_lost "$2" "$3" || tell "$2 is gone or damaged, so it is built again"
    # rt's first word comes after a look at all sources; where there is no product, something has to be built
    [ -e "$root/$2" ] || announce
    rm -f "$root/$2.made_of"
    mkdir -p "$root/crates/$1/out"
    if [[ $2 == *.a ]]; then
        why="liblace_card.a could not be made"
        have_rt lib "$1" "$log" || ended=1
    else
        # a program may end with a status of its own
        have_rt run "$1" "$log" || grep -q "^rt: running out/$1;" "$log" || ended=1
    fi
    if [ "$ended" -ne 0 ] || [ ! -s "$root/$2" ]; then
        grep -E '^(rt: (the library .* did not build|mend these first)|fn [^ ]+: (not proved|no proof))|: error' "$log" | head -n 5 | cut -c 1-240 >&2 || true
        fail "$why; see $log"
    fi
    [ "$(sum_of_sources)" != "$3" ] || note_made "$2" "$3"
}

# build CRATE: does so, unless it was built from the files as they are
build() {
    local tool sum product
    for tool in rt flock; do
        command -v "$tool" >/dev/null || fail "'$tool' is not on the PATH (rt is the Rattle toolchain's command)"
    done
    [ -r "$root/crates.txt" ] || fail "$root/crates.txt cannot be read"
    toolchain="$(rt version)" || fail "rt version has no answer"
    read_needs
    crates=()
    gather "$1"
    product="$(product_of "$1")"
    sum="$(sum_of_sources)" || fail "the files of crates/$1, or of the crates below it, cannot be read"
    if ! is_made "$product" "$sum"; then
        take_turn "$program"
        is_made "$product" "$sum" || prove "$1" "$product" "$sum"
        end_turn
    fi
}
