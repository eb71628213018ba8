# shellcheck shell=bash
# To be sourced. Two commands at the top that prove at the same time take turns, so that the second finds what the first has built, and no archive is made
# anew while it is copied. `rt` itself waits for another `rt`, crate by crate.
#
# take_turn NAME: waits until no other command proves in this repository; NAME is who says so. The lock is held by descriptor 9, until it is closed,
# and by rt, so that a command that was killed outright still holds it while rt works.
take_turn() {
    exec 9<"$(dirname "${BASH_SOURCE[0]}")/../crates.txt"
    if ! flock --nonblock 9; then
        echo "$1: another run is proving here; waiting for it" >&2
        flock 9
    fi
}

end_turn() {
    exec 9<&-
}
