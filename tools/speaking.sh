# shellcheck shell=bash
# To be sourced. How a command at the top of this repository speaks to its user: `root` is the repository, `program` the command's name and `usage`
# its arguments, as DIR STEPS [SEED] (those in brackets may be left out).

# say LINE: a line on standard error. tell LINE: one that begins with the command's name
say() {
    printf '%s\n' "$1" >&2
}
tell() {
    say "$program: $1"
}

# fail LINE, refuse LINE: tells a line and ends the command, as something is not built or not written (1), or as an argument is wrong (2)
fail() {
    tell "$1"
    exit 1
}
refuse() {
    tell "$1"
    exit 2
}

# Prints what the command does: its usage, and the comment that its script begins with.
describe() {
    printf '%s\n' "usage: ./$program${usage:+ $usage}"
    awk 'NR > 1 { if (!/^#/) exit; sub(/^# ?/, ""); print }' "$root/$program"
}

# answer_help [ARGUMENT..]: describes the command and ends it, as its user asks for that, or calls it with too few or too many arguments
answer_help() {
    local words word least=0
    case "${1-}" in
    -h | --help)
        describe
        exit 0
        ;;
    esac
    read -r -a words <<<"$usage"
    for word in "${words[@]}"; do
        [[ $word == \[* ]] || least=$((least + 1))
    done
    if [ $# -lt "$least" ] || [ $# -gt "${#words[@]}" ]; then
        describe >&2
        exit 2
    fi
}

# Closed streams: without standard output there is nothing to do, the others are read and written as if they were empty.
open_streams() {
    [ -e /dev/fd/0 ] || exec </dev/null
    [ -e /dev/fd/2 ] || exec 2>/dev/null
    [ -e /dev/fd/1 ] || fail "standard output is closed, so there is nowhere to print to"
}
