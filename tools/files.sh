# shellcheck shell=bash
# To be sourced. What a user should know of the files that a program reads: the program itself answers on standard output alone, by number and line.
# `built` is the program.

# look_at FILE: tells what keeps a file from being read as it is meant
look_at() {
    local line
    if [ ! -e "$1" ]; then
        tell "there is no $1; it counts as empty"
    elif [ -d "$1" ]; then
        tell "$1 is a folder, where a file should be; it counts as empty"
    elif [ ! -r "$1" ]; then
        tell "$1 may not be read (look at its permissions); it counts as empty"
    elif [ -f "$1" ] && [ -s "$1" ]; then
        case "$(head -c 3 -- "$1" | od -An -tx1)" in
        ' ef bb bf' | ' ff fe'* | ' fe ff'*) tell "$1 begins with a byte order mark; save it as plain ASCII text, without one" ;;
        esac
        line="$(LC_ALL=C grep -a -n -m 1 $'\r$' -- "$1" | cut -d: -f1 || true)"
        [ -z "$line" ] || tell "$1 has lines that end in CR LF, line $line first; they should end in LF alone: sed -i 's/\\r\$//' $(printf %q "$1")"
        [ "$(tail -c 1 -- "$1" | od -An -tx1)" = ' 0a' ] || tell "$1 has no line end behind its last line; put one there"
    fi
}

# meaning_of NUMBER: what a refusal means, as the table of docs/FORMATS.md has it
meaning_of() {
    awk -F ' *[|] *' -v number="$1" '/^## / { here = /Refusals/ } here && $2 == number { gsub(/`/, "", $3); print $3; exit }' "$root/docs/FORMATS.md"
}

# line_of FILE NUMBER: a line of a file as it can be shown, with ? for every byte that cannot
line_of() {
    LC_ALL=C awk -v wanted="$2" '
        NR == wanted { found = 1; gsub(/[^ -~]/, "?"); print length($0) ? "\047" substr($0, 1, 60) "\047" : "which is empty" }
        END { if (!found) print "which is missing" }' <"$1"
}

# first_refusal FOLDER [ARGUMENT..]: the first line that the program prints where there are no calls
first_refusal() {
    local room name folder="$1"
    shift
    room="$(mktemp -d 2>/dev/null)" || return 0
    for name in "${inputs[@]}"; do
        if [ "$name" != calls.txt ] && [ -f "$folder/$name" ]; then
            ln -s "$(readlink -f -- "$folder/$name")" "$room/$name"
        fi
    done
    (cd "$room" && "$built" "$@" </dev/null | head -n 1) 2>/dev/null || true
    rm -rf "$room"
}

# tell_refusal NAME FILE NUMBER LINE: tells why a file is refused, and at which line
tell_refusal() {
    local where=''
    if [ -f "$2" ] && [ -r "$2" ]; then
        [ "$4" -eq 0 ] || where=", line $4, $(line_of "$2" "$4"),"
        tell "$1$where is refused with $3: $(meaning_of "$3"); docs/FORMATS.md tells what to do"
    fi
}

# explain FOLDER [ARGUMENT..]: tells of a file that the program refuses, as a card, which line that is and why. `card,1,refused,..` is of card1.txt
explain() {
    local file
    if [[ "$(first_refusal "$@")" =~ ^([a-z]+)(,([0-9]+))?,refused,([0-9]+),([0-9]+)$ ]]; then
        file="${BASH_REMATCH[1]}${BASH_REMATCH[3]}.txt"
        # a file that may be missing is missing here
        [ -e "$1/$file" ] || [[ " $files " != *" [$file] "* ]] || look_at "${1%/}/$file"
        tell_refusal "$file" "$1/$file" "${BASH_REMATCH[4]}" "${BASH_REMATCH[5]}"
    fi
}

# explain_dump DUMP [STEP]: the same of a dump
explain_dump() {
    if [[ "$( ("$built" "$@" </dev/null | head -n 1) 2>/dev/null || true)" =~ ^dump,refused,([0-9]+),([0-9]+)$ ]]; then
        tell_refusal "$1" "$1" "${BASH_REMATCH[1]}" "${BASH_REMATCH[2]}"
    fi
}
