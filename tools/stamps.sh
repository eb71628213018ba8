# shellcheck shell=bash
# To be sourced. Whether the program or the archive of a crate was built from the files as they are. `rt` knows that too, but takes its time and a lock. So a
# note beside what was built (crates/CRATE/out/PRODUCT.made_of) has a sum of all that `rt` builds it from, and one of the product; where either is another
# now, `rt` is asked. `root` is the repository. Whoever builds writes the note (note_made), if the files were the same before and after.

declare -A needs
crates=()

# Reads crates.txt: `needs` has what stands behind the colon for each name. (A word may stand before the colon too: `NAME staticlib: ..`)
read_needs() {
    local line name
    while IFS= read -r line || [ -n "$line" ]; do
        line="${line%%#*}"
        if [[ $line == *:* ]]; then
            read -r name _ <<<"${line%%:*}"
            needs[$name]="${line#*:}"
        fi
    done <"$root/crates.txt"
}

# gather CRATE: puts the crates of the repository that a crate is made of into `crates`, itself last, in the order in which `rt` proves them
gather() {
    local name
    case " ${crates[*]} " in *" $1 "*) return ;; esac
    for name in ${needs[$1]}; do
        [ -z "${needs[$name]+listed}" ] || gather "$name"
    done
    crates+=("$1")
}

# The sum of what those crates are made of: toolchain and machine, their lines of crates.txt, and their files. Fails where one of them cannot be read.
# `toolchain` is what `rt version` says.
sum_of_sources() {
    local name part folders=() lines=()
    for name in "${crates[@]}"; do
        lines+=("$name: ${needs[$name]}")
        for part in src specs proofs; do
            [ ! -e "$root/crates/$name/$part" ] || folders+=("$name/$part")
        done
    done
    {
        uname -m && printf '%s\n' "$toolchain" "${lines[@]}" && cd "$root/crates" &&
            find "${folders[@]}" ! -type d -print0 | LC_ALL=C sort -z | xargs -0 -r sha256sum --
    } 2>/dev/null | sha256sum | cut -d' ' -f1
}

# product_of CRATE: what is built of a crate, as it is called from the top of the repository
product_of() {
    if [ -e "$root/crates/$1/src/main.rt" ]; then
        echo "crates/$1/out/$1"
    else
        echo "crates/$1/out/lib$1.a"
    fi
}

# note_of PRODUCT SUM: the note of a product that was made of files with this sum
note_of() {
    printf '%s %s' "$2" "$(sha256sum -- "$root/$1" 2>/dev/null | cut -d' ' -f1)"
}

# is_made PRODUCT SUM: whether it is there, and was made of these
is_made() {
    local note
    note="$(cat "$root/$1.made_of" 2>/dev/null)" || return 1
    [ -s "$root/$1" ] && [ "$note" = "$(note_of "$1" "$2")" ]
}

# is_lost PRODUCT SUM: whether it was made of these, and is not there any more, or another
is_lost() {
    [[ $(cat "$root/$1.made_of" 2>/dev/null) == "$2 "* ]] && ! is_made "$1" "$2"
}

# note_made PRODUCT SUM: notes that it was made of these
note_made() {
    note_of "$1" "$2" >"$root/$1.made_of"
}
