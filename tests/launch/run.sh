#!/usr/bin/env bash
# Tests tools/prove-and-run and the scripts at the top in a small repository of its own, with stand-ins for rt and for the programs: what is said and
# where, what is kept quiet, what an interrupt leaves, and when a command fails. What a user may not read or write is tried as nobody where this runs as
# root. The last line is a count; what does not hold has a line of its own and makes this fail.
set -euo pipefail
here="$(cd "$(dirname "${BASH_SOURCE[0]}")" && pwd)"
top="$here/../.."
work="$(mktemp -d)"
trap 'chmod -R u+rwx "$work" && rm -rf "$work"' EXIT
chmod 755 "$work"
repository="$work/repository"
folder="$work/folder"
passed=0
failed=0

# holds WHAT COMMAND..: counts whether a command succeeds
holds() {
    local what="$1"
    shift
    if "$@"; then
        passed=$((passed + 1))
    else
        echo "does not hold: $what"
        failed=$((failed + 1))
    fi
}

# launch [ARGUMENT..]: runs the script of the program; call COMMAND..: runs a command. Its status, standard output and standard error are kept
export PATH="$work/bin:$PATH" SAID="$work/errors"
call() {
    status=0
    "$@" >"$work/output" 2>"$SAID" || status=$?
}
launch() {
    call "$repository/program" "$@"
}

# says TEXT, prints TEXT: standard error, where every proof takes a second, or output, is this text
says() {
    [ "$(sed '/^proved /s/([0-9]* s)$/(1 s)/' "$SAID")" = "$1" ]
}
prints() {
    [ "$(cat "$work/output")" = "$1" ]
}

# ends STATUS OUTPUT ERRORS: the whole transcript of a call
ends() {
    [ "$status" -eq "$1" ] && prints "$2" && says "$3"
}

# as in a fresh clone
forget() {
    rm -rf "$repository"/crates/*/out "$repository/target"
}

# built NAME: where rt puts a program
built() {
    echo "$repository/crates/$1/out/$1"
}

# written FILE: waits until there is something in a file, half a minute at most
written() {
    for _ in {1..300}; do
        [ ! -s "$1" ] || return 0
        sleep 0.1
    done
}

# whether the prover that noted its number has ended, or is only left to be counted off by the system
prover_ended() {
    local status
    status="/proc/$(cat "$repository/prover")/status"
    [ ! -e "$status" ] || grep -q '^State:.*zombie' "$status"
}

# launcher NAME USAGE FILES: a script at the top for a program
launcher() {
    printf '#!/bin/sh\n# Does this.\nexec "$(dirname "$(readlink -f "$0")")/tools/prove-and-run" %s "%s" "%s" "$@"\n' "$@" >"$repository/$1"
    chmod +x "$repository/$1"
}

mkdir -p "$work/bin" "$repository/docs" "$folder"
cp -R "$top/tools" "$top/check" "$top/library" "$top/include" "$repository/"
cp "$top/docs/FORMATS.md" "$repository/docs/" || true
sed 's/prove-and-run" bench/prove-and-run" program/' "$top/bench" >"$repository/program"
chmod +x "$repository/program"
cp "$top/schedules" "$repository/"
launcher listing 'DIR L [M]' ''
launcher reading 'DUMP [STEP]' ''
printf '# layers\nbelow:\nbeside: below  # with a comment\nprogram: beside io\nlisting: below\nreading: below\nschedules: below\nembedding staticlib: below\n' >"$repository/crates.txt"
for name in below beside program listing reading schedules embedding; do
    mkdir -p "$repository/crates/$name/src"
    echo "$name" >"$repository/crates/$name/src/lib.rt"
done
for name in program listing reading schedules; do
    mv "$repository/crates/$name/src/lib.rt" "$repository/crates/$name/src/main.rt"
done

# rt: 'proves' a crate after the other, as rt does in a crate's folder, each by a process that ignores interrupts, as rt's provers do, and ends with rt, or
# once it has been told of, or after half a minute. `rt run` then runs the program there, and speaks on standard error.
cat >"$work/bin/rt" <<'STANDIN'
#!/bin/sh
[ "$1" != version ] || { echo kit; exit; }
top="$(cd ../.. && pwd)"
crate="$(basename "$PWD")"
echo "$* in $crate" >>"$top/asked"
exec 3>&1
[ "$1" = lib ] || exec 1>&2
stamp_of() {
    {
        (cd "$top/crates/$1" && find src specs proofs -type f -exec sha256sum {} + 2>/dev/null | sort)
        for need in $(sed -n "s/^$1[a-z ]*://p" "$top/crates.txt" | sed 's/#.*//'); do
            [ ! -d "$top/crates/$need" ] || cat "$top/crates/$need/out/stamp"
        done
    } | sha256sum
}
is_there() {
    [ "$(cat "$top/crates/$1/out/stamp" 2>/dev/null)" = "$(stamp_of "$1")" ] && { [ "$1" != "$crate" ] || [ -e "out/$1" ]; }
}
[ ! -e "$top/busy" ] || echo "rt: waiting for another rt to finish in $top/crates/below" >&2
for name in below $([ "$crate" != program ] || echo beside) "$crate"; do
    out="$top/crates/$name/out"
    mkdir -p "$out"
    if is_there "$name"; then
        continue
    fi
    echo "rt: chose --jobs 1 for $name"
    if [ -e "$top/refuse-$name" ]; then
        echo "fn $name::first: not proved"
        echo logic=not-proved
        echo "rt: the library $name did not build, so nothing above it was checked" >&2
        exit 1
    fi
    rm -f "$out/stamp"
    (
        trap '' INT
        tenths=300
        until [ ! -e "$top/endless" ] && grep -q "^proving $name" "$SAID" || [ "$tenths" -eq 0 ]; do
            sleep 0.1
            tenths=$((tenths - 1))
        done
    ) &
    prover=$!
    echo "$prover" >"$top/prover"
    trap 'kill "$prover"; exit 143' TERM
    wait
    echo logic=proved functions=1
    [ ! -e "$top/crates/$name/src/main.rt" ] || cp "$top/$name.sh" "$out/$name"
    stamp_of "$name" >"$out/stamp"
done
if [ "$1" = lib ]; then
    [ ! -e "$top/refuse-archive" ] || exit 1
    echo "archive of $(cat out/stamp)" >"out/lib$crate.a"
    exit
fi
echo "rt: running out/$crate; to give it other input, run that file yourself"
exec "out/$crate" >&3
STANDIN
chmod +x "$work/bin/rt"

# program_is TEXT [NAME]: the program is this script, in the next build and in the one that is there, as if that had been built so
program_is() {
    local name="${2:-program}" place
    place="$(built "$name")"
    printf '#!/bin/sh\n%s\n' "$1" >"$repository/$name.sh"
    chmod +x "$repository/$name.sh"
    if [ -e "$place.made_of" ]; then
        cp "$repository/$name.sh" "$place"
        printf '%s %s' "$(cut -d' ' -f1 "$place.made_of")" "$(sha256sum "$place" | cut -d' ' -f1)" >"$place.made_of"
    fi
}

# files CARD CALLS: the folder has these two files
files() {
    rm -rf "${folder:?}"/*
    printf "$1" >"$folder/card.txt"
    printf "$2" >"$folder/calls.txt"
}

opening="program: proving what is to be run; the first time this takes some minutes, later only what changed is proved again.
program: 3 crates. Ctrl-C stops; what is proved by then stays proved."

files 'card\n' 'calls\n'
program_is 'pwd; cat'
launch "$folder" <<<"input"
holds "a first run tells how far it is, and prints what the program prints in its folder" ends 0 "$(readlink -f "$folder")
input" "$opening
proving below
proved 1 of 3: below (1 s)
proving beside
proved 2 of 3: beside (1 s)
proving program
proved 3 of 3: program (1 s)"

rm "$repository/asked"
launch "$folder" </dev/null
holds "with nothing to prove it is quiet" says ""
holds "with nothing to prove rt is not asked" [ ! -e "$repository/asked" ]
rm "$(built program).made_of"
launch "$folder" </dev/null
holds "where only rt knows that nothing is to be proved, it is asked and nothing said" ends 0 "$(readlink -f "$folder")" ""
holds "it is asked in the crate's folder" [ "$(cat "$repository/asked")" = "run in program" ]
echo changed >>"$repository/crates/program/src/main.rt"
launch "$folder" </dev/null
holds "only what changed is proved again" says "$opening
proving program
proved 3 of 3: program (1 s)"

forget
: >"$repository/refuse-beside"
launch "$folder"
rm "$repository/refuse-beside"
holds "a crate that is not proved makes it fail" [ "$status" -eq 1 ]
holds "a crate that is not proved is named" grep -q '^rt: the library beside did not build' "$SAID"
holds "a function that is not proved is named" grep -q '^fn beside::first: not proved' "$SAID"
holds "what rt said is kept" grep -q '^logic=not-proved' "$(sed -n 's/^program: .* built; see //p' "$SAID")"
holds "nothing is run that is not proved" prints ""

# a script's background commands ignore INT, so TERM stands in for Ctrl-C here
forget
rm -f "$repository/prover"
: >"$repository/endless"
"$repository/program" "$folder" >/dev/null 2>"$SAID" &
written "$repository/prover"
kill -s TERM $!
wait $! 2>/dev/null || true
rm "$repository/endless"
holds "an interrupt ends the provers" prover_ended
holds "an interrupt is told" grep -q '^program: stopped; ' "$SAID"
launch "$folder" </dev/null
holds "the run after an interrupt succeeds" [ "$status" -eq 0 ]

forget
rm -f "$repository/prover"
: >"$repository/endless"
launch "$folder" </dev/null &
written "$repository/prover"
"$repository/program" "$folder" </dev/null >/dev/null 2>"$work/second" &
written "$work/second"
rm "$repository/endless"
wait
holds "a second run at the same time waits for the first" [ "$(cat "$work/second")" = "program: another run is proving here; waiting for it" ]

forget
: >"$repository/busy"
launch "$folder" </dev/null
rm "$repository/busy"
holds "a wait for another rt is told once" [ "$(grep -c '^program: another run is proving here; waiting for it$' "$SAID")" -eq 1 ]
holds "and what rt said of it is not" [ "$(grep -c '^rt: ' "$SAID")" -eq 0 ]

exec 8<"$repository/crates.txt"
flock 8
program_is 'echo session'
call timeout 20 "$repository/program" "$folder"
holds "a run with nothing to prove waits for nobody" ends 0 session ""
exec 8<&-

# tools/build, for tests and timings
rm "$repository/asked"
call "$repository/tools/build" program
holds "a program that is built is named" ends 0 "$(built program)" ""
holds "rt is not asked for it" [ ! -e "$repository/asked" ]
call "$repository/tools/build" below
holds "a library is no program" ends 2 "" "tools/build: no program: below"

# what programs say
program_is 'echo printed; echo "program: it could not be done" >&2'
launch "$folder"
holds "a program that complains makes it fail, and the complaint is passed on" ends 1 printed "program: it could not be done"
program_is '[ -e calls.txt ] || exit
echo "half way" >&2
for _ in $(seq 100); do ! grep -q half "$SAID" || { echo printed; exit; }; sleep 0.1; done
echo "held back"'
launch "$folder"
holds "how far a program is comes at once, and is no failure" ends 0 printed "half way"
program_is yes
timeout 20 "$repository/program" "$folder" 2>"$SAID" | head -n 1 >"$work/output" || true
holds "a closed output ends the program" prints y
program_is 'echo "program: the session could not be written: Broken pipe" >&2'
launch "$folder"
holds "a program that tells of a closed output fails in silence" ends 1 "" ""
program_is 'echo printed; echo "program: it could not be done" >&2; exit 1'
launch "$folder"
holds "a status of its own says nothing beside the complaint" ends 1 printed "program: it could not be done"
forget
launch "$folder"
holds "a program that complains where rt runs it is built" grep -q '^proved 3 of 3: program' "$SAID"
program_is 'exit 1'
launch "$folder"
holds "a status without a complaint is told" ends 1 "" "program: the program ended with status 1"
program_is 'kill -SEGV $$'
launch "$folder" </dev/null
holds "a program that is ended by the system makes it fail" ends 1 "" "program: the program ended with status 139"

# arguments
program_is 'pwd; echo "$#: $@"' listing
call "$repository/listing" "$folder" 1
call "$repository/listing" "$folder" "a b" '*'
holds "arguments after the folder are the program's" ends 0 "$(readlink -f "$folder")
2: a b *" ""
call "$repository/listing" "$folder" 3
holds "an argument in brackets may be left out" ends 0 "$(readlink -f "$folder")
1: 3" ""
for arguments in '' "$folder" "$folder 1 2 3"; do
    # shellcheck disable=SC2086
    call "$repository/listing" $arguments
    holds "a wrong number of arguments is a wrong call" ends 2 "" "usage: ./listing DIR L [M]
Does this."
done
program_is 'echo "usage: listing L" >&2' listing
call "$repository/listing" "$folder" x
holds "a usage line of the program is a wrong call" ends 2 "" "usage: listing L
usage: ./listing DIR L [M]
Does this."

# ./schedules: the length goes to the program, which runs in the folder; how far it is may be told, a refused card too, and a wrong length is a wrong call
program_is 'pwd; echo "$#: $@"; echo "9 of 27, 3 s" >&2' schedules
call "$repository/schedules" "$folder" 16
call "$repository/schedules" "$folder" 16
holds "a listing is told its length and tells how far it is" ends 0 "$(readlink -f "$folder")
1: 16" "9 of 27, 3 s"
explained="usage: ./schedules DIR L
$(sed -n '2,$s/^# \{0,1\}//p' "$top/schedules")"
call "$repository/schedules" --help
holds "help is given on listings" ends 0 "$explained" ""
for arguments in '' "$folder" "$folder 1 2"; do
    # shellcheck disable=SC2086
    call "$repository/schedules" $arguments
    holds "a listing takes a folder and a length" ends 2 "" "$explained"
done
program_is 'echo "usage: schedules L" >&2' schedules
call "$repository/schedules" "$folder" 016
holds "a wrong length is a wrong call" ends 2 "" "usage: schedules L
$explained"
program_is '[ -e calls.txt ] || { echo line,1,refused,2; exit; }
echo schedules,refused,17' schedules
call "$repository/schedules" "$folder" 17
holds "a refused listing is an answer, and calls that are missing when it looks for a refused card are not spoken of" ends 0 schedules,refused,17 ""
rm "$folder/calls.txt"
call "$repository/schedules" "$folder" 3
holds "missing calls are told of a listing" ends 0 line,1,refused,2 "schedules: there is no $folder/calls.txt; it counts as empty"
files 'card\nins,99,0,0,0\n' 'calls\n'
program_is 'echo card,refused,4,2' schedules
call "$repository/schedules" "$folder" 3
holds "a refused card is told of a listing" ends 0 card,refused,4,2 \
    "schedules: card.txt, line 2, 'ins,99,0,0,0', is refused with 4: there is no such code; docs/FORMATS.md tells what to do"
files 'card\n' 'calls\n'

program_is 'cat "$1"; echo "$2"' reading
call "$repository/reading" "$folder/card.txt"
cd "$folder"
call "$repository/reading" card.txt 7
holds "a program that takes a file runs where its caller stands" ends 0 "card
7" ""
cd "$here"
printf 'first\nsecond\n' >"$folder/a dump"
program_is '[ -e "$1" ] && echo dump,refused,2,2 || echo dump,refused,2,1' reading
call "$repository/reading" "$folder/a dump" 7
holds "a refused dump is told by its line, and why" ends 0 dump,refused,2,2 \
    "reading: $folder/a dump, line 2, 'second', is refused with 2: a line has the wrong form, is missing or is left over; docs/FORMATS.md tells what to do"
program_is '[ "$2" = 7 ] && echo dump,refused,1,0 || echo "usage: reading DUMP [STEP]" >&2' reading
call "$repository/reading" "$folder/a dump" 7
holds "a dump that is too long is told without a line" grep -q "^reading: $folder/a dump is refused with 1: the text is too long" "$SAID"
call "$repository/reading" "$folder/a dump" 07
holds "a wrong step is a wrong call, and nothing is said of the dump" ends 2 "" "usage: reading DUMP [STEP]
usage: ./reading DUMP [STEP]
Does this."
program_is 'echo dump,refused,2,1' reading
call "$repository/reading" "$work/nowhere"
holds "a file that is not there is told, and nothing more of it" ends 0 dump,refused,2,1 "reading: there is no $work/nowhere; it counts as empty"

# ./sweep: steps and seed go to the program, which runs in the folder; how far it is may be told, a refused card too, and a wrong number is a wrong call
cp "$top/sweep" "$repository/"
echo 'sweep: below' >>"$repository/crates.txt"
mkdir -p "$repository/crates/sweep/src"
echo sweep >"$repository/crates/sweep/src/main.rt"
program_is 'pwd; echo "$#: $@"; echo "4096 of 9999 steps" >&2' sweep
call "$repository/sweep" "$folder" 9999 1
call "$repository/sweep" "$folder" 9999 1
holds "a sweep is told steps and seed, and tells how far it is" ends 0 "$(readlink -f "$folder")
2: 9999 1" "4096 of 9999 steps"
seq 1 4 | xargs -P 4 -I SEED sh -c "'$repository/sweep' '$folder' 9 SEED >'$work/night-SEED' 2>/dev/null"
holds "sweeps run side by side" [ "$(cat "$work"/night-* | grep : | tr '\n' ' ')" = "2: 9 1 2: 9 2 2: 9 3 2: 9 4 " ]
explained="usage: ./sweep DIR STEPS SEED
$(sed -n '2,$s/^# \{0,1\}//p' "$top/sweep")"
call "$repository/sweep" --help
holds "help is given on sweeps" ends 0 "$explained" ""
for arguments in '' "$folder" "$folder 1" "$folder 1 2 3"; do
    # shellcheck disable=SC2086
    call "$repository/sweep" $arguments
    holds "a sweep takes a folder, steps and a seed" ends 2 "" "$explained"
done
program_is 'echo "usage: sweep STEPS SEED" >&2' sweep
call "$repository/sweep" "$folder" 9 0
holds "a wrong seed is a wrong call" ends 2 "" "usage: sweep STEPS SEED
$explained"
program_is '[ -e calls.txt ] || { echo line,1,refused,2; exit; }
echo call,0,refused,6' sweep
call "$repository/sweep" "$folder" 9 1
holds "a refused call is an answer, and calls that are missing when it looks for a refused card are not spoken of" ends 0 call,0,refused,6 ""
rm "$folder/calls.txt"
call "$repository/sweep" "$folder" 9 1
holds "missing calls are told of a sweep" ends 0 line,1,refused,2 "sweep: there is no $folder/calls.txt; it counts as empty"
files 'card\nins,99,0,0,0\n' 'calls\n'
program_is 'echo card,refused,4,2' sweep
call "$repository/sweep" "$folder" 9 1
holds "a refused card is told of a sweep" ends 0 card,refused,4,2 \
    "sweep: card.txt, line 2, 'ins,99,0,0,0', is refused with 4: there is no such code; docs/FORMATS.md tells what to do"
files 'card\n' 'calls\n'
program_is 'echo steps,9; echo "sweep: the counts could not be written: No space left on device" >&2' sweep
call "$repository/sweep" "$folder" 9 1
holds "a sweep that could not be written makes it fail" ends 1 steps,9 "sweep: the counts could not be written: No space left on device"

# what is wrong with the files: the session and the status stay as they are
program_is '[ ! -e card.txt ] || ! grep -q "^ins,99" card.txt || { echo card,refused,4,2; exit; }
[ ! -e calls.txt ] || echo session'
# told WHAT LINE: the session, and this line on standard error
told() {
    launch "$folder"
    holds "$1" ends 0 session "program: $folder/$2"
}
launch "$folder"
holds "files as they should be are not spoken of" ends 0 session ""
rm "$folder/card.txt"
launch "$folder"
holds "a missing card is told" ends 0 session "program: there is no $folder/card.txt; it counts as empty"
files 'card\n' 'calls\n'
rm "$folder/calls.txt"
launch "$folder"
holds "missing calls are told" ends 0 "" "program: there is no $folder/calls.txt; it counts as empty"
mkdir "$folder/calls.txt"
told "a folder in the place of a file is told" "calls.txt is a folder, where a file should be; it counts as empty"
files 'card\nvar\r\nvar\r\n' 'calls\n'
told "lines that end in CR LF are told" "card.txt has lines that end in CR LF, line 2 first; they should end in LF alone: sed -i 's/\\r\$//' $folder/card.txt"
files 'card\n' '\xef\xbb\xbfcalls\n'
told "a byte order mark is told" "calls.txt begins with a byte order mark; save it as plain ASCII text, without one"
files 'card' 'calls\n'
told "a last line without its end is told" "card.txt has no line end behind its last line; put one there"
files 'card\nins,99,0,0,0\n' 'calls\n'
launch "$folder"
holds "a refused card is told by its line, and why" ends 0 card,refused,4,2 \
    "program: card.txt, line 2, 'ins,99,0,0,0', is refused with 4: there is no such code; docs/FORMATS.md tells what to do"
files 'card\n' 'calls\n'

# ./library: proves, has rt make the archive, and puts header, archive and description into a folder
call "$repository/library" "$work/made"
holds "a first library is proved, made and put into its folder" ends 0 "$work/made/lace_card.h
$work/made/liblace_card.a
$work/made/lace_card.pc" "$(sed 's/^program: 3/library: 2/; s/^program/library/' <<<"$opening")
proving embedding
proved 2 of 2: embedding (1 s)"
holds "the header is the repository's" cmp -s "$work/made/lace_card.h" "$repository/include/lace_card.h"
holds "the archive is rt's" cmp -s "$work/made/liblace_card.a" "$repository/crates/embedding/out/libembedding.a"
rm "$repository/asked"
call "$repository/library" "$work/made"
holds "a library that is made is only put into its folder" ends 0 "$work/made/lace_card.h
$work/made/liblace_card.a
$work/made/lace_card.pc" ""
holds "rt is not asked for it" [ ! -e "$repository/asked" ]
cd "$work"
call "$repository/library" made/relative
cd "$here"
holds "a folder is where its caller stands" [ "$status: $(ls "$work/made/relative" | tr '\n' ' ')" = "0: lace_card.h lace_card.pc liblace_card.a " ]
call "$repository/library"
holds "without a folder it is put into target/library" [ "$status: $(ls "$repository/target/library" | tr '\n' ' ')" = "0: lace_card.h lace_card.pc liblace_card.a " ]
echo changed >>"$repository/crates/embedding/src/lib.rt"
call "$repository/library" "$work/made"
holds "a changed library is made anew" cmp -s "$work/made/liblace_card.a" "$repository/crates/embedding/out/libembedding.a"
echo changed >>"$repository/crates/embedding/src/lib.rt"
: >"$repository/refuse-archive"
call "$repository/library" "$work/made"
rm "$repository/refuse-archive"
holds "an archive that cannot be made is a failure" grep -q '^library: liblace_card.a could not be made; see ' "$SAID"
holds "and a status of 1" [ "$status" -eq 1 ]
call "$repository/library" "$folder/card.txt"
holds "a folder that cannot be made is a failure" ends 1 "" "$(sed 's/^program: 3/library: 2/; s/^program/library/' <<<"$opening")
proving embedding
proved 2 of 2: embedding (1 s)
library: the folder $folder/card.txt cannot be made"
call "$top/library" --help
holds "help is given on the library" [ "$status: $(head -n 1 "$work/output")" = "0: usage: ./library [DIR]" ]
call "$repository/library" a b
holds "the library takes one folder" [ "$status: $(head -n 1 "$SAID")" = "2: usage: ./library [DIR]" ]

# ./machines: the cards of machines that are not there may be missing; a refused file is told by its name
cp "$top/machines" "$repository/"
echo 'machines: below' >>"$repository/crates.txt"
mkdir -p "$repository/crates/machines/src"
echo machines >"$repository/crates/machines/src/main.rt"
files 'card\n' 'calls\n'
printf 'machines\n' >"$folder/machines.txt"
mv "$folder/card.txt" "$folder/card0.txt"
program_is 'ls | tr "\n" " "; echo "$#"' machines
call "$repository/machines" "$folder"
call "$repository/machines" "$folder"
holds "cards past the last machine may be missing" ends 0 "calls.txt card0.txt machines.txt 0" ""
printf 'card' >"$folder/card2.txt"
call "$repository/machines" "$folder"
holds "one that is there is looked at" ends 0 "calls.txt card0.txt card2.txt machines.txt 0" \
    "machines: $folder/card2.txt has no line end behind its last line; put one there"
rm "$folder/card2.txt" "$folder/card0.txt"
call "$repository/machines" "$folder"
holds "the first card may not be missing" ends 0 "calls.txt machines.txt 0" "machines: there is no $folder/card0.txt; it counts as empty"
printf 'card\n' >"$folder/card0.txt"
program_is 'echo machines,refused,18,0' machines
call "$repository/machines" "$folder"
holds "refused machines are told by their number" ends 0 machines,refused,18,0 \
    "machines: machines.txt is refused with 18: $(sed -n 's/^| 18 | \([^|]*\) |.*/\1/p' "$top/docs/FORMATS.md" | head -n 1); docs/FORMATS.md tells what to do"
holds "18 has a meaning" grep -q 'is refused with 18: [a-z]' "$SAID"
program_is 'echo machines,refused,2,1' machines
call "$repository/machines" "$folder"
holds "and by their line" ends 0 machines,refused,2,1 \
    "machines: machines.txt, line 1, 'machines', is refused with 2: a line has the wrong form, is missing or is left over; docs/FORMATS.md tells what to do"
printf 'card\nins,99,0,0,0\n' >"$folder/card1.txt"
program_is '[ -e card1.txt ] && echo card,1,refused,4,2 || echo card,1,refused,2,1' machines
call "$repository/machines" "$folder"
holds "a refused card is told by its number" ends 0 card,1,refused,4,2 \
    "machines: card1.txt, line 2, 'ins,99,0,0,0', is refused with 4: there is no such code; docs/FORMATS.md tells what to do"
rm "$folder/card1.txt"
call "$repository/machines" "$folder"
holds "a card that is missing where a machine has none is told" ends 0 card,1,refused,2,1 "machines: there is no $folder/card1.txt; it counts as empty"
explained="usage: ./machines DIR
$(sed -n '2,$s/^# \{0,1\}//p' "$top/machines")"
for arguments in '' "$folder 1"; do
    # shellcheck disable=SC2086
    call "$repository/machines" $arguments
    holds "machines take a folder" ends 2 "" "$explained"
done
files 'card\n' 'calls\n'

# wrong calls, and help
explained="Runs the bench program on the card and the commands of a folder, and prints the session on standard output, a line for each command.
DIR holds card.txt, the card, and calls.txt, the commands. docs/FORMATS.md tells how both are written and what the answers mean.
Example: ./bench examples/card-k"
launch --help
holds "help is given" ends 0 "usage: ./program DIR
$explained" ""
launch
holds "a missing argument is explained" ends 2 "" "usage: ./program DIR
$explained"
launch "$work/nowhere"
holds "a folder that is not there is named" ends 2 "" "program: no such folder: $work/nowhere (./program --help tells what it should hold)"
launch "$folder/card.txt"
holds "a file in the place of a folder is named" ends 2 "" "program: $folder/card.txt is no folder (./program --help tells what belongs in one)"
for usage in './bench DIR' './waits' './schedules DIR L' './waves DIR' './readings DUMP [STEP]' './machines DIR'; do
    call "$top/${usage%% *}" --help
    holds "$usage tells its usage" [ "$status: $(head -n 1 "$work/output")" = "0: usage: $usage" ]
done
for arguments in schedules 'schedules a' waves 'waves a b' readings 'readings a 1 2' machines 'machines a b'; do
    # shellcheck disable=SC2086
    call "$top"/$arguments
    holds "$arguments is a wrong call" [ "$status: $(head -n 1 "$SAID" | cut -c 1-9)" = "2: usage: ./" ]
done
call "$repository/check" --help
holds "help on the check does not start it" grep -q '^usage: ./check$' "$work/output"
holds "help on the check is no failure" [ "$status" -eq 0 ]
call "$repository/check" now
holds "the check takes no argument" [ "$status" -eq 2 ]

# ./check, with stand-ins for rt and for all that it runs: it ends as rt ci does, and fails where an edit is bad
gate="$work/gate"
mkdir -p "$work/gate-bin" "$gate/crates/below/src" "$gate/crates/program/src"
cp -R "$top/tools" "$top/check" "$gate/"
printf 'below:\nprogram: below\n' >"$gate/crates.txt"
: >"$gate/crates/program/src/main.rt"
for script in $(grep -oE 'tests/[a-z_]+/[a-z_]+[.](sh|py)' "$top/check") library ../gate-bin/rustc; do
    mkdir -p "$gate/$(dirname "$script")"
    printf '#!/bin/sh\necho "run: %s $*" >>"%s"\n' "$script" "$work/runs" >"$gate/$script"
    chmod +x "$gate/$script"
done
cat >"$work/gate-bin/rt" <<'STANDIN'
#!/bin/sh
case "$*" in
version) echo kit ;;
ci)
    mkdir -p crates/program/out
    echo built >crates/program/out/program
    cat "$WORK/ci"
    exit "$ENDS"
    ;;
*) exit 2 ;;
esac
STANDIN
chmod +x "$work/gate-bin/rt"

# checked STATUS EDITS: runs the check, where rt ci ends so and says this of the edits
checked() {
    printf 'rt: below is kept: an earlier run proved it\nrt: program proved\nrt: program: its tests are proved\n%s\n%s\n' \
        "rt: ok; handles allowed: none; must-fail edits: $2; every proof was done in this run" '3 passed, 0 failed' >"$work/ci"
    rm -f "$work/runs"
    call env PATH="$work/gate-bin:$PATH" WORK="$work" ENDS="$1" "$gate/check"
}
checked 0 '2 refused'
holds "the check ends with what rt ci says" [ "$status: $(tail -n 1 "$work/output")" = "0: 3 passed, 0 failed" ]
holds "it counts the crates" grep -q '^crates proved: 2$' "$work/output"
holds "it runs the other tests" [ "$(grep -c '^run: ' "$work/runs")" -ge 20 ]
holds "it gives them the programs that rt ci has built" grep -q '^run: tests/bench/run.sh crates/bench/out/bench$' "$work/runs"
holds "these count as built from the files as they are" [ -s "$gate/crates/program/out/program.made_of" ]
for edits in '2 refused, 1 bad' '2 refused, 1 of them only by a limit, 3 bad'; do
    checked 0 "$edits"
    holds "it fails for a bad edit ($edits)" [ "$status: $(tail -n 1 "$SAID" | cut -d ' ' -f 3-)" = "1: must-fail edits cannot be made or read, as rt ci tells above" ]
done
checked 0 '2 refused, 1 of them only by a limit'
holds "an edit that is refused is not bad" [ "$status" -eq 0 ]
checked 1 '2 refused'
holds "it fails where rt ci fails" [ "$status: $(tail -n 1 "$work/output")" = "1: 3 passed, 0 failed" ]
holds "and runs no program then" [ "$(grep -c 'tests/bench' "$work/runs")" -eq 0 ]

# no raw errors of the shell
program_is 'echo session'
call sh "$repository/program" "$folder"
holds "sh runs it too" ends 0 session ""
call sh "$repository/check" --help
holds "sh runs the check too" ends 0 "$("$repository/check" --help)" ""
call bash -c "'$repository/program' '$folder' >&-"
holds "a closed output is told" ends 1 "" "program: standard output is closed, so there is nowhere to print to"
call bash -c "'$repository/check' >&-"
holds "a closed output is told by the check" ends 1 "" "check: standard output is closed, so there is nowhere to print to"
rm "$(built program)"
launch "$folder"
holds "a program that is gone is built again" ends 0 session "program: crates/program/out/program is gone or damaged, so it is built again
$opening
proving program
proved 3 of 3: program (1 s)"

# what a user may not read or write; root may do all, so nobody stands in
guest=()
if [ "$(id -u)" -eq 0 ]; then
    guest=(setpriv --reuid=65534 --regid=65534 --clear-groups)
fi
if "${guest[@]}" test -x "$repository/program" 2>/dev/null; then
    chmod 0 "$folder/card.txt"
    call "${guest[@]}" "$repository/program" "$folder"
    holds "a card that may not be read is told" ends 0 session "program: $folder/card.txt may not be read (look at its permissions); it counts as empty"
    chmod 0 "$folder"
    call "${guest[@]}" "$repository/program" "$folder"
    holds "a folder that may not be entered is told" ends 2 "" "program: the folder $folder may not be entered (look at its permissions)"
    chmod 755 "$folder"
    chmod 644 "$folder/card.txt"
    chmod -R a-w "$repository"
    call "${guest[@]}" "$repository/program" "$folder"
    holds "a repository that may not be written runs what is proved" ends 0 session ""
    call "${guest[@]}" "$repository/check"
    holds "the check tells that it has to write" ends 1 "" \
        "check: $repository cannot be written, and rt ci builds in the folders of its crates; run ./check in a copy of the repository that is your own"
    chmod -R u+w "$repository"
    forget
    chmod -R a-w "$repository"
    call "${guest[@]}" "$repository/program" "$folder"
    holds "a fresh one tells what it needs" ends 1 "" \
        "program: it has to be proved first, and $repository/crates/below cannot be written; make it writable, or run ./program in a copy of the repository that is your own"
else
    echo "skipped: what a user may not read or write (root needs setpriv to be nobody)"
fi

echo "launching: $((passed + failed)) checks, $failed failed"
[ "$failed" -eq 0 ]
