#!/bin/bash
# Runs a proved program on a record, and says what its numbers mean; --help says how. In the project it proves and builds
# the program first; in a release the programs lie beside it. On Arm it runs under an emulator.
set -u

usage() {
    cat <<'USAGE'
program.sh PROGRAM [RECORD]

Runs a proved program on a record, or on the sample star.record if none is named.

  levels    prints n, N and h, and for each level its number, its survivors, the base entries that reading it takes
            and since which level all its links stand
  census    prints for each level its number, its cells of each dimension and their alternating sum, 0-cells minus
            1-cells plus 2-cells and so on. The sum is the Euler number only while every cell is a ball: a kernel may
            leave faces with holes and blocks with cavities, and then it is a sum and no more
  convert   writes the record anew with two bytes an entry, from rows of one byte an entry or two

A refused record gives one line: refused, then number, level, involution and dart (the page SCOPE, 'Numbers of refusal').
levels and census print it, convert writes it to the error stream and nothing else. What a program writes stays as it
is, to the byte. Lines on the error stream that begin with 'program.sh:' are added here: what the number of a refusal
says and where, and headings where that is a terminal.

In the project the first run proves the program and all that it uses, which takes minutes; a later one looks whether
anything changed. A program that is run by itself and can't read or write ends with status 1 and a line on the error
stream that begins with 'Error'; here an output that can't be written is status 4.

Status: 0 written, 1 the record is refused, 2 the record can't be read or the call is wrong, 3 the program isn't proved
or doesn't run, 4 what it writes can't be written.
USAGE
}

# say MESSAGE, stop STATUS MESSAGE: one line on the error stream.
say() { echo "program.sh: $1" >&2; }
stop() {
    say "$2"
    exit "$1"
}

# phrase NUMBER: what it says, from the header's list.
phrase() { sed -n '/texts\[\] = {/,/};/s/^ *"\(.*\)",\{0,1\}$/\1/p' "$header" | sed -n "$(($1 + 1))p"; }

# place NUMBER LEVEL INVOLUTION DART: where it was found; the fields that the number has.
place() {
    case $1 in
    5 | 6 | 7) echo ", row $3, dart $4" ;;
    8) echo ", dart $4" ;;
    9 | 10) echo ", kernel $2, involution $3, dart $4" ;;
    16 | 17 | 18 | 19) echo ", at byte $4" ;;
    esac
}

# explain WORD NUMBER LEVEL INVOLUTION DART: a refusal's line in words.
explain() {
    say "refused $2: $(phrase "$2")$(place "${@:2}")"
    if [ "$2 $5" = "17 7" ] && [ "$program" != convert ]; then
        say "if its rows have one byte an entry, the program convert turns it into a new record"
    fi
}

# headings: of the numbers that are printed.
headings() {
    case $program in
    levels)
        say "first line: n, N (darts), h (height)"
        say "then for each level: level, survivors, base entries read, since which level all links stand"
        ;;
    census)
        say "for each level: level, cells of dimension 0, 1, .. n, alternating sum"
        say "the sum is the Euler number only while every cell is a ball"
        ;;
    esac
}

[ $# -gt 0 ] && [ -n "$1" ] || stop 2 "no program is named (--help)"
case $1 in
-h | --help)
    usage
    exit 0
    ;;
levels | census | convert) program=$1 ;;
*) stop 2 "no such program: $1 (--help)" ;;
esac
[ $# -le 2 ] || stop 2 "one record at a time (--help)"

here=$(cd "$(dirname "${BASH_SOURCE[0]}")" && pwd) || exit 3
if [ -f "$here/crates.txt" ]; then
    binary=$here/target/bin/$program header=$here/include/zompelgors.h samples=$here/samples
else
    binary=$here/$program header=$here/../../include/zompelgors.h samples=$here/../../share/zompelgors/samples
fi
if [ $# -eq 1 ]; then
    record=$samples/star.record
    say "no record is named, so this is samples/star.record"
else
    record=$2
fi
case $record in
'') stop 2 "the record's name is empty (--help)" ;;
-*) stop 2 "no such option: $record (--help)" ;;
esac
[ -e "$record" ] || stop 2 "there is no file $record"
[ ! -d "$record" ] || stop 2 "$record is a folder, not a record"
[ -r "$record" ] || stop 2 "$record can't be read"
exec 3<"$record" || exit 2

work=$(mktemp -d) || exit 4
trap 'rm -rf "$work"' EXIT
trap 'exit 130' INT
trap 'exit 143' TERM

# Rattle programs are for x86-64.
run=()
if [ -f "$here/crates.txt" ]; then
    command -v rt >/dev/null || stop 3 "the toolchain's command rt is not here"
    [ -f "$binary" ] || say "proving the program and all that it uses, crate by crate: minutes at the first run"
    # Of what rt says, only which crate is looked at now.
    "$here/build.sh" "$program" 2>&1 | tee "$work/log" | grep --line-buffered -o '^rt: chose .* for .*' |
        sed -u 's/^rt: chose .* for /rt: proving /' >&2
    if [ "${PIPESTATUS[0]}" -ne 0 ]; then
        cat "$work/log" >&2
        stop 3 "the program isn't proved (build.sh $program)"
    fi
fi
if [ "$(uname -m)" != x86_64 ]; then
    run=(qemu-x86_64 -L /usr/x86_64-linux-gnu -E LD_LIBRARY_PATH=/usr/x86_64-linux-gnu/lib)
fi

# What is written may be a record, so it goes by a file and not through the shell. It goes through cat, so that a full
# disk has one status, whatever the program ends with.
"${run[@]}" "$binary" <&3 2>"$work/error" | cat 2>/dev/null >"$work/out"
ended=("${PIPESTATUS[@]}")
[ "${ended[1]}" -eq 0 ] || stop 4 "what $program writes finds no room in $work"
[ "${ended[0]}" -eq 0 ] || stop 3 "$program ended with status ${ended[0]}"
refusal=$(head -qc 40 "$work/out" "$work/error" | tr -d '\000' | grep -am 1 '^refused [0-9 ]*$')
[ -n "$refusal" ] || [ ! -t 2 ] || headings

cat "$work/out" 2>/dev/null
written=$?
# Whoever reads has seen enough.
[ $written -ne 141 ] || exit 141
[ $written -eq 0 ] || stop 4 "what $program writes can't be written"
cat "$work/error" >&2
[ -n "$refusal" ] || exit 0
# shellcheck disable=SC2086
explain $refusal
exit 1
