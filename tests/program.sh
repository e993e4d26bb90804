#!/bin/bash
# Tries program.sh, in a release as in the project: tests/program.sh FOLDER [EMULATOR..]. What the programs write stays
# as it is; what is added begins with 'program.sh:'. Nothing is proved here: a command rt that does nothing stands in.
# The last line counts the calls; status 0 if each was as it should be.
set -u
work=${1:?a folder} root=$(cd "$(dirname "${BASH_SOURCE[0]}")/.." && pwd)
shift
rm -rf "$work" && mkdir -p "$work/bin" && cd "$work" && work=$PWD || exit 2
tried=0

# In the project, with an rt that has nothing to prove; and in a folder laid out as a release.
printf '#!/bin/sh\nexit 0\n' >bin/rt
chmod +x bin/rt
mkdir -p release/{include,libexec/zompelgors,share/zompelgors}
cp "$root/include/zompelgors.h" release/include && cp -r "$root/samples" release/share/zompelgors &&
    cp "$root/program.sh" "$root"/target/bin/{levels,census,convert} release/libexec/zompelgors || exit 2
programs=("$work/release/libexec/zompelgors/program.sh")
# Elsewhere the project runs its programs by an emulator, which need not be there.
[ $# -gt 0 ] || programs+=("$root/program.sh")

# call STATUS OUT ERROR WORD..: a call ends so; its output is the file OUT, and ERROR is a line of its error stream, or
# there is none.
call() {
    local status=$1 out=$2 error=$3 program code
    shift 3
    for program in "${programs[@]}"; do
        PATH=$work/bin:$PATH "$program" "$@" >out 2>error
        code=$?
        tried=$((tried + 1))
        [ $code -eq "$status" ] && cmp -s out "$out" && { [ -z "$error" ] && [ ! -s error ] || grep -qxF "$error" error; } &&
            continue
        echo "'program.sh $*' ends with $code, not $status, or writes something else:" && cat out error
        exit 1
    done
}
# full STATUS WORD..: the same where the output has no room.
full() {
    local status=$1 program code
    shift
    for program in "${programs[@]}"; do
        PATH=$work/bin:$PATH "$program" "$@" >/dev/full 2>error
        code=$?
        tried=$((tried + 1))
        [ $code -eq "$status" ] && grep -q '^program.sh: what .* writes can.t be written$' error && continue
        echo "'program.sh $* >/dev/full' ends with $code, not $status"
        exit 1
    done
}

star=$root/samples/star.record
: >nothing
head -c 50 "$star" >cut.record
printf 'refused 16 0 0 34\n' >cut.refusal
cp "$star" torn.record && printf '\0' | dd of=torn.record bs=1 seek=91 conv=notrunc 2>/dev/null
printf 'refused 9 0 1 0\n' >torn.refusal
{ cat "$star" && printf 'x'; } >long.record
printf 'refused 19 0 0 118\n' >long.refusal
cp "$star" old.record && printf '\40' | dd of=old.record bs=1 seek=7 conv=notrunc 2>/dev/null
printf 'refused 17 0 0 7\n' >old.refusal
printf '2 12 2\n0 12 36 0\n1 8 28 1\n2 4 24 2\n' >star.levels
head -n 3 "$root/samples/census.stdout" >star.census

call 0 star.levels '' levels "$star"
call 0 star.census '' census "$star"
call 0 "$star" '' convert "$star"
call 0 "$root/samples/pipe.record" '' convert "$root/samples/pipe.record"
call 0 star.levels 'program.sh: no record is named, so this is samples/star.record' levels
call 1 cut.refusal 'program.sh: refused 16: the record ends early, at byte 34' levels cut.record
call 1 cut.refusal 'program.sh: refused 16: the record ends early, at byte 34' census cut.record
call 1 nothing 'refused 16 0 0 34' convert cut.record
call 1 nothing 'program.sh: refused 16: the record ends early, at byte 34' convert cut.record
call 1 torn.refusal 'program.sh: refused 9: a kernel is not made of whole cells, kernel 0, involution 1, dart 0' levels torn.record
call 1 long.refusal 'program.sh: refused 19: bytes follow the end of the record, at byte 118' census long.record
call 1 old.refusal 'program.sh: refused 17: the record has another tag than the one due, at byte 7' levels old.record
call 1 old.refusal 'program.sh: if its rows have one byte an entry, the program convert turns it into a new record' census old.record
call 2 nothing "program.sh: the record's name is empty (--help)" levels ''
call 2 nothing 'program.sh: no program is named (--help)'
call 2 nothing 'program.sh: no program is named (--help)' ''
call 2 nothing 'program.sh: no such program: level (--help)' level "$star"
call 2 nothing 'program.sh: no such option: -x (--help)' levels -x
call 2 nothing 'program.sh: one record at a time (--help)' levels "$star" "$star"
call 2 nothing 'program.sh: there is no file nowhere' levels nowhere
call 2 nothing "program.sh: $work is a folder, not a record" levels "$work"
for program in levels census convert; do
    full 4 $program "$star"
done

# Headings come where the error stream is a terminal, and there alone.
if command -v script >/dev/null; then
    script -qec "${programs[0]} census $star" /dev/null </dev/null | tr -d '\r' >terminal
    tried=$((tried + 1))
    grep -qx 'program.sh: the sum is the Euler number only while every cell is a ball' terminal &&
        cmp -s <(grep -v '^program.sh:' terminal) star.census || {
        echo "no headings on a terminal:" && cat terminal
        exit 1
    }
fi
echo "$tried calls: statuses, phrases, headings, and what can't be written"
