#!/bin/bash
# Compares the library with the vectors, with an independent implementation and with CGAL, holds the declarations to the
# proved sources, builds and runs the examples, runs the Rust tests and those of the office's tool, holds each job to its
# budget, makes the release on trial, and holds the pages of docs/ to the sources. tests/README.md says what each part is.
#
#   tests/run.sh [NAME..]   all parts, or those that are named:
#                           headers interface vectors programs independent mutated cgal examples rust office budgets
#                           release pages
#
#   LIB       the library, default target/staticlib/libzompelgors.a; REGIONS the second, beside it. LIB=c puts the plain
#             C of bench/ in their place
#   COUNT     random cases, default 1,000,000; SEED the first seed, default 1. What follows is in proportion to COUNT
#   CALLS     calls with mutated inputs, default COUNT / 5; tests/mutate.sh makes them for ten minutes
#   PYRAMIDS  pyramids compared with CGAL, default COUNT / 200
#   CASES     random counted calls of each job, default COUNT / 2,000, and 20 at least; as many old records are converted
#   TIME      seconds of processor time for the search for dear inputs, default COUNT / 3,000, and 20 at least
#   BUILD     where the programs are built, default target/tests
#   EMULATE   set on x86-64 to do as on other machines: cross compiler and emulator
#
# A part whose tools are missing is left out by name. The last line counts the parts. The status is 0 if none failed,
# 1 if one did, 2 if there is no library or no part of that name.
set -u
all=(headers interface vectors programs independent mutated cgal examples rust office budgets release pages)
for name; do
    [[ " ${all[*]} " == *" $name "* ]] && continue
    echo "there is no part '$name'; there are ${all[*]}" >&2
    exit 2
done
[ $# -gt 0 ] || set -- "${all[@]}"
source "$(dirname "${BASH_SOURCE[0]}")/tools.sh"
COUNT=${COUNT:-1000000} SEED=${SEED:-1} BUILD=${BUILD:-target/tests}
CALLS=${CALLS:-$((COUNT / 5))} PYRAMIDS=${PYRAMIDS:-$((COUNT / 200))}
CASES=${CASES:-$((COUNT / 2000 > 20 ? COUNT / 2000 : 20))} TIME=${TIME:-$((COUNT / 3000 > 20 ? COUNT / 3000 : 20))}
TARGET=x86_64-unknown-linux-gnu

need_compiler
need "${for_cxx[0]}" "$CXX" --version
[ "$LIB" != c ] || need "$binutils" "$OBJCOPY" --version
need python3 python3 --version
need qemu-user qemu-x86_64 --version
[ "$CC" = gcc ] || need gcc gcc --version # of this machine, for the plug-in that counts instructions
need libcgal-dev test -f /usr/include/CGAL/Generalized_map.h
need cargo cargo --version
need rustfmt cargo fmt --version
need rust-clippy cargo clippy --version
need git git rev-parse HEAD
say_lacking
if command -v rustc >/dev/null && [ ! -d "$(rustc --print target-libdir --target $TARGET)" ]; then
    install="dpkg --add-architecture amd64 && apt-get update && apt-get install libstd-rust-dev:amd64"
    ! command -v rustup >/dev/null || install="rustup target add $TARGET"
    printf 'missing for Rust: the target %s\n    %s\n' $TARGET "$install" >&2
    lacking+=("$TARGET")
fi
mkdir -p "$BUILD" || exit 2
library "$BUILD"

strict=(-Wall -Wextra -Wpedantic -Wconversion -Wsign-conversion -Wshadow -Wcast-qual -Wundef -Werror -Iinclude)
strict_c=("${strict[@]}" -Wstrict-prototypes) strict_cxx=("${strict[@]}" -Wold-style-cast -Wuseless-cast)
# CGAL and Boost are headers alone; behind all others they serve the cross compiler too. GMP isn't needed for maps.
cgalflags=(-DWITH_LIBRARY -DCGAL_DISABLE_GMP -idirafter /usr/include)

passed=0 failed=0

# pass TITLE WHAT, fail TITLE WHAT: a part's line. leave TITLE WHY: one that can't be run here.
pass() {
    echo "$1: $2"
    passed=$((passed + 1))
}
fail() {
    echo "$1: FAILED, $2"
    failed=$((failed + 1))
}
leave() {
    echo "$1: left out, $2"
    left_out=$((left_out + 1))
}

# built TITLE COMMAND..: whether the program of a part could be built.
built() {
    local title=$1
    shift
    "$@" && return
    fail "$title" "it can't be built"
    return 1
}

# report TITLE FILE COMMAND..: one line with the last one of its output, which goes to the file.
report() {
    local title=$1 file=$2
    shift 2
    if "$@" >"$file" 2>&1; then
        pass "$title" "$(tail -n 1 "$file")"
    else
        fail "$title" "$(tail -n 1 "$file" | cut -c 1-200) (see $file)"
    fi
}

# same TITLE FILE EXPECTED COMMAND..: what the command writes must be what the file EXPECTED holds.
same() {
    local title=$1 out=$2 expected=$3
    shift 3
    if "$@" >"$out" && cmp -s "$out" "$expected"; then
        pass "$title" "$(wc -l <"$expected") lines, 0 differences"
    else
        fail "$title" "$(diff "$out" "$expected" | grep -c '^>') differences (see $out)"
    fi
}

# vectors_of FOLDER NAME TITLE COMMAND..: as same, with the cases on standard input.
vectors_of() {
    local folder=$1 name=$2 title=$3
    shift 3
    same "vectors $name, $title" "$BUILD/$name.out" "$folder/$name.answers" "$@" <"$folder/$name.cases"
}

# ---------------------------------------------------------------- the headers, and the declarations

# as_language STANDARD: tests/header.c and tests/pyramid.c, built by it with all warnings as errors, and run.
as_language() {
    local language=() compiler=$CC flags=("${strict_c[@]}") program record
    [[ $1 != c++* ]] || language=(-x c++) compiler=$CXX flags=("${strict_cxx[@]}")
    for program in header pyramid; do
        "$compiler" -std="$1" "${flags[@]}" -O1 "${language[@]}" tests/$program.c -x none "${LIBS[@]}" \
            -o "$BUILD/$program.$1" || return 1
    done
    for record in star pipe voxels; do
        "${run[@]}" "$BUILD/pyramid.$1" samples/$record.record || return 1
    done
    "${run[@]}" "$BUILD/header.$1"
}
# refused_by WORDS FLAG..: the compiler refuses the lines on standard input, and says those words.
refused_by() {
    local words=$1
    shift
    ! "$CC" -std=c99 "${strict_c[@]}" "$@" -c -x c - -o /dev/null 2>"$BUILD/refused.txt" && grep -q "$words" "$BUILD/refused.txt"
}
# faults: what the compiler must refuse, and what it must take beside.
faults() {
    local main='int main(void) { uint16_t rows[4] = {1, 0, 0, 1};' header='#include "zompelgors_pyramid.h"' call
    for call in 'zg_check_base(1, 2, rows, 4);' 'zg_version();' \
        'zg_pyramid p; p.n = 1; p.darts = 2; p.rows = rows; p.rows_room = 4; zg_pyramid_check_base(&p);'; do
        printf '%s\n%s %s return rows[0]; }\n' "$header" "$main" "$call" | refused_by 'warn_unused_result' || return 1
    done
    printf '%s\nuint8_t lambda[ZG_DARTS];\n' "$header" | refused_by "ZG_DARTS" -DZG_NO_OLD_NAMES || return 1
    echo "$header" | refused_by "ZG_ANY_TARGET" -U__x86_64__ -ffreestanding || return 1
    echo "$header" | "$CC" "${strict_c[@]}" -U__x86_64__ -DZG_ANY_TARGET -ffreestanding -fsyntax-only -x c - || return 1
    "$CC" -std=c99 "${strict_c[@]}" -DZG_NO_OLD_NAMES -fsyntax-only tests/header.c tests/pyramid.c examples/*.c || return 1
    echo "a dropped answer, an old name for a size and another target are refused"
}
part_headers() {
    local standard
    for standard in c99 c11; do
        ! can "headers as $standard" "${for_c[@]}" ||
            report "headers as $standard" "$BUILD/header.$standard.txt" as_language $standard
    done
    for standard in c++11 c++20; do
        ! can "headers as $standard" "${for_cxx[@]}" ||
            report "headers as $standard" "$BUILD/header.$standard.txt" as_language $standard
    done
    ! can "faults that the headers show" "${for_c[@]}" ||
        report "faults that the headers show" "$BUILD/header.faults.txt" faults
}
as_shared() { "$CC" -shared -Wl,--whole-archive "${LIBS[@]}" -Wl,--no-whole-archive -o "$BUILD/libboth.so"; }
part_interface() {
    can "declarations" python3 || return
    report "declarations against the sources" "$BUILD/interface.txt" python3 tests/interface.py
    report "faults planted in declarations" "$BUILD/planted.txt" python3 tests/planted.py
    if [ ${#run[@]} -gt 0 ]; then
        leave "refusals after a check" "Python loads no x86-64 library here"
    elif can "refusals after a check" "${for_c[@]}" && built "refusals after a check" as_shared; then
        report "refusals after a check" "$BUILD/after.txt" python3 tests/after.py "$BUILD/libboth.so"
    fi
}

# ---------------------------------------------------------------- vectors

names=()
for cases in tests/vectors/*.cases; do
    name=${cases##*/}
    names+=("${name%.cases}")
done
build_answer() {
    build_call && "$CC" "${cflags[@]}" -O2 tests/answer.c "$BUILD/call.o" "${LIBS[@]}" -o "$BUILD/answer"
}
build_compare() {
    build_call && "$CXX" "${cxxflags[@]}" -O2 tests/compare.cpp "$BUILD/call.o" "${LIBS[@]}" -o "$BUILD/compare"
}
part_vectors() {
    local name part
    can "vectors, library" "${for_c[@]}" && built "vectors, library" build_answer || return
    for name in "${names[@]}"; do
        vectors_of tests/vectors "$name" "library" "${run[@]}" "$BUILD/answer"
    done
    vectors_of docs/figures asked "library" "${run[@]}" "$BUILD/answer" # what the pictures are drawn from
    can "vectors prefixes" python3 || return
    for part in cases answers; do
        python3 tests/prefixes.py "$part" >"$BUILD/prefixes.$part"
    done
    vectors_of "$BUILD" prefixes "library" "${run[@]}" "$BUILD/answer"
}

# ---------------------------------------------------------------- the programs

# program TITLE WHICH WORD NAME FILE..: a program on the cases of a word, as tests/programs.py WHICH runs it.
program() {
    local title=$1 which=$2 word=$3 name=$4
    shift 4
    if [ ! -f "target/bin/$name" ]; then
        leave "$title" "there is no target/bin/$name (./build.sh $name)"
    elif can "$title" python3 "${for_c[@]}"; then
        tests/programs.py answers "$word" "$@" >"$BUILD/$which.answers"
        same "$title" "$BUILD/$which.out" "$BUILD/$which.answers" \
            tests/programs.py "$which" "$@" -- "${run[@]}" "target/bin/$name"
    fi
}
# censuses: of the sample records, which the gate doesn't run.
censuses() {
    local record
    for record in star voxels; do
        "${run[@]}" target/bin/census <samples/$record.record
    done
}
# old_records: random ones, and what the independent implementation says of them.
old_records() {
    build_compare && "${run[@]}" "$BUILD/compare" --old-records "$SEED" "$CASES" >"$BUILD/old.cases" &&
        "${run[@]}" "$BUILD/compare" --convert "$BUILD/old.cases" >"$BUILD/old.answers"
}
part_programs() {
    program "program levels" levels levels levels "${names[@]/#/tests/vectors/}"
    program "program census" census census_program census "${names[@]/#/tests/vectors/}"
    program "program convert" convert convert convert tests/vectors/old/convert
    program "program convert, then levels" converted levels convert tests/vectors/old/levels
    if [ -f target/bin/census ] && can "program census on samples" "${for_c[@]}"; then
        same "program census on samples" "$BUILD/samples.txt" samples/census.stdout censuses
    fi
    if can "program convert, random records" "${for_cxx[@]}" && built "program convert, random records" old_records; then
        program "program convert, random records" convert convert convert "$BUILD/old"
    fi
    if [ -f target/bin/levels ] && [ -f target/bin/census ] && [ -f target/bin/convert ]; then
        report "program.sh" "$BUILD/program.txt" tests/program.sh "$BUILD/program" "${run[@]}"
    else
        leave "program.sh" "there are no programs in target/bin (./build.sh levels census convert)"
    fi
}

# ---------------------------------------------------------------- the independent implementation, and CGAL

part_independent() {
    local name
    can "independent implementation" "${for_cxx[@]}" && built "independent implementation" build_compare || return
    for name in "${names[@]}"; do
        vectors_of tests/vectors "$name" "independent implementation" \
            "${run[@]}" "$BUILD/compare" --vectors "tests/vectors/$name.cases"
    done
    vectors_of tests/vectors/old convert "independent implementation" \
        "${run[@]}" "$BUILD/compare" --convert tests/vectors/old/convert.cases
    report "random, large and damaged" "$BUILD/random.txt" "${run[@]}" "$BUILD/compare" --random "$SEED" "$COUNT"
}
part_mutated() {
    can "mutated inputs" "${for_cxx[@]}" && built "mutated inputs" build_mutate || return
    report "mutated inputs" "$BUILD/mutate.txt" \
        "${run[@]}" "$BUILD/mutate" --calls "$CALLS" "$SEED" samples/*.record
}
part_cgal() {
    can "CGAL" "${for_cxx[@]}" libcgal-dev &&
        built "CGAL" "$CXX" "${cxxflags[@]}" "${cgalflags[@]}" -O2 tests/cgal.cpp "$LIB" -o "$BUILD/cgal" || return
    report "CGAL" "$BUILD/cgal.txt" "${run[@]}" "$BUILD/cgal" "$SEED" "$PYRAMIDS"
}

# ---------------------------------------------------------------- examples, and the Rust binding

# example NAME LIBRARY..: an example in C, built as strictly as the headers.
example() {
    local name=$1
    shift
    "$CC" -std=c99 "${strict_c[@]}" -O2 "examples/$name.c" "$@" -o "$BUILD/$name"
}
cut_short() { head -c 50 samples/star.record >"$BUILD/cut.record"; }
# unfoldings COMMAND..: an example on a level of the star, on one that it hasn't, and on a record cut short.
unfoldings() {
    "$@" samples/star.record 1
    "$@" samples/star.record 3
    "$@" "$BUILD/cut.record" 1
    return 0
}
# days COMMAND..: a station's day with two records, and with one cut short.
days() {
    "$@" samples/star.record "$BUILD/star.record"
    "$@" samples/pipe.record "$BUILD/pipe.record"
    "$@" "$BUILD/cut.record" "$BUILD/none.record"
    return 0
}
# housing COMMAND..: regions of a block of voxels with a cavity, and of a pipe with contracted edges.
housing() {
    "$@" samples/voxels.record
    "$@" samples/pipe.record
    return 0
}
# ends STATUS OUTPUT COMMAND..: a call ends so, with a line on the error stream where it is 2.
ends() {
    local status=$1 output=$2
    shift 2
    "$@" >"$output" 2>"$BUILD/ends.txt"
    local code=$?
    [ $code -eq "$status" ] && { [ "$status" -ne 2 ] || [ -s "$BUILD/ends.txt" ]; } && return
    echo "'$*' >$output ends with $code and not $status"
    return 1
}
# careful UNFOLD STATION [RUNNER..]: the two examples look at what they are given and at every answer.
careful() {
    local unfold=("${@:3}" "$1") station=("${@:3}" "$2") star=samples/star.record level
    for level in 256 abc '' -1 1x ' 1' 99999999999999999999; do
        ends 2 "$BUILD/careful.txt" "${unfold[@]}" $star "$level" && [ ! -s "$BUILD/careful.txt" ] || return 1
    done
    rm -rf "$BUILD"/{none,new}.record
    ends 1 /dev/null "${unfold[@]}" $star 255 && ends 2 /dev/null "${unfold[@]}" $star &&
        ends 2 /dev/null "${unfold[@]}" "$BUILD/none.record" 1 && ends 2 /dev/null "${unfold[@]}" samples 1 &&
        ends 2 /dev/full "${unfold[@]}" $star 1 &&
        ends 1 /dev/null "${station[@]}" "$BUILD/cut.record" "$BUILD/none.record" && [ ! -e "$BUILD/none.record" ] &&
        ends 2 /dev/null "${station[@]}" $star && ends 2 /dev/null "${station[@]}" samples "$BUILD/none.record" &&
        [ ! -e "$BUILD/none.record" ] && ends 2 /dev/null "${station[@]}" $star "$BUILD/no/where" &&
        ends 2 /dev/null "${station[@]}" $star /dev/full && ends 2 /dev/full "${station[@]}" $star "$BUILD/new.record" ||
        return 1
    echo "wrong calls, unreadable files and full disks are told, 18 calls"
}
part_examples() {
    can "examples in C" "${for_c[@]}" || return
    cut_short
    built "example in C" example unfold "$LIB" &&
        same "example in C" "$BUILD/unfold.txt" examples/unfold.stdout unfoldings "${run[@]}" "$BUILD/unfold"
    built "a station's day in C" example station "$LIB" &&
        same "a station's day in C" "$BUILD/station.txt" examples/station.stdout days "${run[@]}" "$BUILD/station"
    built "combinatorial map in C" example partner "$LIB" &&
        same "combinatorial map in C" "$BUILD/partner.txt" examples/partner.stdout "${run[@]}" "$BUILD/partner"
    built "example of regions" example regions "${LIBS[@]}" &&
        same "example of regions" "$BUILD/regions.txt" examples/regions.stdout housing "${run[@]}" "$BUILD/regions"
    report "examples in C, wrong calls" "$BUILD/careful.c.txt" careful "$BUILD/unfold" "$BUILD/station" "${run[@]}"
}

# Rust programs are linked and run as the C ones are.
cargo_for_library() {
    local command=$1
    shift
    (
        export ZOMPELGORS_LIB=$folder_of_library CARGO_TARGET_DIR=$cargo_target RUSTFLAGS="-D warnings"
        export CARGO_TARGET_X86_64_UNKNOWN_LINUX_GNU_LINKER=$CC
        [ ${#run[@]} -eq 0 ] || export CARGO_TARGET_X86_64_UNKNOWN_LINUX_GNU_RUNNER="${run[*]}"
        cd rust && cargo "$command" --offline --target $TARGET "$@"
    )
}
# rust_tests: all their results in one last line.
rust_tests() {
    local out=$BUILD/cargo.txt
    cargo_for_library test --features regions >"$out" 2>&1
    local code=$?
    cat "$out"
    [ $code -ne 0 ] || awk '/^test result/ { p += $4; f += $6 } END { print p " passed, " f " failed" }' "$out"
    return $code
}
# The sets of features that are looked at, one a line.
features=("--features regions" "--no-default-features" "--no-default-features --features alloc,regions")
# rust_looked_at: format, lints and pages, without an archive: none of that needs one.
rust_looked_at() {
    local set words script
    cd rust || return 1
    export ZOMPELGORS_LIB=/nowhere CARGO_TARGET_DIR=$cargo_target RUSTDOCFLAGS="-D warnings"
    cargo fmt --check || return 1
    for set in "${features[@]}"; do
        read -r -a words <<<"$set"
        cargo check -q --offline "${words[@]}" && cargo doc -q --offline --no-deps "${words[@]}" &&
            cargo clippy -q --offline --all-targets "${words[@]}" -- -D warnings -D clippy::pedantic || return 1
    done
    # On another machine the build script links nothing, and stops nothing.
    for script in "$cargo_target"/debug/build/zompelgors-*/build-script-build; do
        CARGO_CFG_TARGET_ARCH=aarch64 CARGO_MANIFEST_DIR=$PWD "$script" >"$cargo_target/arm.txt" || return 1
        grep -q 'cargo:warning=.*aarch64' "$cargo_target/arm.txt" && ! grep -q rustc-link "$cargo_target/arm.txt" || return 1
    done
    echo "rustfmt, clippy (pedantic) and doc: nothing to say, with ${#features[@]} sets of features"
}
part_rust() {
    local folder_of_library cargo_target
    folder_of_library=$(cd "$(dirname "$LIB")" && pwd) cargo_target=$(cd "$BUILD" && pwd)/rust
    if can "Rust as it is written" cargo rustfmt rust-clippy; then
        report "Rust as it is written" "$BUILD/clippy.txt" eval '(rust_looked_at)'
    fi
    if [ "${LIB##*/}" != libzompelgors.a ] || [ "$(dirname "$LIB")" != "$(dirname "$REGIONS")" ]; then
        leave "Rust" "it links libzompelgors.a and the second archive beside it alone"
        return
    fi
    can "Rust" cargo "$TARGET" "${for_c[@]}" || return
    cut_short
    report "Rust tests" "$BUILD/rust.txt" rust_tests
    built "examples in Rust" cargo_for_library build -q --examples || return
    local examples=$cargo_target/$TARGET/debug/examples
    same "example in Rust" "$BUILD/unfold_rust.txt" examples/unfold.stdout unfoldings "${run[@]}" "$examples/unfold"
    same "a station's day in Rust" "$BUILD/station_rust.txt" examples/station.stdout days "${run[@]}" "$examples/station"
    report "examples in Rust, wrong calls" "$BUILD/careful.rust.txt" careful "$examples/unfold" "$examples/station" "${run[@]}"
}

# ---------------------------------------------------------------- budgets, the release, and the pages

# bounded: the archives' code is that of the table, the page has their bounds, and a search for dear inputs finds no call over
# its bound and none that breaks a line. The nearest of each function is in BUILD/bound/found.
bounded() {
    local found=$BUILD/bound/found
    LIB=$LIB REGIONS=$REGIONS BUILD=$BUILD/bound SEED=$SEED CASES=$CASES TIME=$TIME bench/bound.sh >"$BUILD/budgets.md" || return 1
    python3 -B bench/bound/bound.py --archives "$LIB" "$REGIONS" agrees docs/BUDGETS.md "$found" || return 1
    grep '^nearest' "$found"
    echo "$(awk '/^calls/ { sub("calls=", "", $3); all += $3 } END { print all }' "$found") calls, none over its bound, no line broken"
}
part_budgets() {
    if [ -n "$standin" ]; then
        leave "budgets" "they are of the library itself"
    elif can "budgets" python3 qemu-user gcc "${for_cxx[@]}"; then
        report "budgets" "$BUILD/budgets.txt" bounded
    fi
}
# released: a trial, made twice, with a gate's log that names the commit and with one that doesn't.
released() {
    local folder log=$BUILD/gate.log archive=target/release/zompelgors-*-trial.tar.gz page
    folder=$(cd "$(dirname "$LIB")" && pwd)
    printf '%s\n7 passed, 0 failed\n' "$(git rev-parse HEAD)" >"$log"
    ./release.sh --trial "$folder" --gate "$log" || return 1
    cp $archive "$BUILD/first.tar.gz" && sleep 1.1 && ./release.sh --trial "$folder" --gate "$log" || return 1
    cmp $archive "$BUILD/first.tar.gz" || return 1
    page=$(echo target/release/zompelgors-*-trial/PROVENANCE)
    grep -q '^gate        7 passed, 0 failed$' "$page" && grep -q '^libraries   a trial' "$page" || return 1
    printf 'another commit\n7 passed, 0 failed\n' >"$log"
    rm -rf "$BUILD/installed"
    ./release.sh --trial "$folder" --gate "$log" --install "$BUILD/installed" || return 1
    grep -q '^gate        no gate seen$' "$page" && [ -e "$BUILD/installed/lib/libzompelgors.so" ] || return 1
    echo "a trial of $(wc -l <"${page%PROVENANCE}SHA256SUMS") files, tried by itself; two runs gave the same bytes"
}
# part_office: the parts of the office's tool, which has a script of its own, counted here.
part_office() {
    local library=$LIB counts
    [ -z "${standin:-}" ] || library=c
    LIB=$library BUILD=$BUILD SEED=$SEED COUNT=$COUNT tests/office.sh | tee "$BUILD/office.txt" | grep '^office, '
    read -r -a counts < <(sed -n 's/^office: \([0-9]*\) parts passed, \([0-9]*\) failed, \([0-9]*\) left out$/\1 \2 \3/p' "$BUILD/office.txt")
    [ ${#counts[@]} -eq 3 ] || { fail "office" "it ended early (tests/office.sh)" && return; }
    passed=$((passed + counts[0])) failed=$((failed + counts[1])) left_out=$((left_out + counts[2]))
}
part_release() {
    ! can "release" git "${for_c[@]}" || report "release" "$BUILD/release.txt" released
}
# made_anew: the sample records are those that samples/make.py makes.
made_anew() {
    rm -rf "$BUILD/samples" && python3 samples/make.py "$BUILD/samples" || return 1
    diff -r -x make.py -x '*.stdout' -x office samples "$BUILD/samples" || return 1
    echo "$(find "$BUILD/samples" -name '*.record' | wc -l) records, 0 differences"
}
part_pages() {
    ! can "sample records" python3 || report "sample records" "$BUILD/samples.made" made_anew
    ! can "pages of docs/ against the sources" python3 ||
        report "pages of docs/ against the sources" "$BUILD/pages.txt" python3 tests/pages.py
    ! can "wrong programs against the gate's logs" python3 ||
        report "wrong programs against the gate's logs" "$BUILD/edits.txt" python3 tests/edits.py
}

# processor: of what times wrote, the seconds of processor time of all commands, in user mode and for the system.
processor() { awk 'NR == 2 { split($1, u, /[ms]/); split($2, s, /[ms]/); print int(60 * (u[1] + s[1]) + u[2] + s[2]) }' "$1"; }
spent='' before=0
for name; do
    "part_$name"
    times >"$BUILD/times" # here, and not in a subshell, which has times of its own
    after=$(processor "$BUILD/times")
    spent+=", $name $((after - before))" before=$after
done
if [[ " $* " == *" independent "* ]] && [ -f "$BUILD/random.txt" ]; then
    echo
    echo "How often each number occurred in the random cases (0: accepted)"
    grep -v '^case\|^independent\|^library' "$BUILD/random.txt" | sed '$d'
fi
echo
echo "seconds of processor time: ${spent:2}"
echo "$passed parts passed, $failed failed, $left_out left out"
[ $failed -eq 0 ]
