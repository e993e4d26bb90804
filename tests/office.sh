#!/bin/bash
# Tests the office's tool, the command zompelgors and the Python module, with what others wrote: the vectors, the station's
# programs, scipy's connected components, CGAL's meshes; and with damaged files, and by the tutorial of docs/OFFICE.md.
# tests/README.md says what each part is.
#
#   LIB       the library, default target/staticlib/libzompelgors.a; REGIONS the second, beside it. LIB=c puts the plain
#             C of bench/ in their place
#   COUNT     what follows is in proportion to it, default 1,000,000; under an emulator a fiftieth of that
#   DAMAGED   damaged records, each through every command, default COUNT / 1,000; STEP every so many of the vectors
#   IMAGES    random images, default COUNT / 4,000; RECORDS random records for Python, default COUNT / 50,000
#   SEED      the first seed, default 1
#   BUILD     where the command is built, default target/tests
#   EMULATE   set on x86-64 to do as on other machines: cross compiler and emulator
#   PYTHON    an x86-64 Python for the module on other machines
#
# On x86-64 the tool runs as it is. Elsewhere it runs under an emulator where there is a Rust or a Python for x86-64, else
# against the plain C by the same interface; each part's line says which. The last line counts the parts. Status: 0 if none
# failed, 1 if one did, 2 if there is no library.
set -u
source "$(dirname "${BASH_SOURCE[0]}")/tools.sh"
SEED=${SEED:-1} BUILD=${BUILD:-target/tests} COUNT=${COUNT:-1000000}
[ ${#run[@]} -eq 0 ] || COUNT=$((COUNT / 50))
# share PART: so many of COUNT, and one at least.
share() { echo $((COUNT / $1 > 0 ? COUNT / $1 : 1)); }
DAMAGED=${DAMAGED:-$(share 1000)} IMAGES=${IMAGES:-$(share 4000)} RECORDS=${RECORDS:-$(share 50000)}
STEP=${STEP:-$((1 + 999999 / $(share 1)))}
TARGET=x86_64-unknown-linux-gnu
DATA=/usr/share/doc/libcgal-dev/data.tar.gz

need_compiler
need "${for_cxx[0]}" "$CXX" --version
[ "$LIB" != c ] || need "$binutils" "$OBJCOPY" --version
need python3 python3 --version
need cargo cargo --version
need librust-clap-dev compgen -G '/usr/share/cargo/registry/clap-4*'
need librust-serde-json-dev compgen -G '/usr/share/cargo/registry/serde_json-1*'
need libcgal-demo test -f $DATA
# scientific: a Python that has scipy, which need not be the first.
scientific=python3
python3 -c 'import scipy.ndimage' 2>/dev/null || scientific=/usr/bin/python3
need python3-scipy "$scientific" -c 'import scipy.ndimage'
say_lacking
mkdir -p "$BUILD" || exit 2
library "$BUILD"
export PYTHONDONTWRITEBYTECODE=1

passed=0 failed=0

# report TITLE COMMAND..: one line with the last one of its output, and on what it ran.
report() {
    local title=$1 file=$BUILD/office_${1//[ ,]/_}.txt
    shift
    if "$@" >"$file" 2>&1; then
        echo "office, $title: $(tail -n 1 "$file")${on:+ ($on)}"
        passed=$((passed + 1))
    else
        echo "office, $title: FAILED, $(tail -n 1 "$file" | cut -c 1-200) (see $file)"
        failed=$((failed + 1))
    fi
}
# able TITLE PACKAGE..: as can, with the title of a part.
able() { can "office, $1" "${@:2}"; }

# ---------------------------------------------------------------- the command

# plain FOLDER: the plain C as archives and as a shared library for this machine itself.
plain() {
    mkdir -p "$1" && "${HOSTCC:-cc}" "${cflags[@]}" -O2 -fPIC -c bench/plain.c -o "$1/plain.o" || return 1
    local rename=() job
    for job in $(sed -n 's/.*\bzg_\([a-z_]*\)(.*/\1/p' include/*.h | grep -v refusal_text | sort -u); do
        rename+=(--redefine-sym "plain_$job=zg_$job")
    done
    objcopy "${rename[@]}" "$1/plain.o" && rm -f "$1"/*.a && ar rcs "$1/libzompelgors.a" "$1/plain.o" &&
        ar rcs "$1/libzompelgors_regions.a" && "${HOSTCC:-cc}" -shared "$1/plain.o" -o "$1/libzompelgors.so"
}
# cargo_for COMMAND..: cargo in rust/cli, with the crates as Debian packages them.
cargo_for() {
    (
        export CARGO_TARGET_DIR=$folder/rust_cli RUSTFLAGS="-D warnings" ZOMPELGORS_LIB=$library_folder
        export CARGO_TARGET_X86_64_UNKNOWN_LINUX_GNU_LINKER=$CC
        cd rust/cli && cargo "$1" --config debian.toml --offline "${cargo_options[@]}" "${@:2}"
    )
}
build_command() {
    cargo_for build -q && cp "$folder/rust_cli/$built/debug/zompelgors" "$folder/zompelgors" || return 1
    "${run_command[@]}" "$folder/zompelgors" --version
}
# style: formatted, and without a warning of clippy.
style() {
    (cd rust/cli && cargo fmt --check) && cargo_for clippy -q --all-targets -- -D warnings || return 1
    echo "formatted, no warning"
}

folder=$(cd "$BUILD" && pwd) library_folder=$(cd "$(dirname "$LIB")" && pwd)
cargo_options=() built='' run_command=("${run[@]}") on=''
[ -z "${standin:-}" ] || on="the plain C"
if [ ${#run[@]} -gt 0 ]; then
    if command -v rustc >/dev/null && [ -d "$(rustc --print target-libdir --target $TARGET)" ]; then
        cargo_options=(--target $TARGET) built=$TARGET on="under an emulator"
    else
        host=$(rustc -vV 2>/dev/null | sed -n 's/^host: //p')
        plain "$folder/plain" || exit 2
        cargo_options=(--config "target.$host.zompelgors.rustc-link-search=['native=$folder/plain']"
            --config "target.$host.zompelgors.rustc-link-lib=['static=zompelgors']")
        run_command=() on="no x86-64 Rust is here: the plain C by the same interface"
    fi
fi

have_command=''
if able "the command" cargo librust-clap-dev librust-serde-json-dev "${for_c[@]}"; then
    report "the command" build_command
    [ ! -x "$folder/zompelgors" ] || have_command=yes
    ! cargo clippy --version >/dev/null 2>&1 || ! cargo fmt --version >/dev/null 2>&1 || on='' report "Rust style" style
fi
export OFFICE="${run_command[*]} $folder/zompelgors" STEP
# The program convert, for the command and for Python; where it needs an emulator, by way of a script.
if [ -f target/bin/convert ]; then
    export ZOMPELGORS_CONVERT=$root/target/bin/convert
    if [ ${#run[@]} -gt 0 ]; then
        printf '#!/bin/sh\nexec %s %s\n' "${run[*]}" "$ZOMPELGORS_CONVERT" >"$folder/convert" && chmod +x "$folder/convert"
        ZOMPELGORS_CONVERT=$folder/convert
    fi
fi

build_compare() {
    [ ! "$BUILD/compare" -nt tests/compare.cpp ] || return 0
    build_call && "$CXX" "${cxxflags[@]}" -O1 tests/compare.cpp "$BUILD/call.o" "${LIBS[@]}" -o "$BUILD/compare"
}
# independent FILE: answers of the independent implementation, for the cases of a file.
independent() { "${run[@]}" "$BUILD/compare" --vectors "$1"; }
vectors() {
    build_compare && python3 tests/office_vectors.py checks >"$BUILD/office.cases" &&
        independent "$BUILD/office.cases" >"$BUILD/office.verdicts" &&
        python3 tests/office_vectors.py vectors "$BUILD/office.verdicts"
}
damaged() {
    build_compare && python3 tests/office_damaged.py takes "$DAMAGED" "$SEED" >"$BUILD/damaged.cases" &&
        independent "$BUILD/damaged.cases" >"$BUILD/damaged.verdicts" &&
        python3 tests/office_damaged.py run "$DAMAGED" "$SEED" "$BUILD/damaged.verdicts"
}
if [ -n "$have_command" ]; then
    ! able "vectors" python3 "${for_cxx[@]}" || report "vectors" vectors
    if [ -f target/bin/levels ] && [ -f target/bin/census ] && [ -f target/bin/convert ]; then
        ! able "the station's programs" python3 || report "the station's programs" \
            python3 tests/office_vectors.py programs target/bin "${run[*]}"
    else
        echo "office, the station's programs: left out, there is no target/bin/levels, census or convert (./build.sh)"
        left_out=$((left_out + 1))
    fi
    ! able "text, JSON, CSV" python3 || report "text, JSON, CSV" python3 tests/office_forms.py
    ! able "labelled images" python3 python3-scipy || report "labelled images" \
        "$scientific" tests/office_images.py "$IMAGES" "$SEED"
    ! able "polygon meshes" python3 libcgal-demo || report "polygon meshes" python3 tests/office_meshes.py $DATA
    ! able "what is written" python3 || report "what is written" python3 tests/office_writing.py
    ! able "damaged files" python3 "${for_cxx[@]}" || report "damaged files" damaged
fi

# ---------------------------------------------------------------- Python

# shared: the shared library, made of both archives as the release makes it.
shared() {
    "$CC" -std=c99 -O2 -fPIC -Iinclude -shared -Wl,--version-script=release/symbols.map release/text.c \
        -Wl,--whole-archive "$LIB" "$REGIONS" -Wl,--no-whole-archive -o "$folder/libzompelgors.so"
}
unit_tests() {
    local out=$BUILD/office_unittest.txt
    (cd python && "${python[@]}" -m unittest) >"$out" 2>&1 || {
        cat "$out"
        return 1
    }
    echo "$(sed -n 's/^Ran \([0-9]*\) tests.*/\1/p' "$out") tests, $(tail -n 1 "$out")"
}
# wheel: installed into a place of its own, where it finds its library by itself.
wheel() {
    local place=$folder/wheel
    rm -rf "$place" && mkdir "$place" && "${python[@]}" python/backend.py "$place" >/dev/null &&
        "${python[@]}" -m pip install -q --no-index --no-deps --target "$place/lib" "$place"/*.whl || return 1
    (
        unset ZOMPELGORS_LIBRARY ZOMPELGORS_CONVERT
        cd "$place" && PYTHONPATH=$place/lib "${python[@]}" - "$root/samples/star.record" <<'TRY'
import sys, zompelgors
star = zompelgors.Pyramid.open(sys.argv[1])
assert star.read(2, 0, 7) == (10, 5, 2) and zompelgors.__file__.startswith(sys.path[1])
print("installed, and it answers as version", zompelgors.version())
TRY
    )
}

# The one with scipy has numpy too, which the module is tried with.
python=("$scientific")
on_command=$on
if [ ${#run[@]} -gt 0 ]; then
    if [ -n "${PYTHON:-}" ]; then
        python=("${run[@]}" "$PYTHON") on="under an emulator"
    else
        plain "$folder/plain" || exit 2
        on="no x86-64 Python is here: the plain C by the same interface"
    fi
fi
if able "Python" python3 "${for_c[@]}"; then
    if [ "${on#no x86}" = "$on" ]; then
        shared || exit 2
        export ZOMPELGORS_LIBRARY=$folder/libzompelgors.so
    else
        export ZOMPELGORS_LIBRARY=$folder/plain/libzompelgors.so
    fi
    report "Python tests" unit_tests
    if "${python[@]}" -m pip --version >/dev/null 2>&1; then
        report "Python wheel" wheel
    fi
    [ -z "$have_command" ] || report "Python against the command" \
        "${python[@]}" tests/office_python.py "$RECORDS" "$SEED"
    on=$on_command
    [ -z "$have_command" ] || report "the tutorial" "${python[@]}" tests/office_tutorial.py docs/OFFICE.md
fi
echo "office: $passed parts passed, $failed failed, $left_out left out"
[ $failed -eq 0 ]
