#!/bin/bash
# Tries a release by itself: release/try.sh ARCHIVE. It is unpacked into a folder of its own; there its sums are held to
# its files and its README to what is there, examples are built against the static and the shared libraries and run, the
# programs are run, and where Python and cargo are here the shared library is called and the Rust binding built.
# The last line says what was tried. Status 0 all well, 1 something fails, 2 a tool or the archive is missing.
set -u
archive=$(realpath -e "${1:?an archive}") || exit 2
source "$(dirname "${BASH_SOURCE[0]}")/../tests/tools.sh"
alone=$(mktemp -d) || exit 2
trap 'rm -rf "$alone"' EXIT

# fail MESSAGE: one line on the error stream, and the end.
fail() {
    echo "release/try.sh: $1" >&2
    exit 1
}
tar -C "$alone" -xzf "$archive" || fail "the archive can't be unpacked"
here=$(echo "$alone"/*)
cd "$here" || exit 2
tried=()

sha256sum --quiet -c SHA256SUMS || fail "the sums differ"
[ "$(find . -type f | wc -l)" -eq $(($(wc -l <SHA256SUMS) + 1)) ] || fail "a file has no sum"
tried+=("$(wc -l <SHA256SUMS) sums")

# named: the words of the README that are a path.
named() { grep -oE '\b(bin|include|lib|libexec|share)/[A-Za-z0-9_./-]*|\b[A-Z]+(\.md)?\b' README.md | sed 's/[.,]$//' | sort -u; }
for path in $(named | grep /) PROVENANCE SHA256SUMS; do
    [ -e "$path" ] || fail "README.md names $path, which isn't there"
done
for page in $(named | grep '\.md$'); do
    [ -e "share/doc/zompelgors/$page" ] || [ -e "$page" ] || fail "README.md names $page, which isn't there"
done

# said FILE LABEL: what a pkg-config file says, with the folder that it lies in put in.
said() { sed -n "s|^$2: ||p" "lib/pkgconfig/$1.pc" | sed "s|\${prefix}|$here/lib/pkgconfig/../..|g"; }
# example NAME PACKAGE..: built with warnings as errors, by what the packages say.
example() {
    local program=$1 package words flags=() libs=()
    shift
    for package; do
        read -r -a words <<<"$(said "$package" Cflags)" && flags+=("${words[@]}")
        read -r -a words <<<"$(said "$package" Libs)" && libs+=("${words[@]}")
    done
    "$CC" -std=c99 -Wall -Wextra -Wconversion -pedantic -Werror -O2 "${flags[@]}" \
        "share/zompelgors/examples/$program.c" "${libs[@]}" -o "$alone/$program" ||
        fail "examples/$program.c can't be built with ${*}"
}
# prints NAME ARGUMENT..: an example writes what its file says, refusals left out.
prints() {
    local program=$1 lines
    shift
    "${run[@]}" "$alone/$program" "$@" >"$alone/out" || fail "$program refuses $*"
    lines=$(wc -l <"$alone/out")
    [ "$lines" -gt 0 ] && cmp -s "$alone/out" <(head -n "$lines" "share/zompelgors/examples/$program.stdout") ||
        fail "$program prints something else"
}
star=share/zompelgors/samples/star.record voxels=share/zompelgors/samples/voxels.record
example unfold zompelgors
prints unfold "$star" 1
example regions zompelgors zompelgors_regions
prints regions "$voxels"
[ ${#run[@]} -eq 0 ] || run+=(-E "LD_LIBRARY_PATH=/usr/x86_64-linux-gnu/lib:$here/lib")
export LD_LIBRARY_PATH=$here/lib
example regions zompelgors_shared
prints regions "$voxels"
example station zompelgors_shared
prints station "$star" "$alone/new.record"
unset LD_LIBRARY_PATH
tried+=("examples, static and shared")

if [ -f libexec/zompelgors/levels ] && { [ ${#run[@]} -eq 0 ] || command -v qemu-x86_64 >/dev/null; }; then
    cmp -s <(libexec/zompelgors/program.sh levels "$star" 2>/dev/null) <(printf '2 12 2\n0 12 36 0\n1 8 28 1\n2 4 24 2\n') ||
        fail "levels prints something else"
    libexec/zompelgors/program.sh convert "$star" 2>/dev/null | cmp -s - "$star" || fail "convert writes something else"
    tried+=("programs")
fi

# The command, with the program convert of the same folder, and its pages.
if [ -x bin/zompelgors ]; then
    office() { (unset ZOMPELGORS_CONVERT && "${run[@]}" bin/zompelgors "$@") || fail "zompelgors $* is refused"; }
    office build share/zompelgors/samples/office/island.pgm -o "$alone/island.record" >"$alone/out"
    office regions "$alone/island.record" --level 2 --json | grep -q '"count":2,' || fail "the island has other regions"
    [ ${#run[@]} -gt 0 ] || [ ! -f libexec/zompelgors/convert ] || office convert "$star" -o "$alone/again.record" >"$alone/out"
    [ ! -f "$alone/again.record" ] || cmp -s "$alone/again.record" "$star" || fail "zompelgors convert writes something else"
    office man | cmp -s - share/man/man1/zompelgors.1 || fail "the man page is another"
    tried+=("the command")
fi
# The module, which finds the library of this folder by itself, and the wheel, which brings its own.
if [ ${#run[@]} -eq 0 ] && command -v python3 >/dev/null; then
    for path in share/zompelgors/python "$alone/wheel"; do
        [ -d "$path" ] || python3 -m zipfile -e share/zompelgors/*.whl "$path" || fail "the wheel can't be unpacked"
        (
            unset ZOMPELGORS_LIBRARY
            PYTHONPATH=$path python3 -Bc 'import sys, zompelgors
assert zompelgors.Pyramid.open(sys.argv[1]).read(2, 0, 7) == (10, 5, 2)' "$star"
        ) || fail "the Python module in $path doesn't answer"
    done
    tried+=("the Python module and the wheel")
fi

# The exported names, by Python where it can load an x86-64 library.
if [ ${#run[@]} -eq 0 ] && command -v python3 >/dev/null; then
    python3 - "$here/lib/libzompelgors.so" "$here"/include/*.h <<'PYTHON' || fail "the shared library can't be called"
import ctypes, re, sys
library = ctypes.CDLL(sys.argv[1])
headers = "".join(open(path).read() for path in sys.argv[2:])
for name in set(re.findall(r"^\w+ (zg_\w+)\(", headers, re.M)) | {"zg_refusal_text"}:
    getattr(library, name)
library.zg_refusal_text.restype = ctypes.c_char_p
assert library.zg_refusal_text(16) == b"the record ends early"
PYTHON
    tried+=("the shared library from Python")
fi
if [ ${#run[@]} -eq 0 ] && command -v cargo >/dev/null; then
    (
        cd share/zompelgors/rust && unset ZOMPELGORS_LIB RUSTFLAGS &&
            CARGO_TARGET_DIR=$alone/cargo cargo build -q --offline --features regions --example unfold
    ) || fail "the Rust binding can't be built"
    "$alone/cargo/debug/examples/unfold" "$star" 1 >"$alone/out" || fail "the Rust example refuses the star"
    cmp -s "$alone/out" <(head -n 3 share/zompelgors/examples/unfold.stdout) || fail "the Rust example prints something else"
    tried+=("Rust")
fi
words=$(printf ', %s' "${tried[@]}")
echo "tried by itself: ${words:2}"
