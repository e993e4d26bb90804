# What the scripts that build over the library have in common: the tools for x86-64 programs on this machine, and the
# library. To be sourced.
#
# LIB is the library to link, REGIONS the second one; LIB=c puts the plain C of bench/ in their place, to try the tests
# and the C themselves.

root=$(cd "$(dirname "${BASH_SOURCE[0]}")/.." && pwd)
cd "$root" || exit 2
LIB=${LIB:-target/staticlib/libzompelgors.a} REGIONS=${REGIONS:-target/staticlib/libzompelgors_regions.a}

# for_c, for_cxx: the packages that it takes to build a program of that language and run it.
if [ "$(uname -m)" = x86_64 ] && [ -z "${EMULATE:-}" ]; then
    CC=${CC:-gcc} CXX=${CXX:-g++} OBJCOPY=${OBJCOPY:-objcopy} AR=${AR:-ar}
    run=()
    for_c=(gcc libc6-dev) for_cxx=(g++) binutils=binutils
else
    CC=${CC:-x86_64-linux-gnu-gcc} CXX=${CXX:-x86_64-linux-gnu-g++} OBJCOPY=${OBJCOPY:-x86_64-linux-gnu-objcopy}
    AR=${AR:-x86_64-linux-gnu-ar}
    # Programs are dynamic: the cross libm.a names a file by a path that only an x86-64 machine has. The path keeps the
    # loader and the C library of one kind where another x86-64 C library is installed too.
    run=(qemu-x86_64 -L /usr/x86_64-linux-gnu -E LD_LIBRARY_PATH=/usr/x86_64-linux-gnu/lib)
    for_c=(gcc-x86-64-linux-gnu libc6-dev-amd64-cross qemu-user) for_cxx=(g++-x86-64-linux-gnu)
    binutils=binutils-x86-64-linux-gnu
fi
for_cxx+=("${for_c[@]}")
cflags=(-std=c11 -Wall -Wextra -Wno-missing-field-initializers -Iinclude -Itests -Ibench)
cxxflags=(-std=c++17 -Wall -Wextra -Iinclude -Itests)

lacking=() left_out=0 standin=

# need PACKAGE COMMAND..: notes the package if the command fails or isn't there.
need() {
    local package=$1
    shift
    "$@" >/dev/null 2>&1 || lacking+=("$package")
}

# What every program needs: a compiler, a C library to link, and on other machines an emulator.
need_compiler() {
    need "${for_c[0]}" "$CC" --version
    need "${for_c[1]}" links
    [ ${#run[@]} -eq 0 ] || need qemu-user "${run[0]}" --version
}

links() {
    local code=0 program
    program=$(mktemp) || return 1
    echo 'int main(void) { return 0; }' | "$CC" -x c - -o "$program" || code=1
    rm -f "$program"
    return $code
}

# Says at once all that is missing, with the line that installs it; nothing is installed from here.
say_lacking() {
    [ ${#lacking[@]} -gt 0 ] || return
    printf 'missing Debian packages: %s\n    apt-get install %s\n' "${lacking[*]}" "${lacking[*]}" >&2
}

# can TITLE PACKAGE..: whether all packages of a part are here; if not, it is left out by name.
can() {
    local title=$1 package without=()
    shift
    for package; do
        [[ " ${lacking[*]} " != *" $package "* ]] || without+=("$package")
    done
    [ ${#without[@]} -gt 0 ] || return 0
    echo "$title: left out, it needs ${without[*]}"
    left_out=$((left_out + 1))
    return 1
}

# library DIRECTORY: makes sure that there are both libraries to link, and sets LIBS to them; standin says that they are
# the plain C.
library() {
    if [ "$LIB" = c ]; then
        local job rename=()
        for job in version check_base check add marks_of read read_by_levels unfold unfold_all row survivors mark_cells take \
            write decimation census import export regions join rebase; do
            rename+=(--redefine-sym "plain_$job=zg_$job")
        done
        "$CC" "${cflags[@]}" -O3 -fPIC -c bench/plain.c -o "$1/standin.o" || exit 2
        # What else it has stays its own: the bench links the plain C beside it.
        "$OBJCOPY" "${rename[@]}" "$1/standin.o" || exit 2
        "$OBJCOPY" -w --keep-global-symbol='zg_*' --localize-symbol=zg_regions "$1/standin.o" "$1/first.o" || exit 2
        "$OBJCOPY" --keep-global-symbol=zg_regions "$1/standin.o" "$1/second.o" || exit 2
        LIB=$1/standin/libzompelgors.a REGIONS=$1/standin/libzompelgors_regions.a
        rm -rf "$1/standin" && mkdir "$1/standin" || exit 2
        "$AR" rcsD "$LIB" "$1/first.o" && "$AR" rcsD "$REGIONS" "$1/second.o" || exit 2
        LIBS=("$LIB" "$REGIONS") standin=yes
        echo "the plain C of bench/ stands in the library's place"
        return
    fi
    LIBS=("$LIB" "$REGIONS")
    local archive
    for archive in "${LIBS[@]}"; do
        [ ! -f "$archive" ] || continue
        echo "there is no $archive; './build.sh zompelgors zompelgors_regions' makes both" >&2
        exit 2
    done
}

# The calls between guards, and what is linked with them into BUILD.
build_call() { "$CC" "${cflags[@]}" -O2 -c tests/call.c -o "$BUILD/call.o"; }
build_mutate() {
    build_call && "$CXX" "${cxxflags[@]}" -O2 tests/mutate.cpp "$BUILD/call.o" "${LIBS[@]}" -o "$BUILD/mutate"
}
