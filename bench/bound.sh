#!/bin/bash
# Holds the archives to loops.table, looks for dear inputs of every job for some time, holds each call to its bound and to
# every line of the table, and prints docs/BUDGETS.md:
#
#   bench/bound.sh >docs/BUDGETS.md
#
#   LIB      the library, default target/staticlib/libzompelgors.a; REGIONS the second, beside it
#   BUILD    where the programs are built, default target/bound
#   CPU      the processor that is emulated, default qemu64
#   SEED     of the random inputs, default 1; CASES how many of them for each job, on average, default 500
#   TREE     the tree of git that the archives are of, default that of crates/ as it is committed
#   TIME     seconds of processor time for the search, default 300: half of it at most for known inputs, a fifth for
#            random ones, the rest for a climb from the dearest
#
# What the search printed stays in BUILD/found. The status is 0 if nothing was wrong, 1 if the archives' code isn't that of
# the table, a loop has no line, a call is over its bound or breaks a line, 2 if a tool or the library is missing.
set -u
source "$(dirname "$0")/../tests/tools.sh"
BUILD=${BUILD:-target/bound} CPU=${CPU:-qemu64} SEED=${SEED:-1} CASES=${CASES:-500} TIME=${TIME:-300}

need_compiler
need "${for_cxx[0]}" "$CXX" --version
need python3 python3 --version
[ "$CC" = gcc ] || need gcc gcc --version # of this machine, for the plug-in
[ ${#run[@]} -gt 0 ] || need qemu-user qemu-x86_64 --version
say_lacking
[ ${#lacking[@]} -eq 0 ] || exit 2
mkdir -p "$BUILD" || exit 2
library "$BUILD"
[ ${#run[@]} -gt 0 ] || run=(qemu-x86_64)
bound=(python3 -B bench/bound/bound.py --archives "${LIBS[@]}")

# Names are bound at the start, so that no call of memset looks for it while instructions are counted; the program lies
# where the linker puts it, so that the blocks' addresses are known.
build() {
    local part
    gcc -O2 -shared -fPIC -o "$BUILD/libedges.so" bench/bound/edges.c || return 1
    for part in maps plain; do
        "$CC" "${cflags[@]}" -std=gnu11 -O3 -c "bench/$part.c" -o "$BUILD/$part.o" || return 1
    done
    "$CC" "${cflags[@]}" -std=gnu11 -O2 -include bench/counted.h -c tests/call.c -o "$BUILD/call.o" || return 1
    "$CXX" "${cxxflags[@]}" -Ibench -Ibench/bound -O2 -no-pie -Wl,-z,now bench/bound/search.cpp \
        "$BUILD"/{call,maps,plain}.o "${LIBS[@]}" -o "$BUILD/search"
}

if ! "${bound[@]}" check >"$BUILD/bounds"; then
    cat "$BUILD/bounds" >&2
    exit 1
fi
build && "${bound[@]}" plan "$BUILD/search" "$BUILD/blocks" "$BUILD/plan" || exit 2
"${run[@]}" -cpu "$CPU" -plugin "$BUILD/libedges.so,blocks=$BUILD/blocks" "$BUILD/search" "$BUILD/plan" "$SEED" "$CASES" \
    "$TIME" >"$BUILD/found"
code=$?
if [ $code -ne 0 ]; then
    grep '^wrong' "$BUILD/found" | head -n 20 >&2
    exit $code
fi
for archive in "${LIBS[@]}"; do
    python3 tests/stack.py "$archive" || exit 2
done >"$BUILD/stacks"
"${bound[@]}" page "$BUILD/found" "$BUILD/stacks" \
    "seed $SEED, at most $CASES random inputs for each job, $TIME seconds of processor time, $(qemu-x86_64 --version | head -n 1), -cpu $CPU" \
    "${TREE:-$(git rev-parse --short=12 HEAD:crates)}"
