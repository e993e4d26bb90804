#!/bin/bash
# Ten minutes of inputs mutated from good records, pyramids and combinatorial maps, through every C function.
# tests/README.md says what is done and compared.
#
#   MINUTES   how long, default 10
#   CALLS     so many calls instead; then the same seed makes the same calls
#   SEED      default 1
#   LIB       the library, default target/staticlib/libzompelgors.a; REGIONS the second, beside it
#   BUILD     where the program is built, default target/tests
#   EMULATE   set on x86-64 to do as on other machines: cross compiler and emulator
#
# The status is 0 if all answers are right, 1 if one isn't, 2 if memory is touched that wasn't lent, if a call doesn't
# come back, or if the program can't be built.
set -u
source "$(dirname "$0")/tools.sh"
MINUTES=${MINUTES:-10} CALLS=${CALLS:-} SEED=${SEED:-1} BUILD=${BUILD:-target/tests}

need_compiler
need "${for_cxx[0]}" "$CXX" --version
[ "$LIB" != c ] || need "$binutils" "$OBJCOPY" --version
say_lacking
can "mutated inputs" "${for_cxx[@]}" || exit 2
mkdir -p "$BUILD" || exit 2
library "$BUILD"
build_mutate || exit 2
limit=(--seconds $((60 * MINUTES)))
[ -z "$CALLS" ] || limit=(--calls "$CALLS")
exec "${run[@]}" "$BUILD/mutate" "${limit[@]}" "$SEED" samples/*.record
