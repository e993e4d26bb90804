#!/bin/bash
# Proves and builds what others link and run, under target/; --help says what. A later run proves what changed.
set -u

usage() {
    cat <<'USAGE'
build.sh [NAME..]

Proves and builds, all of these or those that are named:

  zompelgors, zompelgors_regions    the archives target/staticlib/libNAME.a, by rt lib of the crate NAME_c
  levels, census, convert, edges    the programs target/bin/NAME, by rt run of the crate, on an empty input

All for any x86-64 processor.

What rt says goes to the error stream.

Status: 0 built, 1 something isn't proved or built, 2 no such name, or no command rt.
USAGE
}

names=(zompelgors zompelgors_regions levels census convert edges)
for name; do
    case $name in
    -h | --help)
        usage
        exit 0
        ;;
    esac
    [[ " ${names[*]} " == *" $name "* ]] && continue
    echo "build.sh: there is no '$name' to build (--help)" >&2
    exit 2
done
[ $# -eq 0 ] || names=("$@")
cd "$(dirname "${BASH_SOURCE[0]}")" || exit 2
command -v rt >/dev/null || {
    echo "build.sh: the toolchain's command rt is not here" >&2
    exit 2
}
mkdir -p target/staticlib target/bin || exit 2
# Code for every x86-64 processor: rt's default is a later one, and a static library doesn't look what it runs on.
cpu=x86-64

# put FROM TO: copied beside its place and moved there, so that what is there is whole, or of an earlier run.
put() { cp "$1" "$2.new" && mv "$2.new" "$2"; }
for name in "${names[@]}"; do
    case $name in
    zompelgors*)
        (cd "crates/${name}_c" && rt lib --cpu $cpu) >&2 && put "crates/${name}_c/out/lib${name}_c.a" "target/staticlib/lib$name.a"
        ;;
    *)
        (cd "crates/$name" && rt run --cpu $cpu </dev/null >/dev/null) >&2 && put "crates/$name/out/$name" "target/bin/$name"
        ;;
    esac || {
        echo "build.sh: $name isn't proved or built" >&2
        exit 1
    }
done
