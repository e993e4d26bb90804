#!/bin/bash
# Makes the release, one archive that can be traced and made again, and tries it in a folder of its own; --help says how.
set -u

usage() {
    cat <<'USAGE'
./release.sh [--gate FILE] [--install PREFIX]
./release.sh --trial FOLDER [--gate FILE] [--install PREFIX]

Makes target/release/zompelgors-VERSION.tar.gz and the sum of it beside it, and tries it. The two libraries come from
rt lib and the programs from rt run, in this run (build.sh); the command zompelgors comes from cargo, the Python wheel
from python/backend.py. Header, rust/Cargo.toml, rust/cli/Cargo.toml, python/zompelgors/__init__.py and the newest entry of
docs/LANDINGS.md must name one version.

  --trial FOLDER    packs the libraries that lie in the folder, and the programs of target/bin that there are, whoever
                    made them; without cargo and its crates, no command. It is called zompelgors-VERSION-trial, and its
                    PROVENANCE says so
  --gate FILE       what the gate printed. Its last line goes into PROVENANCE if the log names the commit, as in
                    (git rev-parse HEAD; .ci/run) 2>&1 | tee gate.log
  --install PREFIX  puts bin/, include/, lib/, libexec/ and share/ under PREFIX too

Files are in a fixed order, of one owner, and as old as the commit, so that two runs give the same bytes. It is tried by
unpacking it into a folder of its own and building and running what is there against what it holds alone
(release/try.sh).

Status: 0 made, 1 something differs or fails, 2 something is missing or the call is wrong.
USAGE
}

# stop STATUS MESSAGE: one line on the error stream, and the end.
stop() {
    echo "release.sh: $2" >&2
    exit "$1"
}

trial='' gate='' prefix=''
while [ $# -gt 0 ]; do
    case $1 in
    -h | --help)
        usage
        exit 0
        ;;
    --trial | --gate | --install)
        [ $# -ge 2 ] && [ -n "$2" ] || stop 2 "$1 takes a name (--help)"
        case $1 in
        --trial) trial=$(cd "$2" 2>/dev/null && pwd) || stop 2 "there is no folder $2" ;;
        --gate) gate=$(realpath -e "$2" 2>/dev/null) || stop 2 "there is no file $2" ;;
        --install) mkdir -p "$2" && prefix=$(cd "$2" && pwd) || stop 2 "$2 can't be made" ;;
        esac
        shift 2
        ;;
    *) stop 2 "no such option: '$1' (--help)" ;;
    esac
done
# What is packed is told by the call and never by a variable.
unset LIB REGIONS
source "$(dirname "${BASH_SOURCE[0]}")/tests/tools.sh"
need_compiler
say_lacking
[ ${#lacking[@]} -eq 0 ] || exit 2

# ---------------------------------------------------------------- one version

part() { sed -n "s/^#define ZG_VERSION_$1 //p" include/zompelgors.h; }
major=$(part MAJOR) version=$(part MAJOR).$(part MINOR).$(part PATCH)
cargo=$(sed -n 's/^version = "\(.*\)"/\1/p' rust/Cargo.toml | head -n 1)
landed=$(sed -n 's/^## .* Version \([0-9.]*\) of the C interface$/\1/p' docs/LANDINGS.md | head -n 1)
[ "$cargo" = "$version" ] || stop 1 "the header is $version, rust/Cargo.toml $cargo"
[ "$landed" = "$version" ] || stop 1 "the header is $version, the newest entry of docs/LANDINGS.md $landed"
for tool in rust/cli/Cargo.toml python/zompelgors/__init__.py; do
    grep -q "^\(__version__\|version\) = \"$version\"" $tool || stop 1 "the header is $version, and $tool isn't"
done
commit=$(git rev-parse HEAD 2>/dev/null) && epoch=$(git log -1 --format=%ct) || stop 2 "this is no clone of git"

# ---------------------------------------------------------------- libraries and programs

made=$root/target/release programs=(levels census convert)
if [ -n "$trial" ]; then
    name=zompelgors-$version-trial libraries=$trial
    rm -f "$made/$name".tar.gz*
    for archive in zompelgors zompelgors_regions; do
        [ -f "$trial/lib$archive.a" ] || stop 2 "there is no $trial/lib$archive.a"
    done
else
    name=zompelgors-$version libraries=$root/target/staticlib
    rm -f "$made/$name".tar.gz* # of an earlier run, which nobody shall take for this one's
    command -v rt >/dev/null || stop 2 "the toolchain's command rt is not here"
    rm -f "$libraries"/libzompelgors.a "$libraries"/libzompelgors_regions.a "${programs[@]/#/target/bin/}"
    ./build.sh zompelgors zompelgors_regions "${programs[@]}" ||
        stop 1 "something isn't proved"
fi

# ---------------------------------------------------------------- what goes where

tree=$made/$name
rm -rf "$tree" &&
    mkdir -p "$tree"/{include,lib/pkgconfig,libexec/zompelgors,share/doc/zompelgors,share/zompelgors/{rust/cli,python}} || exit 2
# copy FOLDER FILE..: files or folders, whole.
copy() {
    local to=$tree/$1
    shift
    cp -r "$@" "$to" || stop 2 "$to can't be written"
}
copy include include/*.h
copy lib "$libraries/libzompelgors.a" "$libraries/libzompelgors_regions.a"
copy share/doc/zompelgors docs/SCOPE.md docs/INTEGRATING.md docs/BUDGETS.md docs/LANDINGS.md docs/OFFICE.md
# What bounds the loops, with the addresses of these archives; docs/BUDGETS.md must be of the same.
facts=(python3 -B bench/bound/bound.py --archives "$libraries/libzompelgors.a" "$libraries/libzompelgors_regions.a")
if "${facts[@]}" check >"$made/bounds.txt" 2>&1; then
    "${facts[@]}" facts >"$tree/share/doc/zompelgors/flow-facts.txt" || stop 1 "flow facts can't be written"
else
    [ -n "$trial" ] || stop 1 "docs/BUDGETS.md is of other machine code (bench/bound/bound.py check)"
    echo "release.sh: the trial has no flow facts, since the libraries' code isn't that of bench/bound/loops.table" >&2
fi
copy share/zompelgors examples samples
copy share/zompelgors/rust rust/Cargo.toml rust/build.rs rust/README.md rust/src rust/examples
copy share/zompelgors/rust/cli rust/cli/Cargo.toml rust/cli/debian.toml rust/cli/src
copy share/zompelgors/python python/pyproject.toml python/backend.py
mkdir -p "$tree/share/zompelgors/python/zompelgors" && copy share/zompelgors/python/zompelgors python/zompelgors/*.py \
    python/zompelgors/py.typed
copy libexec/zompelgors program.sh
for program in "${programs[@]}"; do
    if [ -f "target/bin/$program" ]; then
        copy libexec/zompelgors "target/bin/$program"
    else
        [ -n "$trial" ] || stop 1 "build.sh made no target/bin/$program"
        echo "release.sh: the trial has no program $program, since there is no target/bin/$program" >&2
    fi
done
sed "s/@VERSION@/$version/" release/README.md >"$tree/README.md"

# The shared library: the archives whole, and the header's text as a function.
shared=libzompelgors.so
"$CC" -std=c99 -O2 -fPIC -Iinclude -shared -Wl,-soname,$shared."$major" -Wl,--version-script=release/symbols.map \
    -Wl,-z,noexecstack -Wl,-z,relro -Wl,-z,now -Wl,-z,defs -Wl,--build-id=none release/text.c \
    -Wl,--whole-archive "$tree/lib/libzompelgors.a" "$tree/lib/libzompelgors_regions.a" -Wl,--no-whole-archive \
    -o "$tree/lib/$shared.$version" || stop 1 "the shared library can't be linked"
ln -s $shared."$version" "$tree/lib/$shared.$major" && ln -s $shared."$major" "$tree/lib/$shared" || exit 2

# ---------------------------------------------------------------- the office's command, and the wheel

# The crates as Debian packages them where they are installed, else those of the registry.
crates=(--config rust/cli/debian.toml --offline)
compgen -G '/usr/share/cargo/registry/clap-4*' >/dev/null || crates=()
# command_made: bin/zompelgors, its man page and its completion. It is made of a copy in one place, since cargo lets the
# folder into the bytes.
command_made() {
    local target=x86_64-unknown-linux-gnu place=/var/tmp/zompelgors-$version-command made=$made/cargo
    command -v cargo >/dev/null && [ -d "$(rustc --print target-libdir --target $target)" ] || return 1
    rm -rf "$place" && mkdir "$place" && cp -rp rust "$place" && rm -rf "$place/rust/target" "$place/rust/cli/target" || return 1
    (
        unset RUSTFLAGS
        export ZOMPELGORS_LIB=$tree/lib CARGO_TARGET_DIR=$made CARGO_TARGET_X86_64_UNKNOWN_LINUX_GNU_LINKER=$CC
        cd "$place" && cargo build -q --release --manifest-path rust/cli/Cargo.toml "${crates[@]}" --target $target
    ) && rm -rf "$place" && mkdir -p "$tree"/{bin,share/man/man1,share/bash-completion/completions} &&
        cp "$made/$target/release/zompelgors" "$tree/bin" || return 1
    "${run[@]}" "$tree/bin/zompelgors" man >"$tree/share/man/man1/zompelgors.1" &&
        "${run[@]}" "$tree/bin/zompelgors" completion >"$tree/share/bash-completion/completions/zompelgors"
}
if ! command_made; then
    [ -n "$trial" ] || stop 1 "the command zompelgors can't be made (cargo, librust-clap-dev, librust-serde-json-dev)"
    echo "release.sh: the trial has no command zompelgors, since it can't be made here" >&2
    sed -i '/bin\/zompelgors/d' "$tree/README.md"
fi
if command -v python3 >/dev/null; then
    env -u ZOMPELGORS_LIBRARY -u ZOMPELGORS_CONVERT python3 -B "$tree/share/zompelgors/python/backend.py" \
        "$tree/share/zompelgors" >/dev/null || stop 1 "the wheel can't be made"
else
    [ -n "$trial" ] || stop 2 "python3 is not here"
    echo "release.sh: the trial has no wheel, since python3 isn't here" >&2
fi

# package FILE DESCRIPTION LIBS: where it lies is told from the file's own place.
package() {
    cat >"$tree/lib/pkgconfig/$1.pc" <<PACKAGE
prefix=\${pcfiledir}/../..
Name: $1
Description: $2
Version: $version
Cflags: -I\${prefix}/include
Libs: $3
PACKAGE
}
# By their paths, since beside a shared library of that name -l would take the shared one.
package zompelgors "pyramids of generalized maps in folded form" "\${prefix}/lib/libzompelgors.a"
package zompelgors_regions "region names of pyramids of generalized maps" "\${prefix}/lib/libzompelgors_regions.a"
package zompelgors_shared "both, as a shared library" "-L\${prefix}/lib -lzompelgors"

# ---------------------------------------------------------------- where it is from

# first COMMAND..: its first line.
first() { "$@" 2>/dev/null | head -n 1; }
# gate_seen: the last line of a log that names this commit.
gate_seen() {
    if [ -n "$gate" ] && grep -q "$commit" "$gate"; then
        grep -a . "$gate" | tail -n 1
    else
        [ -z "$gate" ] || echo "release.sh: $gate doesn't name the commit $commit" >&2
        echo "no gate seen"
    fi
}
# command_origin: of bin/zompelgors.
command_origin() {
    [ -f "$tree/bin/zompelgors" ] || { echo "none" && return; }
    echo "bin/zompelgors, by $(first rustc --version), over the libraries; it isn't proved"
}
provenance() {
    local changes origin
    changes=$(git status --porcelain | wc -l)
    [ "$changes" -eq 0 ] && changes="as committed" || changes="with changes to $changes files that are not committed"
    origin="by rt lib and rt run in the run that made this release, on $(uname -m)"
    [ -z "$trial" ] || origin="a trial: as they lay in a folder. Who made them isn't known, and nothing is said of their proof"
    cat <<PROVENANCE
Zompelgors $version

commit      $commit
tree        $changes
toolchain   $(command -v rt >/dev/null && rt version || echo "not here")
libraries   $origin
compiler    $(first "$CC" --version), for lib/$shared alone
linker      $(first "$CC" -Wl,--version)
command     $(command_origin)
gate        $(gate_seen)

The gate proves every crate from nothing, tries each wrong program and runs the programs. Two runs of release.sh on one
machine give the same bytes, from two folders too. Whether another machine makes the same libraries isn't known: compare
SHA256SUMS.
PROVENANCE
}
provenance >"$tree/PROVENANCE"
(cd "$tree" && find . -type f ! -name SHA256SUMS -printf '%P\n' | LC_ALL=C sort | xargs -d '\n' sha256sum) \
    >"$made/SHA256SUMS" && mv "$made/SHA256SUMS" "$tree" || exit 2

# ---------------------------------------------------------------- packed, and tried by itself

tar -C "$made" --sort=name --mtime="@$epoch" --owner=0 --group=0 --numeric-owner --mode=u=rwX,go=rX --format=gnu \
    -cf "$made/$name.tar" "$name" && gzip -nf9 "$made/$name.tar" || exit 2
(cd "$made" && sha256sum "$name.tar.gz" >"$name.tar.gz.sha256") || exit 2
if ! release/try.sh "$made/$name.tar.gz"; then
    rm -f "$made/$name".tar.gz*
    stop 1 "target/release/$name fails by itself"
fi
echo "target/release/$name.tar.gz: $(tar -tzf "$made/$name.tar.gz" | grep -vc '/$') files, $(cut -c 1-16 "$made/$name.tar.gz.sha256").."

if [ -n "$prefix" ]; then
    [ ! -d "$tree/bin" ] || cp -r "$tree/bin" "$prefix" || stop 1 "$prefix can't be written"
    cp -r "$tree"/{include,lib,libexec,share} "$prefix" &&
        cp "$tree"/{README.md,PROVENANCE,SHA256SUMS} "$prefix/share/doc/zompelgors" || stop 1 "$prefix can't be written"
    echo "installed under $prefix"
fi
