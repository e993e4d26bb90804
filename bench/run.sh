#!/bin/bash
# Counts the x86-64 instructions that each job takes, in the library and in plain C at gcc -O3, in one run.
#
#   LIB    the library, default target/staticlib/libzompelgors.a; REGIONS the second, beside it
#   BUILD  where the programs are built, default target/bench
#   CPU    the processor that is emulated, default qemu64
#   JOBS   the jobs to measure, default all; MAPS the maps, default all
#   PLOTS  where the plots go, default docs/figures if everything is measured, and nowhere else; empty: no plots
#
# Each figure is a run with one repetition less a run with none, so that setting up isn't in it. All buffers are
# written before: they were cleared once, and no page is touched for the first time while instructions are counted.
# qemu64 has no fast 'rep movsb', which the C library would use for large copies and the plug-in counts byte by byte.
#
# The status is 0 if every ratio is within its target, 1 if one is over it, 2 if a tool or the library is missing.
set -u
source "$(dirname "$0")/../tests/tools.sh"
BUILD=${BUILD:-target/bench} CPU=${CPU:-qemu64}
[ -n "${JOBS:-}${MAPS:-}" ] || [ "$LIB" = c ] || PLOTS=${PLOTS-docs/figures}
PLOTS=${PLOTS:-}
maps=${MAPS:-"grid2 grid3 path32 grid4 strip voxels both1 both2 both3 both4 cycle vertex"}
jobs=${JOBS:-"check add unfold read bylevels mark take write regions rebase survivors decimation census import export join base marks row unfoldall"}

need_compiler
[ "$LIB" != c ] || need "$binutils" "$OBJCOPY" --version
[ "$CC" = gcc ] || need gcc gcc --version # of this machine, for the plug-in
[ ${#run[@]} -gt 0 ] || need qemu-user qemu-x86_64 --version
[ -z "$PLOTS" ] || need python3 python3 --version
say_lacking
[ ${#lacking[@]} -eq 0 ] || exit 2
rm -rf "$BUILD/counts" && mkdir -p "$BUILD/counts" || exit 2
library "$BUILD"

# The C library comes before the library measured: should that bring a memcpy of its own, both use the same one. The
# program is static, so that no call of memset looks for it while instructions are counted; it takes nothing of libm.
build() {
    local part
    gcc -O2 -shared -fPIC -o "$BUILD/libinsn.so" bench/insn.c || return 1
    for part in bench maps plain; do
        "$CC" "${cflags[@]}" -std=gnu11 -O3 -c "bench/$part.c" -o "$BUILD/$part.o" || return 1
    done
    "$CC" -static "$BUILD/bench.o" "$BUILD/maps.o" "$BUILD/plain.o" -lc "${LIBS[@]}" -o "$BUILD/bench" || return 1
    "$CC" "${cflags[@]}" -std=gnu11 -O3 bench/reads.c "$BUILD/maps.o" "$BUILD/plain.o" -o "$BUILD/reads" || return 1
    "$CC" "${cflags[@]}" -std=gnu11 -O3 bench/levels.c "$BUILD/maps.o" "$BUILD/plain.o" "${LIBS[@]}" -o "$BUILD/levels"
}
build || exit 2

# instructions IMPLEMENTATION JOB MAP REPEAT; what the program says (n, N, h, base reads) goes to a file.
instructions() {
    local out facts=$BUILD/counts/$2.$3.facts
    if ! out=$(qemu-x86_64 -cpu "$CPU" -plugin "$BUILD/libinsn.so" "$BUILD/bench" "$@" 2>&1 >"$facts"); then
        echo "bench $* failed: $out" >&2
        return 1
    fi
    echo "${out##*instructions }"
}

# count IMPLEMENTATION JOB MAP: of one repetition; counted once.
count() {
    local with without kept=$BUILD/counts/$1.$2.$3
    if [ ! -f "$kept" ]; then
        with=$(instructions "$@" 1) && without=$(instructions "$@" 0) || return 1
        echo $((with - without)) >"$kept"
    fi
    cat "$kept"
}

# own IMPLEMENTATION JOB MAP: what a job takes itself; a taking ends with a check, a writing, a decimation, a census,
# naming regions and starting again begin with one, which is counted by itself.
own() {
    local all check=0
    all=$(count "$@") || return 1
    case $2 in take | write | decimation | census | regions | rebase) check=$(count "$1" check "$3") || return 1 ;; esac
    echo $((all - check))
}

# line LIBRARY C READS LIMIT: instructions, for each read, ratio, and whether it is over its target; that is the status.
line() {
    awk -v a="$1" -v c="$2" -v reads="$3" -v most="$4" 'BEGIN {
        printf "%12d %12d", a, c
        if (reads > 0) printf " %10d %8.2f %8.2f", reads, a / reads, c / reads
        else printf " %10s %8s %8s", "-", "-", "-"
        over = a > most * c
        printf " %7.3f %5.2f%s\n", a / c, most, over ? "  over" : ""
        exit over
    }'
}

# limit JOB: the target. The C takes the fastest way that was found for each job, whichever way the library takes.
limit() {
    case $1 in
    check | add | unfold | base) echo 1.05 ;;
    read) echo 1.00 ;;
    census | unfoldall) echo 1.30 ;;
    *) echo 1.15 ;;
    esac
}

echo "x86-64 instructions, $("$CC" --version | head -n 1), -O3; $(qemu-x86_64 --version | head -n 1), -cpu $CPU"
echo "buffers cleared once before counting"
echo
over=0
columns='%-10s %-22s %12s %12s %10s %8s %8s'
printf "$columns %7s %5s\n" job "map (n, N, h)" library C "base reads" "lib/read" "C/read" ratio most
for job in $jobs; do
    for map in $maps; do
        # regions have names only where nothing is contracted
        [[ $job/$map != regions/both* ]] || continue
        lib=$(own library "$job" "$map") && c=$(own c "$job" "$map") || exit 2
        read -r n darts h reads <"$BUILD/counts/$job.$map.facts"
        printf '%-10s %-22s ' "$job" "$map ($n, $darts, $h)"
        line "$lib" "$c" "$reads" "$(limit "$job")" || over=$((over + 1))
    done
done

echo
echo "readings by levels in C that go level by level (those above pass at once over levels without a change)"
for map in $maps; do
    c=$(count stepwise bylevels "$map") || exit 2
    read -r n darts h reads <"$BUILD/counts/bylevels.$map.facts"
    each=$(awk -v c="$c" -v reads="$reads" 'BEGIN { printf "%.2f", c / reads }')
    printf "$columns\n" bylevels "$map ($n, $darts, $h)" "" "$c" "$reads" "" "$each"
done

echo
echo "growth: instructions for each dart, library (C)"
printf '%-8s %-8s %20s %20s %20s %20s\n' job map 512 1024 2048 4096
for job in check unfold mark import export regions rebase; do
    for map in grid2 path32 strip vertex; do
        [[ $job != *port || $map = grid2 ]] || continue # only their size is of the map
        printf '%-8s %-8s' "$job" "$map"
        for size in -512 -1024 -2048 ""; do
            lib=$(own library "$job" "$map$size") && c=$(own c "$job" "$map$size") || exit 2
            read -r n darts h reads <"$BUILD/counts/$job.$map$size.facts"
            awk -v a="$lib" -v c="$c" -v d="$darts" 'BEGIN { printf " %20s", sprintf("%.1f (%.1f)", a / d, c / d) }'
        done
        echo
    done
done

echo
echo "table entries read by the walks of all kernels, links followed from both ends and once; others that relinking reads"
"${run[@]}" "$BUILD/reads" $maps || exit 2

# plots: what they are drawn from, by darts and by kernels, and each level's survivors and reads.
measured() {
    local job map lib c n darts h reads
    echo "# bench/run.sh wrote this: $("$CC" --version | head -n 1), -O3; $(qemu-x86_64 --version | head -n 1), -cpu $CPU"
    for job in $jobs; do
        for map in grid2-512 grid2-1024 grid2-2048 grid2 tall1 tall2 tall4 tall8 tall16 tall32; do
            lib=$(own library "$job" "$map") && c=$(own c "$job" "$map") || return 1
            read -r n darts h reads <"$BUILD/counts/$job.$map.facts"
            echo "instructions $job $map $n $darts $h $lib $c"
        done
    done
    "${run[@]}" "$BUILD/levels" grid2 grid3 grid4 path32 voxels both3 tall32
}
if [ -n "$PLOTS" ]; then
    measured >"$BUILD/measured.txt" || exit 2
    mkdir -p "$PLOTS" && cp "$BUILD/measured.txt" "$PLOTS" && python3 docs/figures/draw.py --plots "$PLOTS" || exit 2
    echo
    echo "plots of ${PLOTS}/measured.txt: $(cd "$PLOTS" && echo plot-*.svg)"
fi

echo
echo "$over ratios over their target"
[ $over -eq 0 ]
