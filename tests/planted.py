#!/usr/bin/env python3
"""Tries tests/interface.py: a copy of what it reads is made, a fault is planted in it, and the script must say so; one
fault after the other. The copy without a fault must pass.

The last line counts the faults. Status 0 if each is found.
"""
import shutil
import subprocess
import sys
import tempfile
from pathlib import Path

ROOT = Path(__file__).resolve().parent.parent
C, REGIONS, RUST = "include/zompelgors.h", "include/zompelgors_regions.h", "rust/src/raw.rs"
STRUCT, SOURCE, ANSWERS = "include/zompelgors_pyramid.h", "crates/zompelgors_c/src/lib.rt", "crates/interface/src/lib.rt"
LIBRARY, NAMES = "crates/zompelgors/src/lib.rt", "crates/zompelgors_regions_c/src/lib.rt"
# (file, the function or struct in which it is planted, what stands there, what is put there)
FAULTS = [
    (C, "zg_refusal zg_check(", "const uint8_t *lambda", "uint8_t *lambda"),
    (C, "zg_height zg_add(", "uint8_t *delta", "const uint8_t *delta"),
    (C, "zg_link zg_read(", "uint16_t dart", "uint8_t dart"),
    (C, "zg_count zg_survivors(", "size_t words_len", "uint32_t words_len"),
    (C, "zg_unfolding zg_unfold(", "const uint8_t *lambda, size_t lambda_len, const uint8_t *delta, size_t delta_len", "const uint8_t *delta, size_t delta_len, const uint8_t *lambda, size_t lambda_len"),
    (C, "zg_factor zg_decimation(", "uint16_t *table, size_t table_len, uint8_t level", "uint8_t level, uint16_t *table, size_t table_len"),
    (C, "zg_link zg_read(", "zg_link zg_read(", "zg_reading zg_read("),
    (C, "zg_refusal zg_census(", "int32_t *sums", "uint32_t *sums"),
    (C, "uint8_t unfolded;", "uint16_t start, length;", "uint32_t start, length;"),
    (C, "uint8_t n, h;", "uint8_t n, h;", "uint8_t h, n;"),
    (C, "zg_base zg_rebase(", "zg_rebase(", "zg_restart("),
    (C, " * Checks a whole pyramid", "HEIGHT, ", ""),
    (C, " * Checks a base", "LENGTH, ", "LENGTH, FULL, "),
    (C, " * The survivor words of a level", " * After a check: LENGTH of words, NO_LEVEL.\n", ""),
    (C, " * Unfolds a whole level", "LENGTH of table, NO_LEVEL.", "LENGTH of table, NO_LEVEL, FULL."),
    (REGIONS, "zg_refusal zg_regions(", "uint16_t *names", "uint8_t *names"),
    (STRUCT, "zg_factor zg_pyramid_decimation(", "return zg_decimation(", "return zg_decimate("),
    (RUST, "pub fn zg_check(", "rows: *const u16", "rows: *mut u16"),
    (RUST, "pub fn zg_census(", "sums: *mut i32", "sums: *mut u32"),
    (RUST, "pub fn zg_take(", "bytes_len: usize", "bytes_len: u32"),
    (RUST, "pub fn zg_row(", "-> ZgPart", "-> ZgBase"),
    (RUST, "ZgFactor {", "factor: f64", "factor: f32"),
    (RUST, "ZgRecord {", "n: u8, h: u8", "h: u8, n: u8"),
    (RUST, '#[cfg(feature = "regions")]', '#[cfg(feature = "regions")]', ""),
    (RUST, "pub fn zg_export(", "zg_export", "zg_exports"),
    (SOURCE, "fn zg_survivors(", "&mut [u64]", "&mut [u32]"),
    (SOURCE, "fn zg_check_base(", "rows: &[u16]", "rows: &mut [u16]"),
    (SOURCE, "fn zg_join(", "join_leaves", "join_lambda"),
    (SOURCE, "fn zg_decimation(", "table, level)", "table, h)"),
    (LIBRARY, "fn zg_unfold(", "ensures table_left", "ensures rest_left"),
    (LIBRARY, "fn zg_import(", "m: u16", "m: u32"),
    (NAMES, "fn zg_regions(", "zompelgors_regions::zg_regions(n, darts, h,", "zompelgors_regions::zg_regions(h, darts, n,"),
    (ANSWERS, "pub struct ZgLink", "pub since: u8", "pub since: u16"),
]


def copied(to):
    (to / "tests").mkdir()
    for path in [C, REGIONS, RUST, STRUCT, "tests/pyramid.c", *(p.relative_to(ROOT) for p in (ROOT / "crates").glob("*/src/*.rt"))]:
        (to / path).parent.mkdir(parents=True, exist_ok=True)
        shutil.copy(ROOT / path, to / path)
    (to / "tests" / "vectors").symlink_to(ROOT / "tests" / "vectors")


def passes(folder):
    return subprocess.run([sys.executable, ROOT / "tests" / "interface.py", folder], capture_output=True).returncode == 0


def planted(folder, path, place, old, new):
    """Whether the script notices the fault; the file is as before then."""
    file = folder / path
    whole = file.read_text()
    before, found, after = whole.partition(place)
    after = found + after
    if not found or old not in after:
        sys.exit(f"{path} has no place for the fault '{new}' behind '{place}'")
    file.write_text(before + after.replace(old, new, 1))
    noticed = not passes(folder)
    file.write_text(whole)
    return noticed


if __name__ == "__main__":
    with tempfile.TemporaryDirectory() as name:
        folder = Path(name)
        copied(folder)
        missed = [] if passes(folder) else ["it fails without a fault"]
        missed += [f"not noticed in {fault[0]}: {fault[3] or 'nothing'} for {fault[2]}" for fault in FAULTS if not planted(folder, *fault)]
    print("\n".join(missed + [f"{len(FAULTS)} faults planted, {len(missed)} not noticed"]))
    sys.exit(1 if missed else 0)
