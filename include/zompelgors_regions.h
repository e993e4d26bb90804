/*
 * Region names: a second library above zompelgors, for pyramids without contraction.
 *
 * Link target/staticlib/libzompelgors_regions.a (./build.sh zompelgors_regions), beside libzompelgors.a or without
 * it: each has all that it needs, and they share no name. zompelgors.h says how memory is lent, what is returned and
 * how refusals are named; all of that holds here. zg_regions takes about 16 KiB of stack.
 */
#ifndef ZOMPELGORS_REGIONS_H
#define ZOMPELGORS_REGIONS_H

#include "zompelgors.h"

#ifdef __cplusplus
extern "C" {
#endif

/*
 * Names the regions of a level. Lent to read: rows, (n+1)N; lambda, N; delta, N. Lent to write: table, (n+1)N; names,
 * N.
 * Accepted: names hold for every dart of the base, removed ones too, the lowest dart that it reaches in the base by a0
 * to a(n-1), and by an from darts with Lambda below level and Delta = n-1. Two survivors in one n-cell of the level
 * have one name; darts of one name may lie in several n-cells of it, since a region may have several boundaries. Names
 * of the next level join names of this one and never part them. table holds the explicit level h.
 * Starting again (zg_rebase) forgets which boundaries belong to one region: names are taken first and carried over by
 * the old numbers, names[old[d]] for dart d of the new base.
 * Refused DIMENSION, DARTS, HEIGHT, LENGTH (of names too), STRAYS, NOT_TWICE, NOT_COMMUTING, MARKS, NOT_WHOLE,
 * NOT_REMOVABLE as zg_check, which also says what table then holds; then NO_LEVEL (the level asked), then CONTRACTED
 * (the first dart that is contracted in any kernel), both with level h in table. names are untouched in a refusal.
 * After a check: LENGTH of table or names, NO_LEVEL, CONTRACTED.
 */
zg_refusal zg_regions(uint8_t n, uint16_t darts, uint8_t h, const uint16_t *rows, size_t rows_len,
                      const uint8_t *lambda, size_t lambda_len, const uint8_t *delta, size_t delta_len,
                      uint16_t *table, size_t table_len, uint8_t level, uint16_t *names,
                      size_t names_len) ZG_MUST_LOOK;

#ifdef __cplusplus
}
#endif

#endif
