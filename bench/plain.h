/* The jobs in plain C, to compare with: the two headers say what each takes and does. */
#ifndef PLAIN_H
#define PLAIN_H

#include "zompelgors.h"
#include "zompelgors_regions.h"

#ifdef __cplusplus
extern "C" {
#endif

__typeof__(zg_version) plain_version;
__typeof__(zg_check_base) plain_check_base;
__typeof__(zg_check) plain_check;
__typeof__(zg_add) plain_add;
__typeof__(zg_marks_of) plain_marks_of;
__typeof__(zg_read) plain_read;
__typeof__(zg_read_by_levels) plain_read_by_levels;
__typeof__(zg_unfold) plain_unfold;
__typeof__(zg_unfold_all) plain_unfold_all;
__typeof__(zg_row) plain_row;
__typeof__(zg_survivors) plain_survivors;
__typeof__(zg_mark_cells) plain_mark_cells;
__typeof__(zg_take) plain_take;
__typeof__(zg_write) plain_write;
__typeof__(zg_decimation) plain_decimation;
__typeof__(zg_census) plain_census;
__typeof__(zg_import) plain_import;
__typeof__(zg_export) plain_export;
__typeof__(zg_regions) plain_regions;
__typeof__(zg_join) plain_join;
__typeof__(zg_rebase) plain_rebase;

/* As plain_read_by_levels, but by the definition: each step is a reading one level lower, also where nothing changes. */
__typeof__(zg_read_by_levels) plain_read_level_by_level;

/* Marks all removable cells of one dimension of a valid level, whatever their parts: the first step of marking. */
void plain_removable(unsigned n, unsigned darts, const uint16_t *table, unsigned dimension, uint8_t *marks);

#ifdef __cplusplus
}
#endif

#endif
