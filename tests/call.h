/* One call through the interface, every lent buffer between guards. */
#ifndef CALL_H
#define CALL_H

#include <stddef.h>
#include <stdint.h>

#ifdef __cplusplus
extern "C" {
#endif

enum job {
    CHECK_BASE, CHECK, ADD, MARKS, READ, BY_LEVELS, UNFOLD, ROW, SURVIVORS, MARK, TAKE, WRITE, DECIMATION,
    IMPORT, EXPORT, CENSUS, REGIONS, JOIN, REBASE, UNFOLD_ALL, LEVELS, CENSUS_PROGRAM, JOBS
};

/*
 * How the vectors write the jobs, in the order of enum job: their names, what a case's line holds, and what stands in
 * the answer behind the refusal and the numbers found. n, N (D), h; rows (R), table (T), lambda (L), delta (E),
 * marks (M), words (W), bytes (B), cells (C), sums (S), edge row (P), vertex row (V), names (N), old numbers (O), tables
 * of all levels (A) with their counts (K) and the levels since which (G); level (l), involution or dimension (i),
 * dart (d); the bits of a factor (F).
 */
extern const char *const job_names[JOBS], *const case_forms[JOBS], *const answer_forms[JOBS];

/*
 * What is lent and asked, and after call_job what came of it. A field that the job doesn't take is not looked at. For
 * ROW rows are the base rows and table is the unfolded level; for MARK table is the level and involution the dimension;
 * for IMPORT darts is the partner's M.
 */
struct call {
    enum job job;
    unsigned n, darts, h, level, involution, dart;
    uint16_t *rows, *table, *cells, *edges, *vertices, *names, *old, *tables;
    uint8_t *lambda, *delta, *marks, *bytes, *since;
    uint32_t *counts;
    uint64_t *words;
    int32_t *sums;
    size_t rows_len, table_len, cells_len, edges_len, vertices_len, names_len, old_len, tables_len;
    size_t lambda_len, delta_len, marks_len, bytes_len, words_len, sums_len, counts_len, since_len;

    unsigned refusal[4]; /* number, level, involution, dart */
    unsigned found[3];   /* in the order of the vectors' answers */
    unsigned founds;     /* how many of them the job has */
    uint64_t factor;     /* DECIMATION: the bits of its double */
    char text[2048];     /* LEVELS, CENSUS_PROGRAM: their lines, joined by " / " */
};

/* Where a buffer lies: with 64 filled bytes on both sides, or with its end or its beginning at an unreadable page. */
enum place { BETWEEN_CANARIES, BEFORE_A_HOLE, BEHIND_A_HOLE, PLACES };
extern enum place call_place;

/* Makes the call; ends the program with a message if anything but memory lent to write has changed. */
void call_job(struct call *c);

/* If set, called before the program is ended so. */
extern void (*call_failed)(void);

#ifdef __cplusplus
}
#endif

#endif
