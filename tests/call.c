/* One call through the interface, every lent buffer between guards. */
#define _GNU_SOURCE
#include "call.h"
#include "zompelgors.h"
#include "zompelgors_regions.h"

#include <stdbool.h>
#include <stdio.h>
#include <stdlib.h>
#include <string.h>
#include <sys/mman.h>
#include <unistd.h>

enum { GUARD = 64, CANARY = 0xA5 };

const char *const job_names[JOBS] = {
    [CHECK_BASE] = "check_base", [CHECK] = "check", [ADD] = "add", [MARKS] = "marks", [READ] = "read",
    [BY_LEVELS] = "bylevels", [UNFOLD] = "unfold", [ROW] = "row", [SURVIVORS] = "survivors", [MARK] = "mark",
    [TAKE] = "take", [WRITE] = "write", [DECIMATION] = "decimation", [IMPORT] = "import", [EXPORT] = "export",
    [CENSUS] = "census", [REGIONS] = "regions", [JOIN] = "join",
    [REBASE] = "rebase", [UNFOLD_ALL] = "unfold_all", [LEVELS] = "levels", [CENSUS_PROGRAM] = "census_program"
};
const char *const case_forms[JOBS] = {
    [CHECK_BASE] = "nDR", [CHECK] = "nDhRLET", [ADD] = "nDhRLEMT", [MARKS] = "nDhLElM", [READ] = "nDhRLElid",
    [BY_LEVELS] = "nDhRLElid", [UNFOLD] = "nDhRLElT", [ROW] = "nDhRTli", [SURVIVORS] = "DhLlW", [MARK] = "nDTiM",
    [TAKE] = "BRLET", [WRITE] = "nDhRLETB", [DECIMATION] = "nDhRLETl", [IMPORT] = "DPVR", [EXPORT] = "nDRPV",
    [CENSUS] = "nDhRLETCS", [REGIONS] = "nDhRLETlN", [JOIN] = "nDhRLETl",
    [REBASE] = "nDhRLETlO", [UNFOLD_ALL] = "nDhRLEAKG", [LEVELS] = "B", [CENSUS_PROGRAM] = "B"
};
const char *const answer_forms[JOBS] = {
    [CHECK_BASE] = "", [CHECK] = "T", [ADD] = "LET", [MARKS] = "M", [READ] = "", [BY_LEVELS] = "", [UNFOLD] = "T",
    [ROW] = "", [SURVIVORS] = "W", [MARK] = "M", [TAKE] = "RLET", [WRITE] = "TB", [DECIMATION] = "FT", [IMPORT] = "R",
    [EXPORT] = "PV", [CENSUS] = "TCS", [REGIONS] = "TN", [JOIN] = "LT", [REBASE] = "RLETO",
    [UNFOLD_ALL] = "AKG", [LEVELS] = "", [CENSUS_PROGRAM] = ""
};

enum place call_place = BETWEEN_CANARIES;
void (*call_failed)(void);

/* One buffer as the library sees it: a copy of the caller's, in a zone with a page without access on either side. */
struct lent {
    const char *name;
    unsigned char *zone, *memory;
    size_t capacity, bytes;
    void *given;
    bool constant, in_use;
};

enum { IN_ROWS, IN_TABLE, IN_LAMBDA, IN_DELTA, IN_MARKS, IN_BYTES, IN_WORDS, IN_CELLS, IN_SUMS, IN_EDGES,
       IN_VERTICES, IN_NAMES, IN_OLD, IN_TABLES, IN_COUNTS, IN_SINCE, LENTS };

static struct lent lents[LENTS] = {
    {.name = "rows"}, {.name = "table"}, {.name = "lambda"}, {.name = "delta"},
    {.name = "marks"}, {.name = "bytes"}, {.name = "words"}, {.name = "cells"},
    {.name = "sums"}, {.name = "edges"}, {.name = "vertices"}, {.name = "names"}, {.name = "old"},
    {.name = "tables"}, {.name = "counts"}, {.name = "since"},
};

static void fail(const struct call *c, const char *what, const char *name)
{
    fprintf(stderr, "%s: %s %s\n", job_names[c->job], what, name);
    if (call_failed)
        call_failed();
    exit(2);
}

static void make_zone(struct lent *l, size_t wanted)
{
    size_t page = (size_t)sysconf(_SC_PAGESIZE);
    if (l->zone)
        munmap(l->zone - page, l->capacity + 2 * page);
    l->capacity = (wanted + page - 1) / page * page;
    unsigned char *all = mmap(NULL, l->capacity + 2 * page, PROT_NONE, MAP_PRIVATE | MAP_ANONYMOUS, -1, 0);
    if (all == MAP_FAILED || mprotect(all + page, l->capacity, PROT_READ | PROT_WRITE)) {
        perror("mmap");
        exit(2);
    }
    l->zone = all + page;
}

static size_t offset_in_zone(const struct lent *l)
{
    if (call_place == BEFORE_A_HOLE)
        return l->capacity - l->bytes;
    return call_place == BEHIND_A_HOLE ? 0 : GUARD;
}

static void *lend(int which, const void *given, size_t count, size_t size, bool constant)
{
    struct lent *l = &lents[which];
    l->bytes = count * size;
    if (l->capacity < l->bytes + 2 * GUARD)
        make_zone(l, l->bytes + 2 * GUARD);
    l->given = (void *)given;
    l->constant = constant;
    l->in_use = true;
    l->memory = l->zone + offset_in_zone(l);
    if (l->memory >= l->zone + GUARD)
        memset(l->memory - GUARD, CANARY, GUARD);
    if (l->memory + l->bytes + GUARD <= l->zone + l->capacity)
        memset(l->memory + l->bytes, CANARY, GUARD);
    if (l->bytes)
        memcpy(l->memory, given, l->bytes);
    return l->memory;
}

static const uint16_t *rows_in(const struct call *c) { return lend(IN_ROWS, c->rows, c->rows_len, 2, true); }
static uint16_t *rows_out(const struct call *c) { return lend(IN_ROWS, c->rows, c->rows_len, 2, false); }
static const uint16_t *table_in(const struct call *c) { return lend(IN_TABLE, c->table, c->table_len, 2, true); }
static uint16_t *table_out(const struct call *c) { return lend(IN_TABLE, c->table, c->table_len, 2, false); }
static const uint8_t *lambda_in(const struct call *c) { return lend(IN_LAMBDA, c->lambda, c->lambda_len, 1, true); }
static uint8_t *lambda_out(const struct call *c) { return lend(IN_LAMBDA, c->lambda, c->lambda_len, 1, false); }
static const uint8_t *delta_in(const struct call *c) { return lend(IN_DELTA, c->delta, c->delta_len, 1, true); }
static uint8_t *delta_out(const struct call *c) { return lend(IN_DELTA, c->delta, c->delta_len, 1, false); }
static const uint8_t *marks_in(const struct call *c) { return lend(IN_MARKS, c->marks, c->marks_len, 1, true); }
static uint8_t *marks_out(const struct call *c) { return lend(IN_MARKS, c->marks, c->marks_len, 1, false); }
static const uint8_t *bytes_in(const struct call *c) { return lend(IN_BYTES, c->bytes, c->bytes_len, 1, true); }
static uint8_t *bytes_out(const struct call *c) { return lend(IN_BYTES, c->bytes, c->bytes_len, 1, false); }
static uint16_t *names_out(const struct call *c) { return lend(IN_NAMES, c->names, c->names_len, 2, false); }
static uint64_t *words_out(const struct call *c) { return lend(IN_WORDS, c->words, c->words_len, 8, false); }
static uint16_t *cells_out(const struct call *c) { return lend(IN_CELLS, c->cells, c->cells_len, 2, false); }
static int32_t *sums_out(const struct call *c) { return lend(IN_SUMS, c->sums, c->sums_len, 4, false); }
static const uint16_t *edges_in(const struct call *c) { return lend(IN_EDGES, c->edges, c->edges_len, 2, true); }
static uint16_t *edges_out(const struct call *c) { return lend(IN_EDGES, c->edges, c->edges_len, 2, false); }
static const uint16_t *vertices_in(const struct call *c)
{
    return lend(IN_VERTICES, c->vertices, c->vertices_len, 2, true);
}
static uint16_t *vertices_out(const struct call *c)
{
    return lend(IN_VERTICES, c->vertices, c->vertices_len, 2, false);
}
static uint16_t *old_out(const struct call *c) { return lend(IN_OLD, c->old, c->old_len, 2, false); }
static uint16_t *tables_out(const struct call *c) { return lend(IN_TABLES, c->tables, c->tables_len, 2, false); }
static uint32_t *counts_out(const struct call *c) { return lend(IN_COUNTS, c->counts, c->counts_len, 4, false); }
static uint8_t *since_out(const struct call *c) { return lend(IN_SINCE, c->since, c->since_len, 1, false); }

static bool filled(const unsigned char *guard)
{
    for (int i = 0; i < GUARD; i++)
        if (guard[i] != CANARY)
            return false;
    return true;
}

static void take_back(const struct call *c)
{
    for (struct lent *l = lents; l < lents + LENTS; l++) {
        if (!l->in_use)
            continue;
        l->in_use = false;
        if (l->memory >= l->zone + GUARD && !filled(l->memory - GUARD))
            fail(c, "written before", l->name);
        if (l->memory + l->bytes + GUARD <= l->zone + l->capacity && !filled(l->memory + l->bytes))
            fail(c, "written behind", l->name);
        if (l->constant && l->bytes && memcmp(l->memory, l->given, l->bytes))
            fail(c, "written into const", l->name);
        if (!l->constant && l->bytes)
            memcpy(l->given, l->memory, l->bytes);
    }
}

static void take_refusal(struct call *c, zg_refusal r)
{
    c->refusal[0] = r.number;
    c->refusal[1] = r.level;
    c->refusal[2] = r.involution;
    c->refusal[3] = r.dart;
}

static void take_found(struct call *c, unsigned founds, unsigned a, unsigned b, unsigned d)
{
    c->founds = founds;
    c->found[0] = a;
    c->found[1] = b;
    c->found[2] = d;
}

static void call_check_base(struct call *c)
{
    const uint16_t *rows = rows_in(c);
    zg_refusal r = zg_check_base((uint8_t)c->n, (uint16_t)c->darts, rows, c->rows_len);
    take_refusal(c, r);
}

static void call_check(struct call *c)
{
    const uint16_t *rows = rows_in(c);
    const uint8_t *lambda = lambda_in(c), *delta = delta_in(c);
    uint16_t *table = table_out(c);
    zg_refusal r = zg_check((uint8_t)c->n, (uint16_t)c->darts, (uint8_t)c->h, rows, c->rows_len, lambda, c->lambda_len,
                            delta, c->delta_len, table, c->table_len);
    take_refusal(c, r);
}

static void call_add(struct call *c)
{
    const uint16_t *rows = rows_in(c);
    uint8_t *lambda = lambda_out(c), *delta = delta_out(c);
    const uint8_t *marks = marks_in(c);
    uint16_t *table = table_out(c);
    zg_height r = zg_add((uint8_t)c->n, (uint16_t)c->darts, (uint8_t)c->h, rows, c->rows_len, lambda, c->lambda_len,
                         delta, c->delta_len, marks, c->marks_len, table, c->table_len);
    take_refusal(c, r.refusal);
    take_found(c, 1, r.height, 0, 0);
}

static void call_marks(struct call *c)
{
    const uint8_t *lambda = lambda_in(c), *delta = delta_in(c);
    uint8_t *marks = marks_out(c);
    zg_refusal r = zg_marks_of((uint8_t)c->n, (uint16_t)c->darts, (uint8_t)c->h, lambda, c->lambda_len, delta,
                               c->delta_len, (uint8_t)c->level, marks, c->marks_len);
    take_refusal(c, r);
}

static void call_read(struct call *c)
{
    const uint16_t *rows = rows_in(c);
    const uint8_t *lambda = lambda_in(c), *delta = delta_in(c);
    zg_link r = zg_read((uint8_t)c->n, (uint16_t)c->darts, (uint8_t)c->h, rows, c->rows_len, lambda, c->lambda_len,
                        delta, c->delta_len, (uint8_t)c->level, (uint8_t)c->involution, (uint16_t)c->dart);
    take_refusal(c, r.refusal);
    take_found(c, 3, r.neighbour, r.count, r.since);
}

static void call_by_levels(struct call *c)
{
    const uint16_t *rows = rows_in(c);
    const uint8_t *lambda = lambda_in(c), *delta = delta_in(c);
    zg_reading r = zg_read_by_levels((uint8_t)c->n, (uint16_t)c->darts, (uint8_t)c->h, rows, c->rows_len, lambda,
                                     c->lambda_len, delta, c->delta_len, (uint8_t)c->level, (uint8_t)c->involution,
                                     (uint16_t)c->dart);
    take_refusal(c, r.refusal);
    take_found(c, 2, r.neighbour, r.count, 0);
}

static void call_unfold(struct call *c)
{
    const uint16_t *rows = rows_in(c);
    const uint8_t *lambda = lambda_in(c), *delta = delta_in(c);
    uint16_t *table = table_out(c);
    zg_unfolding r = zg_unfold((uint8_t)c->n, (uint16_t)c->darts, (uint8_t)c->h, rows, c->rows_len, lambda,
                               c->lambda_len, delta, c->delta_len, (uint8_t)c->level, table, c->table_len);
    take_refusal(c, r.refusal);
    take_found(c, 2, r.count, r.since, 0);
}

static void call_unfold_all(struct call *c)
{
    const uint16_t *rows = rows_in(c);
    const uint8_t *lambda = lambda_in(c), *delta = delta_in(c);
    uint16_t *tables = tables_out(c);
    uint32_t *counts = counts_out(c);
    uint8_t *since = since_out(c);
    zg_refusal r = zg_unfold_all((uint8_t)c->n, (uint16_t)c->darts, (uint8_t)c->h, rows, c->rows_len, lambda,
                                 c->lambda_len, delta, c->delta_len, tables, c->tables_len, counts, c->counts_len, since,
                                 c->since_len);
    take_refusal(c, r);
}

static void call_row(struct call *c)
{
    const uint16_t *base = rows_in(c), *unfolded = table_in(c);
    zg_part r = zg_row((uint8_t)c->n, (uint16_t)c->darts, (uint8_t)c->h, base, c->rows_len, unfolded, c->table_len,
                       (uint8_t)c->level, (uint8_t)c->involution);
    take_refusal(c, r.refusal);
    take_found(c, 3, r.unfolded, r.start, r.length);
}

static void call_survivors(struct call *c)
{
    const uint8_t *lambda = lambda_in(c);
    uint64_t *words = words_out(c);
    zg_count r = zg_survivors((uint16_t)c->darts, (uint8_t)c->h, lambda, c->lambda_len, (uint8_t)c->level, words,
                              c->words_len);
    take_refusal(c, r.refusal);
    take_found(c, 1, r.count, 0, 0);
}

static void call_mark(struct call *c)
{
    const uint16_t *table = table_in(c);
    uint8_t *marks = marks_out(c);
    zg_refusal r = zg_mark_cells((uint8_t)c->n, (uint16_t)c->darts, table, c->table_len, (uint8_t)c->involution,
                                 marks, c->marks_len);
    take_refusal(c, r);
}

static void call_take(struct call *c)
{
    const uint8_t *bytes = bytes_in(c);
    uint16_t *rows = rows_out(c);
    uint8_t *lambda = lambda_out(c), *delta = delta_out(c);
    uint16_t *table = table_out(c);
    zg_record r = zg_take(bytes, c->bytes_len, rows, c->rows_len, lambda, c->lambda_len, delta, c->delta_len, table,
                          c->table_len);
    take_refusal(c, r.refusal);
    take_found(c, 3, r.n, r.h, r.darts);
}

static void call_write(struct call *c)
{
    const uint16_t *rows = rows_in(c);
    const uint8_t *lambda = lambda_in(c), *delta = delta_in(c);
    uint16_t *table = table_out(c);
    uint8_t *bytes = bytes_out(c);
    zg_written r = zg_write((uint8_t)c->n, (uint16_t)c->darts, (uint8_t)c->h, rows, c->rows_len, lambda, c->lambda_len,
                            delta, c->delta_len, table, c->table_len, bytes, c->bytes_len);
    take_refusal(c, r.refusal);
    take_found(c, 1, r.length, 0, 0);
}

static void call_rebase(struct call *c)
{
    uint16_t *rows = rows_out(c), *table = table_out(c), *old = old_out(c);
    uint8_t *lambda = lambda_out(c), *delta = delta_out(c);
    zg_base r = zg_rebase((uint8_t)c->n, (uint16_t)c->darts, (uint8_t)c->h, rows, c->rows_len, lambda, c->lambda_len,
                          delta, c->delta_len, table, c->table_len, (uint8_t)c->level, old, c->old_len);
    take_refusal(c, r.refusal);
    take_found(c, 2, r.darts, r.h, 0);
}

static void call_regions(struct call *c)
{
    const uint16_t *rows = rows_in(c);
    const uint8_t *lambda = lambda_in(c), *delta = delta_in(c);
    uint16_t *table = table_out(c), *names = names_out(c);
    zg_refusal r = zg_regions((uint8_t)c->n, (uint16_t)c->darts, (uint8_t)c->h, rows, c->rows_len, lambda,
                              c->lambda_len, delta, c->delta_len, table, c->table_len, (uint8_t)c->level, names,
                              c->names_len);
    take_refusal(c, r);
}

static void call_import(struct call *c)
{
    const uint16_t *edges = edges_in(c), *vertices = vertices_in(c);
    uint16_t *rows = rows_out(c);
    take_refusal(c, zg_import((uint16_t)c->darts, edges, c->edges_len, vertices, c->vertices_len, rows, c->rows_len));
}

static void call_export(struct call *c)
{
    const uint16_t *rows = rows_in(c);
    uint16_t *edges = edges_out(c), *vertices = vertices_out(c);
    take_refusal(c, zg_export((uint8_t)c->n, (uint16_t)c->darts, rows, c->rows_len, edges, c->edges_len, vertices,
                              c->vertices_len));
}

static void call_decimation(struct call *c)
{
    const uint16_t *rows = rows_in(c);
    const uint8_t *lambda = lambda_in(c), *delta = delta_in(c);
    uint16_t *table = table_out(c);
    zg_factor r = zg_decimation((uint8_t)c->n, (uint16_t)c->darts, (uint8_t)c->h, rows, c->rows_len, lambda,
                                c->lambda_len, delta, c->delta_len, table, c->table_len, (uint8_t)c->level);
    take_refusal(c, r.refusal);
    take_found(c, 1, r.empty, 0, 0);
    memcpy(&c->factor, &r.factor, sizeof r.factor);
}

static void call_join(struct call *c)
{
    const uint16_t *rows = rows_in(c);
    uint8_t *lambda = lambda_out(c);
    const uint8_t *delta = delta_in(c);
    uint16_t *table = table_out(c);
    zg_height r = zg_join((uint8_t)c->n, (uint16_t)c->darts, (uint8_t)c->h, rows, c->rows_len, lambda, c->lambda_len,
                          delta, c->delta_len, table, c->table_len, (uint8_t)c->level);
    take_refusal(c, r.refusal);
    take_found(c, 1, r.height, 0, 0);
}

static void call_census(struct call *c)
{
    const uint16_t *rows = rows_in(c);
    const uint8_t *lambda = lambda_in(c), *delta = delta_in(c);
    uint16_t *table = table_out(c), *cells = cells_out(c);
    int32_t *sums = sums_out(c);
    zg_refusal r = zg_census((uint8_t)c->n, (uint16_t)c->darts, (uint8_t)c->h, rows, c->rows_len, lambda, c->lambda_len,
                             delta, c->delta_len, table, c->table_len, cells, c->cells_len, sums, c->sums_len);
    take_refusal(c, r);
}

static bool say_refusal(struct call *program, const struct call *step)
{
    memcpy(program->refusal, step->refusal, sizeof step->refusal);
    const unsigned *r = step->refusal;
    if (r[0])
        sprintf(program->text, "refused %u %u %u %u", r[0], r[1], r[2], r[3]);
    return r[0] != 0;
}

/* One level's line; the number of survivors comes from the survivor words. */
static bool say_level(struct call *levels, struct call *step, unsigned level)
{
    uint64_t words[ZG_WORDS] = {0};
    step->level = level;
    step->job = UNFOLD;
    call_job(step);
    if (say_refusal(levels, step))
        return false;
    unsigned total = step->found[0], since = step->found[1];
    step->words = words;
    step->words_len = ZG_WORDS;
    step->job = SURVIVORS;
    call_job(step);
    if (say_refusal(levels, step))
        return false;
    sprintf(levels->text + strlen(levels->text), " / %u %u %u %u", level, step->found[0], total, since);
    return true;
}

/* The record of a program, taken and checked into the step that lends it on. */
static bool take_for(struct call *program, struct call *step)
{
    static uint16_t rows[ZG_MOST_ENTRIES], table[ZG_MOST_ENTRIES];
    static uint8_t lambda[ZG_MOST_DARTS], delta[ZG_MOST_DARTS];
    *step = (struct call){.job = TAKE, .bytes = program->bytes, .bytes_len = program->bytes_len, .rows = rows,
                          .table = table, .lambda = lambda, .delta = delta, .rows_len = ZG_MOST_ENTRIES,
                          .table_len = ZG_MOST_ENTRIES, .lambda_len = ZG_MOST_DARTS, .delta_len = ZG_MOST_DARTS};
    call_job(step);
    if (say_refusal(program, step))
        return false;
    step->n = step->found[0];
    step->h = step->found[1];
    step->darts = step->found[2];
    step->rows_len = step->table_len = (size_t)(step->n + 1) * step->darts;
    step->lambda_len = step->delta_len = step->darts;
    return true;
}

/* What the program levels does with a record: take it, then unfold each level. */
static void call_levels(struct call *c)
{
    struct call step;
    if (!take_for(c, &step))
        return;
    sprintf(c->text, "%u %u %u", step.n, step.darts, step.h);
    for (unsigned level = 0; level <= step.h; level++)
        if (!say_level(c, &step, level))
            return;
}

/* What the program census does: take, then the census, a line for each level. */
static void call_census_program(struct call *c)
{
    struct call step;
    uint16_t cells[ZG_CELLS] = {0};
    int32_t sums[ZG_SUMS] = {0};
    if (!take_for(c, &step))
        return;
    step.job = CENSUS;
    step.cells = cells;
    step.cells_len = ZG_CELLS;
    step.sums = sums;
    step.sums_len = ZG_SUMS;
    call_job(&step);
    if (say_refusal(c, &step))
        return;
    char *at = c->text;
    for (unsigned level = 0; level <= step.h; level++) {
        at += sprintf(at, level ? " / %u" : "%u", level);
        for (unsigned i = 0; i <= step.n; i++)
            at += sprintf(at, " %u", cells[5 * level + i]);
        at += sprintf(at, " %d", sums[level]);
    }
}

void call_job(struct call *c)
{
    static void (*const calls[JOBS])(struct call *) = {
        [CHECK_BASE] = call_check_base, [CHECK] = call_check, [ADD] = call_add, [MARKS] = call_marks,
        [READ] = call_read, [BY_LEVELS] = call_by_levels, [UNFOLD] = call_unfold, [ROW] = call_row,
        [SURVIVORS] = call_survivors, [MARK] = call_mark, [TAKE] = call_take, [WRITE] = call_write,
        [DECIMATION] = call_decimation, [IMPORT] = call_import, [EXPORT] = call_export, [CENSUS] = call_census,
        [REGIONS] = call_regions, [JOIN] = call_join, [REBASE] = call_rebase,
        [UNFOLD_ALL] = call_unfold_all, [LEVELS] = call_levels, [CENSUS_PROGRAM] = call_census_program,
    };
    c->founds = 0;
    c->factor = 0;
    c->text[0] = 0;
    calls[c->job](c);
    take_back(c);
}
