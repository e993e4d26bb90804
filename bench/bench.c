/* Runs one job of one implementation on one map, a given number of times, for the instructions to be counted. */
#include "maps.h"
#include "plain.h"

#include <stdio.h>
#include <stdlib.h>
#include <string.h>

struct implementation {
    const char *name;
    __typeof__(&plain_check) check;
    __typeof__(&plain_add) add;
    __typeof__(&plain_unfold) unfold;
    __typeof__(&plain_read) read;
    __typeof__(&plain_read_by_levels) read_by_levels;
    __typeof__(&plain_mark_cells) mark;
    __typeof__(&plain_take) take;
    __typeof__(&plain_write) write;
    __typeof__(&plain_decimation) decimation;
    __typeof__(&plain_import) import;
    __typeof__(&plain_export) export;
    __typeof__(&plain_regions) regions;
    __typeof__(&plain_join) join;
    __typeof__(&plain_rebase) rebase;
    __typeof__(&plain_survivors) survivors;
    __typeof__(&plain_census) census;
    __typeof__(&plain_check_base) check_base;
    __typeof__(&plain_marks_of) marks_of;
    __typeof__(&plain_row) row;
    __typeof__(&plain_unfold_all) unfold_all;
};

/* The jobs in the order of the struct, by the beginning of their names; the C has two ways to read by levels. */
#define JOBS(p, by_levels)                                                                                             \
    p##check, p##add, p##unfold, p##read, by_levels, p##mark_cells, p##take, p##write, p##decimation, p##import,       \
        p##export, p##regions, p##join, p##rebase, p##survivors, p##census, p##check_base, p##marks_of, p##row, \
        p##unfold_all

static const struct implementation implementations[] = {
    {"library", JOBS(zg_, zg_read_by_levels)},
    {"c", JOBS(plain_, plain_read_by_levels)},
    {"stepwise", JOBS(plain_, plain_read_level_by_level)},
};

/* All that is lent. It is written once before anything is counted, so no page is touched for the first time then. */
static struct pyramid map, lower, raised, taken, again;
static uint16_t table[ZG_MOST_ENTRIES], top[ZG_MOST_ENTRIES], names[ZG_MOST_DARTS], old[ZG_MOST_DARTS];
static uint8_t marks[ZG_MOST_DARTS], kernel[ZG_MOST_DARTS], record[ZG_MOST_RECORD];
static uint8_t written[ZG_MOST_RECORD];
static uint16_t edges[2048], vertices[2048], base[3 * 4096], partner_edges[2048], partner_vertices[2048];
static unsigned partner_darts; /* half of the map's, an even number */
static uint8_t lambda[ZG_MOST_DARTS], delta[ZG_MOST_DARTS], joined[ZG_MOST_DARTS];
static uint64_t words[64];
static uint16_t cells[ZG_CELLS], tables[ZG_LEVELS * ZG_MOST_ENTRIES];
static uint32_t counts[ZG_LEVELS];
static uint8_t since[ZG_LEVELS];
static int32_t sums[ZG_SUMS];
static unsigned record_len;
static size_t len; /* of rows and tables */

static volatile unsigned reads, refusals;
static volatile double factors;

#define PYRAMID map.n, map.darts, map.h, map.rows, len, map.lambda, map.darts, map.delta, map.darts

/* ---------------------------------------------------------------- the jobs */

static void run_check(const struct implementation *by)
{
    refusals += by->check(PYRAMID, table, len).number;
}

/* The top level, added to the pyramid without it. */
static void run_add(const struct implementation *by)
{
    refusals += by->add(lower.n, lower.darts, lower.h, lower.rows, len, lower.lambda, lower.darts, lower.delta,
                        lower.darts, kernel, lower.darts, table, len)
                    .refusal.number;
}

/* Every level. */
static void run_unfold(const struct implementation *by)
{
    for (unsigned l = 0; l <= map.h; l++) {
        zg_unfolding r = by->unfold(PYRAMID, (uint8_t)l, table, len);
        refusals += r.refusal.number;
        reads += r.count;
    }
}

/* Every seventh dart of every level, by every involution. */
#define ALL_READINGS(reading)                                                                                          \
    for (unsigned l = 0; l <= map.h; l++)                                                                              \
        for (unsigned i = 0; i <= map.n; i++)                                                                          \
            for (unsigned d = (l + i) % 7; d < map.darts; d += 7)                                                      \
                if (map.lambda[d] >= l) {                                                                              \
                    __typeof__(reading(PYRAMID, 0, 0, 0)) r = reading(PYRAMID, (uint8_t)l, (uint8_t)i, (uint16_t)d);   \
                    refusals += r.refusal.number;                                                                      \
                    reads += r.count;                                                                                  \
                }

static void run_read(const struct implementation *by) { ALL_READINGS(by->read) }
static void run_by_levels(const struct implementation *by) { ALL_READINGS(by->read_by_levels) }

/* Every dimension, on the base and on the top level. */
static void run_mark(const struct implementation *by)
{
    for (unsigned dimension = 0; dimension < map.n; dimension++) {
        refusals += by->mark(map.n, map.darts, map.rows, len, (uint8_t)dimension, marks, map.darts).number;
        refusals += by->mark(map.n, map.darts, top, len, (uint8_t)dimension, marks, map.darts).number;
    }
}

/* With its check. */
static void run_take(const struct implementation *by)
{
    refusals += by->take(record, record_len, taken.rows, ZG_MOST_ENTRIES, taken.lambda, ZG_MOST_DARTS, taken.delta,
                         ZG_MOST_DARTS, table, ZG_MOST_ENTRIES)
                    .refusal.number;
}

/* With its check. */
static void run_write(const struct implementation *by)
{
    refusals += by->write(PYRAMID, table, len, written, sizeof written).refusal.number;
}

/* The level below the top, with its check. */
static void run_decimation(const struct implementation *by)
{
    zg_factor r = by->decimation(PYRAMID, table, len, (uint8_t)(map.h - 1));
    refusals += r.refusal.number;
    factors += r.factor;
}

/* A combinatorial map of half as many darts, whose pairs and vertices are drawn by a fixed rule. */
static void run_import(const struct implementation *by)
{
    unsigned m = partner_darts;
    refusals += by->import((uint16_t)m, edges, m, vertices, m, base, 6 * m).number;
}

static void run_export(const struct implementation *by)
{
    unsigned m = partner_darts;
    refusals += by->export(2, (uint16_t)(2 * m), base, 6 * m, partner_edges, m, partner_vertices, m).number;
}

/* The top level, with its check. */
static void run_regions(const struct implementation *by)
{
    refusals += by->regions(PYRAMID, table, len, map.h, names, map.darts).number;
}

/* Kernels 0 and 1, on a copy of lambda. */
static void run_join(const struct implementation *by)
{
    memcpy(joined, raised.lambda, sizeof joined);
    refusals += by->join(raised.n, raised.darts, raised.h, raised.rows, len, joined, raised.darts, raised.delta,
                         raised.darts, table, len, 0)
                    .refusal.number;
}

/* With its check, from the level in the middle, the upper one of two. */
static void run_rebase(const struct implementation *by)
{
    refusals += by->rebase(again.n, again.darts, again.h, again.rows, len, again.lambda, again.darts, again.delta,
                           again.darts, table, len, (uint8_t)((again.h + 1) / 2), old, again.darts)
                    .refusal.number;
}

/* Every level. */
static void run_survivors(const struct implementation *by)
{
    for (unsigned l = 0; l <= map.h; l++)
        refusals += by->survivors(map.darts, map.h, map.lambda, map.darts, (uint8_t)l, words, 64).refusal.number;
}

/* With its check. */
static void run_census(const struct implementation *by)
{
    refusals += by->census(PYRAMID, table, len, cells, ZG_CELLS, sums, ZG_SUMS).number;
}

/* With its check. */
static void run_all(const struct implementation *by)
{
    refusals += by->unfold_all(PYRAMID, tables, (map.h + 1u) * len, counts, ZG_LEVELS, since, ZG_LEVELS).number;
}

static void run_base(const struct implementation *by)
{
    refusals += by->check_base(map.n, map.darts, map.rows, len).number;
}

/* Every level. */
static void run_marks(const struct implementation *by)
{
    for (unsigned l = 0; l <= map.h; l++)
        refusals += by->marks_of(map.n, map.darts, map.h, map.lambda, map.darts, map.delta, map.darts, (uint8_t)l, marks,
                                 map.darts)
                        .number;
}

/* Every involution of every level. */
static void run_row(const struct implementation *by)
{
    for (unsigned l = 0; l <= map.h; l++)
        for (unsigned i = 0; i <= map.n; i++)
            refusals += by->row(map.n, map.darts, map.h, map.rows, len, top, len, (uint8_t)l, (uint8_t)i).refusal.number;
}

struct job {
    const char *name;
    void (*run)(const struct implementation *);
};

static const struct job jobs[] = {
    {"check", run_check},       {"add", run_add},             {"unfold", run_unfold},
    {"read", run_read},         {"bylevels", run_by_levels},  {"mark", run_mark},
    {"take", run_take},         {"write", run_write},         {"regions", run_regions},
    {"rebase", run_rebase},     {"survivors", run_survivors}, {"decimation", run_decimation},
    {"join", run_join},         {"census", run_census},       {"import", run_import},
    {"export", run_export},     {"base", run_base},           {"marks", run_marks},
    {"row", run_row},           {"unfoldall", run_all},
};

/* ---------------------------------------------------------------- what is lent */

/* The pyramid with an empty kernel below the others, so that kernels 0 and 1 can be joined; at height 32 without its
 * top. */
static void raise_kernels(void)
{
    raised = map.h < ZG_MOST_LEVELS ? map : lower;
    raised.h++;
    for (unsigned d = 0; d < raised.darts; d++)
        raised.lambda[d]++;
}

/* The pyramid without its top level, and that level's kernel. */
static void split_top(void)
{
    lower = map;
    lower.h--;
    for (unsigned d = 0; d < map.darts; d++) {
        kernel[d] = lower.lambda[d] == lower.h ? lower.delta[d] : ZG_STAY;
        if (lower.lambda[d] >= lower.h) {
            lower.lambda[d] = lower.h;
            lower.delta[d] = lower.n;
        }
    }
    memcpy(lambda, lower.lambda, sizeof lambda);
    memcpy(delta, lower.delta, sizeof delta);
}

/* Edges join darts half a round apart; a vertex goes on by a step that has no divisor in common with the number. */
static void make_partner(void)
{
    partner_darts = map.darts / 4 * 2;
    unsigned m = partner_darts;
    for (unsigned d = 0; d < m; d++) {
        edges[d] = (uint16_t)((d + m / 2) % m);
        vertices[(d * 1009) % m] = (uint16_t)(((d + 1) * 1009) % m);
    }
    memset(base, 0, sizeof base);
    memset(partner_edges, 0, sizeof partner_edges);
    memset(partner_vertices, 0, sizeof partner_vertices);
    refusals += plain_import((uint16_t)m, edges, m, vertices, m, base, 6 * m).number;
}

static void set_up(const char *name)
{
    if (!make_pyramid(&map, name)) {
        fprintf(stderr, "no such map: %s\n", name);
        exit(2);
    }
    len = (size_t)(map.n + 1) * map.darts;
    split_top();
    raise_kernels();
    record_len = write_record(&map, record);
    refusals += plain_unfold(PYRAMID, map.h, top, len).refusal.number;
    memset(table, 0, sizeof table);
    memset(marks, 0, sizeof marks);
    memset(&taken, 0, sizeof taken);
    memset(words, 0, sizeof words);
    memset(cells, 0, sizeof cells);
    memset(sums, 0, sizeof sums);
    memset(names, 0, sizeof names);
    memset(tables, 0, sizeof tables);
    memset(counts, 0, sizeof counts);
    memset(since, 0, sizeof since);
    memset(written, 0, sizeof written);
    make_partner();
    memset(joined, 0, sizeof joined);
    memset(old, 0, sizeof old);
    again = map;
}

/* What a run has changed, as it was. */
static void restore(void)
{
    memcpy(lower.lambda, lambda, sizeof lambda);
    memcpy(lower.delta, delta, sizeof delta);
    again = map;
}

static const struct implementation *implementation_named(const char *name)
{
    for (size_t k = 0; k < sizeof implementations / sizeof *implementations; k++)
        if (!strcmp(implementations[k].name, name))
            return implementations + k;
    return NULL;
}

static const struct job *job_named(const char *name)
{
    for (size_t k = 0; k < sizeof jobs / sizeof *jobs; k++)
        if (!strcmp(jobs[k].name, name))
            return jobs + k;
    return NULL;
}

int main(int argc, char **argv)
{
    const struct implementation *by = argc == 5 ? implementation_named(argv[1]) : NULL;
    const struct job *job = argc == 5 ? job_named(argv[2]) : NULL;
    if (!by || !job) {
        fprintf(stderr, "bench library|c|stepwise JOB MAP REPEAT\n");
        return 2;
    }
    set_up(argv[3]);
    /* The base reads of one run are found by running C once; they are 0 for jobs that have no count. */
    job->run(implementation_named("c"));
    restore();
    printf("%u %u %u %u\n", map.n, map.darts, map.h, reads);
    fflush(stdout);
    for (unsigned k = (unsigned)atoi(argv[4]); k > 0; k--) {
        job->run(by);
        if (k > 1)
            restore();
    }
    return refusals ? 3 : 0;
}
