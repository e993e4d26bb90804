/*
 * The functions of zompelgors.h and zompelgors_regions.h on a struct, with fewer arguments and in one order. All of it
 * is inline: nothing more is linked, and who doesn't call zg_pyramid_regions needs no second archive. Each function
 * hands its call on, and answers what that one answers; zompelgors.h says what that is.
 *
 * The order of arguments: the pyramid; what is asked (level, involution or dimension, dart); what is lent to read; what
 * is lent to write, the table first.
 *
 * Behind every pointer stands its room, in entries, which may be more than is due: the front of it, of the exact
 * length, is lent. Where the room is less, the call is refused ZG_E_LENGTH in its turn. Null has no room, so an empty
 * std::vector may be lent; what is lent and is no null must be good for its room, as in zompelgors.h.
 */
#ifndef ZOMPELGORS_PYRAMID_H
#define ZOMPELGORS_PYRAMID_H

#include "zompelgors.h"
#include "zompelgors_regions.h"

/* Sizes, constants where n and N are: entries of rows or a table, bytes of a record, place of a count in a census. */
#define ZG_ENTRIES(n, darts) (((n) + 1u) * (darts))
#define ZG_RECORD_BYTES(n, darts) (7u + ((n) + 1u) * (3u + 2u * (darts)) + 2u * (3u + (darts)))
#define ZG_CELL_AT(level, dimension) (5u * (level) + (dimension))
/* Entries of all levels, and the place at which one of them begins. */
#define ZG_ALL_ENTRIES(n, darts, h) (((h) + 1u) * ZG_ENTRIES(n, darts))
#define ZG_LEVEL_AT(n, darts, level) ((level) * ZG_ENTRIES(n, darts))

/* A pyramid in folded form: its sizes, and memory with its room in entries. Rows come first, (n+1)N entries. */
typedef struct {
    uint8_t n, h;
    uint16_t darts;
    uint16_t *rows;
    uint8_t *lambda, *delta;
    size_t rows_room, lambda_room, delta_room;
} zg_pyramid;

/* The counts and the sums of a census: those of level l and dimension i are cells[ZG_CELL_AT(l, i)] and sums[l]. */
typedef struct {
    int32_t sums[ZG_SUMS];
    uint16_t cells[ZG_CELLS];
} zg_counts;

/* What unfolding all levels reads of each, and since which level its links stand. */
typedef struct {
    uint32_t counts[ZG_LEVELS];
    uint8_t since[ZG_LEVELS];
} zg_links;

/* Room for the largest of everything but all levels at once, some 165 KiB: it is made static or allocated, and not on a
 * small stack. */
typedef struct {
    uint64_t words[ZG_WORDS];
    zg_counts counts;
    uint16_t rows[ZG_MOST_ENTRIES], table[ZG_MOST_ENTRIES];
    uint16_t names[ZG_MOST_DARTS], old[ZG_MOST_DARTS];
    uint16_t edges[ZG_MOST_PARTNER_DARTS], vertices[ZG_MOST_PARTNER_DARTS];
    uint8_t lambda[ZG_MOST_DARTS], delta[ZG_MOST_DARTS], marks[ZG_MOST_DARTS];
    uint8_t bytes[ZG_MOST_RECORD + 1]; /* one more, so that a file that is too long is seen to be */
} zg_room;

/* Was a call refused? */
static inline int zg_refused(zg_refusal refusal)
{
    return refusal.number != ZG_ACCEPTED;
}

/* The entries of the rows of a pyramid, and of every table of it. */
static inline size_t zg_pyramid_entries(const zg_pyramid *p)
{
    return ZG_ENTRIES(p->n, p->darts);
}

/* The bytes of its record. */
static inline size_t zg_pyramid_record_bytes(const zg_pyramid *p)
{
    return ZG_RECORD_BYTES(p->n, p->darts);
}

/* A pyramid without darts, of which every job is refused, with memory for any: to be taken into. */
static inline zg_pyramid zg_room_pyramid(zg_room *room)
{
    zg_pyramid p;
    p.n = p.h = 0;
    p.darts = 0;
    p.rows = room->rows;
    p.lambda = room->lambda;
    p.delta = room->delta;
    p.rows_room = ZG_MOST_ENTRIES;
    p.lambda_room = p.delta_room = ZG_MOST_DARTS;
    return p;
}

/* ---- How it is lent: an address that is no null, and the length that is due or all that there is. */

typedef union {
    uint64_t word;
    uint16_t entry;
    uint8_t byte;
} zg_nothing;

static inline size_t zg_lent(const void *at, size_t room, size_t due)
{
    return !at ? 0 : room < due ? room : due;
}

#define ZG_LEND(at, room, due, nothing) ((at) ? (at) : (nothing)), zg_lent((at), (room), (due))
#define ZG_LEND_ENTRIES(at, room) ZG_LEND(at, room, zg_pyramid_entries(p), &nothing.entry)
#define ZG_LEND_HALVES(at, room, due) ZG_LEND(at, room, due, &nothing.entry)
#define ZG_LEND_BYTES(at, room, due) ZG_LEND(at, room, due, &nothing.byte)
#define ZG_LEND_ROWS ZG_LEND_ENTRIES(p->rows, p->rows_room)
#define ZG_LEND_LAMBDA ZG_LEND_BYTES(p->lambda, p->lambda_room, p->darts)
#define ZG_LEND_DELTA ZG_LEND_BYTES(p->delta, p->delta_room, p->darts)
#define ZG_LEND_PYRAMID p->n, p->darts, p->h, ZG_LEND_ROWS, ZG_LEND_LAMBDA, ZG_LEND_DELTA
#define ZG_LEND_TABLE ZG_LEND_ENTRIES(table, table_room)

/* ---- Records. */

/* zg_take: the pyramid is the record's if it is accepted, else it has no darts. table has room for the same rows. */
ZG_MUST_LOOK static inline zg_record zg_pyramid_take(zg_pyramid *p, const uint8_t *bytes, size_t bytes_len,
                                                     uint16_t *table, size_t table_room)
{
    zg_nothing nothing = {0};
    zg_record r = zg_take(ZG_LEND_BYTES(bytes, bytes_len, bytes_len),
                          ZG_LEND_HALVES(p->rows, p->rows_room, p->rows_room),
                          ZG_LEND_BYTES(p->lambda, p->lambda_room, p->lambda_room),
                          ZG_LEND_BYTES(p->delta, p->delta_room, p->delta_room),
                          ZG_LEND_HALVES(table, table_room, table_room));
    p->n = r.n;
    p->h = r.h;
    p->darts = r.darts;
    return r;
}

/* zg_write */
ZG_MUST_LOOK static inline zg_written zg_pyramid_write(const zg_pyramid *p, uint16_t *table, size_t table_room,
                                                       uint8_t *bytes, size_t bytes_room)
{
    zg_nothing nothing = {0};
    return zg_write(ZG_LEND_PYRAMID, ZG_LEND_TABLE, ZG_LEND_BYTES(bytes, bytes_room, bytes_room));
}

/* ---- From a base upward. */

/* zg_check_base */
ZG_MUST_LOOK static inline zg_refusal zg_pyramid_check_base(const zg_pyramid *p)
{
    zg_nothing nothing = {0};
    return zg_check_base(p->n, p->darts, ZG_LEND_ROWS);
}

/* Begins with the base that the rows hold: it is checked, the height is 0, and Lambda and Delta say that no dart is
 * gone. Refused as zg_check_base; ZG_E_LENGTH too where there is no room for Lambda and Delta. Refused, it stays as it
 * was. */
ZG_MUST_LOOK static inline zg_refusal zg_pyramid_begin(zg_pyramid *p)
{
    zg_nothing nothing = {0};
    int room = zg_lent(p->lambda, p->lambda_room, p->darts) == p->darts &&
               zg_lent(p->delta, p->delta_room, p->darts) == p->darts;
    zg_refusal r = room ? zg_check_base(p->n, p->darts, ZG_LEND_ROWS)
                        : zg_check_base(p->n, p->darts, &nothing.entry, 0);
    if (!zg_refused(r)) {
        size_t d;
        for (d = 0; d < p->darts; d++) {
            p->lambda[d] = 0;
            p->delta[d] = p->n;
        }
        p->h = 0;
    }
    return r;
}

/* zg_import: the pyramid of height 0 with the base that the two rows yield; edges and vertices have m entries. Refused,
 * by ZG_E_LENGTH for lack of room too, it stays as it was. */
ZG_MUST_LOOK static inline zg_refusal zg_pyramid_import(zg_pyramid *p, uint16_t m, const uint16_t *edges,
                                                        size_t edges_len, const uint16_t *vertices,
                                                        size_t vertices_len)
{
    zg_nothing nothing = {0};
    size_t darts = 2u * m, due = 6u * m, d;
    int room = zg_lent(p->lambda, p->lambda_room, darts) == darts && zg_lent(p->delta, p->delta_room, darts) == darts;
    zg_refusal r = zg_import(m, ZG_LEND_HALVES(edges, edges_len, edges_len),
                             ZG_LEND_HALVES(vertices, vertices_len, vertices_len),
                             ZG_LEND_HALVES(p->rows, room ? p->rows_room : 0, due));
    if (!zg_refused(r)) {
        for (d = 0; d < darts; d++) {
            p->lambda[d] = 0;
            p->delta[d] = 2;
        }
        p->n = 2;
        p->h = 0;
        p->darts = 2u * m & 0xFFFFu; /* m is at most 2,048 here */
    }
    return r;
}

/* zg_export */
ZG_MUST_LOOK static inline zg_refusal zg_pyramid_export(const zg_pyramid *p, uint16_t *edges, size_t edges_room,
                                                        uint16_t *vertices, size_t vertices_room)
{
    zg_nothing nothing = {0};
    size_t due = p->darts / 2u;
    return zg_export(p->n, p->darts, ZG_LEND_ROWS, ZG_LEND_HALVES(edges, edges_room, due),
                     ZG_LEND_HALVES(vertices, vertices_room, due));
}

/* zg_check */
ZG_MUST_LOOK static inline zg_refusal zg_pyramid_check(const zg_pyramid *p, uint16_t *table, size_t table_room)
{
    zg_nothing nothing = {0};
    return zg_check(ZG_LEND_PYRAMID, ZG_LEND_TABLE);
}

/* zg_mark_cells, of the level that the table holds. */
ZG_MUST_LOOK static inline zg_refusal zg_pyramid_mark_cells(const zg_pyramid *p, uint8_t dimension,
                                                            const uint16_t *table, size_t table_room, uint8_t *marks,
                                                            size_t marks_room)
{
    zg_nothing nothing = {0};
    return zg_mark_cells(p->n, p->darts, ZG_LEND_TABLE, dimension, ZG_LEND_BYTES(marks, marks_room, p->darts));
}

/* zg_add: accepted, the pyramid is one level higher. */
ZG_MUST_LOOK static inline zg_height zg_pyramid_add(zg_pyramid *p, const uint8_t *marks, size_t marks_room,
                                                    uint16_t *table, size_t table_room)
{
    zg_nothing nothing = {0};
    zg_height r = zg_add(ZG_LEND_PYRAMID, ZG_LEND_BYTES(marks, marks_room, p->darts), ZG_LEND_TABLE);
    p->h = r.height;
    return r;
}

/* zg_join: accepted, the pyramid is one level lower. */
ZG_MUST_LOOK static inline zg_height zg_pyramid_join(zg_pyramid *p, uint8_t level, uint16_t *table,
                                                     size_t table_room)
{
    zg_nothing nothing = {0};
    zg_height r = zg_join(ZG_LEND_PYRAMID, ZG_LEND_TABLE, level);
    p->h = r.height;
    return r;
}

/* zg_rebase: accepted, the pyramid has the level as its base, and old the old numbers of its darts. It forgets which
 * boundaries belong to one region: names that are to outlast it are taken before, names[old[d]] is that of dart d. */
ZG_MUST_LOOK static inline zg_base zg_pyramid_rebase(zg_pyramid *p, uint8_t level, uint16_t *table, size_t table_room,
                                                     uint16_t *old, size_t old_room)
{
    zg_nothing nothing = {0};
    zg_base r = zg_rebase(ZG_LEND_PYRAMID, ZG_LEND_TABLE, level, ZG_LEND_HALVES(old, old_room, p->darts));
    p->darts = r.darts;
    p->h = r.h;
    return r;
}

/* ---- Questions. */

/* zg_read */
ZG_MUST_LOOK static inline zg_link zg_pyramid_read(const zg_pyramid *p, uint8_t level, uint8_t involution,
                                                   uint16_t dart)
{
    zg_nothing nothing = {0};
    return zg_read(ZG_LEND_PYRAMID, level, involution, dart);
}

/* zg_read_by_levels */
ZG_MUST_LOOK static inline zg_reading zg_pyramid_read_by_levels(const zg_pyramid *p, uint8_t level,
                                                                uint8_t involution, uint16_t dart)
{
    zg_nothing nothing = {0};
    return zg_read_by_levels(ZG_LEND_PYRAMID, level, involution, dart);
}

/* zg_unfold */
ZG_MUST_LOOK static inline zg_unfolding zg_pyramid_unfold(const zg_pyramid *p, uint8_t level, uint16_t *table,
                                                          size_t table_room)
{
    zg_nothing nothing = {0};
    return zg_unfold(ZG_LEND_PYRAMID, level, ZG_LEND_TABLE);
}

/* zg_unfold_all; level l begins at entry ZG_LEVEL_AT(n, N, l) of the tables. */
ZG_MUST_LOOK static inline zg_refusal zg_pyramid_unfold_all(const zg_pyramid *p, uint16_t *tables, size_t tables_room,
                                                            zg_links *links)
{
    zg_nothing nothing = {0};
    size_t each = zg_pyramid_entries(p), due = each + each * p->h;
    return zg_unfold_all(ZG_LEND_PYRAMID, ZG_LEND_HALVES(tables, tables_room, due), links->counts, ZG_LEVELS,
                         links->since, ZG_LEVELS);
}

/* zg_row, with the table that holds the level; zg_pyramid_row_at has the row itself. */
ZG_MUST_LOOK static inline zg_part zg_pyramid_row(const zg_pyramid *p, uint8_t level, uint8_t involution,
                                                  const uint16_t *table, size_t table_room)
{
    zg_nothing nothing = {0};
    return zg_row(p->n, p->darts, p->h, ZG_LEND_ROWS, ZG_LEND_TABLE, level, involution);
}

/* Where the part lies, length entries from there; of a part that was accepted, with the same table. */
static inline const uint16_t *zg_pyramid_row_at(const zg_pyramid *p, zg_part part, const uint16_t *table)
{
    return (part.unfolded ? table : p->rows) + part.start;
}

/* zg_marks_of */
ZG_MUST_LOOK static inline zg_refusal zg_pyramid_marks_of(const zg_pyramid *p, uint8_t level, uint8_t *marks,
                                                          size_t marks_room)
{
    zg_nothing nothing = {0};
    return zg_marks_of(p->n, p->darts, p->h, ZG_LEND_LAMBDA, ZG_LEND_DELTA, level,
                       ZG_LEND_BYTES(marks, marks_room, p->darts));
}

/* zg_survivors; words has room for ZG_WORDS. */
ZG_MUST_LOOK static inline zg_count zg_pyramid_survivors(const zg_pyramid *p, uint8_t level, uint64_t *words,
                                                         size_t words_room)
{
    zg_nothing nothing = {0};
    return zg_survivors(p->darts, p->h, ZG_LEND_LAMBDA, level, ZG_LEND(words, words_room, ZG_WORDS, &nothing.word));
}

/* zg_decimation */
ZG_MUST_LOOK static inline zg_factor zg_pyramid_decimation(const zg_pyramid *p, uint8_t level, uint16_t *table,
                                                           size_t table_room)
{
    zg_nothing nothing = {0};
    return zg_decimation(ZG_LEND_PYRAMID, ZG_LEND_TABLE, level);
}

/* zg_census. A sum is the Euler number only while every cell is a ball. */
ZG_MUST_LOOK static inline zg_refusal zg_pyramid_census(const zg_pyramid *p, uint16_t *table, size_t table_room,
                                                        zg_counts *counts)
{
    zg_nothing nothing = {0};
    return zg_census(ZG_LEND_PYRAMID, ZG_LEND_TABLE, counts->cells, ZG_CELLS, counts->sums, ZG_SUMS);
}

/* zg_regions, of the second archive. */
ZG_MUST_LOOK static inline zg_refusal zg_pyramid_regions(const zg_pyramid *p, uint8_t level, uint16_t *table,
                                                         size_t table_room, uint16_t *names, size_t names_room)
{
    zg_nothing nothing = {0};
    return zg_regions(ZG_LEND_PYRAMID, ZG_LEND_TABLE, level, ZG_LEND_HALVES(names, names_room, p->darts));
}

#undef ZG_LEND
#undef ZG_LEND_ENTRIES
#undef ZG_LEND_HALVES
#undef ZG_LEND_BYTES
#undef ZG_LEND_ROWS
#undef ZG_LEND_LAMBDA
#undef ZG_LEND_DELTA
#undef ZG_LEND_PYRAMID
#undef ZG_LEND_TABLE

#endif
