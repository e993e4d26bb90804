/* zompelgors_pyramid.h as C and as C++: every function of it does what the one that it hands on to does, on a record; room
 * that is more than due is taken, less is refused 4, and so is null: pyramid RECORD. */
#include "zompelgors_pyramid.h"

#include <stdio.h>
#include <string.h>
#ifdef __cplusplus
#include <vector>
#endif

static zg_room room, other;
static int failed;

#define HOLDS(what)                                                                                                    \
    do {                                                                                                               \
        if (!(what)) {                                                                                                 \
            printf("line %d: not so: %s\n", __LINE__, #what);                                                          \
            failed = 1;                                                                                                \
        }                                                                                                              \
    } while (0)
#define SAME(a, b) HOLDS(!memcmp(&(a), &(b), sizeof(zg_refusal)) && !memcmp(&room, &other, sizeof room))

/* Both rooms begin alike. */
static void alike(void)
{
    memcpy(&other, &room, sizeof room);
}

static size_t file_bytes(const char *path)
{
    FILE *file = fopen(path, "rb");
    size_t length = file ? fread(room.bytes, 1, sizeof room.bytes, file) : 0;
    if (file && fclose(file))
        length = 0;
    return length;
}

/* All levels at once, in both rooms; the top one is what a check leaves. */
static void all_levels(const zg_pyramid *p)
{
    static uint16_t tables[ZG_ALL_ENTRIES(4, 4096, 32)], plain[ZG_ALL_ENTRIES(4, 4096, 32)];
    const size_t N = p->darts, all = zg_pyramid_entries(p), room_of = sizeof tables / sizeof tables[0];
    zg_links links, others;
    memset(&links, 1, sizeof links);
    memcpy(&others, &links, sizeof links);
    zg_refusal r = zg_pyramid_unfold_all(p, tables, room_of, &links);
    zg_refusal s = zg_unfold_all(p->n, p->darts, p->h, other.rows, all, other.lambda, N, other.delta, N, plain,
                                 (p->h + 1u) * all, others.counts, ZG_LEVELS, others.since, ZG_LEVELS);
    SAME(r, s);
    HOLDS(!zg_refused(r) && !memcmp(&links, &others, sizeof links) && !memcmp(tables, plain, sizeof tables));
    r = zg_pyramid_check(p, room.table, ZG_MOST_ENTRIES);
    HOLDS(!memcmp(tables + ZG_LEVEL_AT(p->n, p->darts, p->h), room.table, 2 * all));
    for (uint8_t l = 0; l <= p->h; l++) {
        zg_unfolding u = zg_pyramid_unfold(p, l, room.table, ZG_MOST_ENTRIES);
        HOLDS(u.count == links.counts[l] && u.since == links.since[l]);
        HOLDS(!memcmp(tables + l * all, room.table, 2 * all));
    }
    for (unsigned l = p->h + 1u; l < ZG_LEVELS; l++)
        HOLDS(links.counts[l] == 0 && links.since[l] == 0);
    r = zg_pyramid_unfold_all(p, tables, (p->h + 1u) * all - 1, &links);
    HOLDS(r.number == ZG_E_LENGTH);
    r = zg_pyramid_unfold_all(p, NULL, room_of, &links);
    HOLDS(r.number == ZG_E_LENGTH);
}

/* Each question with the pyramid in room, and the same with plain arguments in the other. */
static void questions(const zg_pyramid *p)
{
    const size_t N = p->darts, all = zg_pyramid_entries(p);
    uint8_t l, i;
    for (l = 0; l <= p->h + 1; l++) {
        alike();
        zg_unfolding u = zg_pyramid_unfold(p, l, room.table, ZG_MOST_ENTRIES);
        zg_unfolding v = zg_unfold(p->n, p->darts, p->h, other.rows, all, other.lambda, N, other.delta, N, l,
                                   other.table, all);
        SAME(u.refusal, v.refusal);
        HOLDS(u.count == v.count && u.since == v.since && zg_refused(u.refusal) == (l > p->h));
        zg_refusal r = zg_pyramid_marks_of(p, l, room.marks, ZG_MOST_DARTS);
        zg_refusal s = zg_marks_of(p->n, p->darts, p->h, other.lambda, N, other.delta, N, l, other.marks, N);
        SAME(r, s);
        zg_count c = zg_pyramid_survivors(p, l, room.words, ZG_WORDS);
        zg_count d = zg_survivors(p->darts, p->h, other.lambda, N, l, other.words, ZG_WORDS);
        SAME(c.refusal, d.refusal);
        HOLDS(c.count == d.count);
        zg_factor f = zg_pyramid_decimation(p, l, room.table, ZG_MOST_ENTRIES);
        zg_factor g = zg_decimation(p->n, p->darts, p->h, other.rows, all, other.lambda, N, other.delta, N,
                                    other.table, all, l);
        SAME(f.refusal, g.refusal);
        HOLDS(f.empty == g.empty && !memcmp(&f.factor, &g.factor, sizeof f.factor));
        r = zg_pyramid_regions(p, l, room.table, ZG_MOST_ENTRIES, room.names, ZG_MOST_DARTS);
        s = zg_regions(p->n, p->darts, p->h, other.rows, all, other.lambda, N, other.delta, N, other.table, all, l,
                       other.names, N);
        SAME(r, s);
        for (i = 0; i <= p->n + 1; i++) {
            const uint16_t dart = (N - 1) & 0xFFFFu;
            zg_link j = zg_pyramid_read(p, l, i, dart);
            zg_link k = zg_read(p->n, p->darts, p->h, other.rows, all, other.lambda, N, other.delta, N, l, i, dart);
            SAME(j.refusal, k.refusal);
            HOLDS(j.neighbour == k.neighbour && j.count == k.count && j.since == k.since);
            zg_reading m = zg_pyramid_read_by_levels(p, l, i, dart);
            zg_reading o = zg_read_by_levels(p->n, p->darts, p->h, other.rows, all, other.lambda, N, other.delta, N,
                                             l, i, dart);
            SAME(m.refusal, o.refusal);
            HOLDS(m.neighbour == o.neighbour && m.count == o.count && m.neighbour == j.neighbour);
            zg_part x = zg_pyramid_row(p, l, i, room.table, ZG_MOST_ENTRIES);
            zg_part y = zg_row(p->n, p->darts, p->h, other.rows, all, other.table, all, l, i);
            SAME(x.refusal, y.refusal);
            HOLDS(x.unfolded == y.unfolded && x.start == y.start && x.length == y.length);
            if (!zg_refused(x.refusal))
                HOLDS(zg_pyramid_row_at(p, x, room.table) == (l ? room.table : room.rows) + i * N);
        }
    }
    alike();
    zg_refusal r = zg_pyramid_census(p, room.table, ZG_MOST_ENTRIES, &room.counts);
    zg_refusal s = zg_census(p->n, p->darts, p->h, other.rows, all, other.lambda, N, other.delta, N, other.table, all,
                             other.counts.cells, ZG_CELLS, other.counts.sums, ZG_SUMS);
    SAME(r, s);
    HOLDS(room.counts.cells[ZG_CELL_AT(p->h, p->n)] > 0 && room.counts.cells[ZG_CELL_AT(p->h, p->n) + 1] == 0);
    r = zg_pyramid_check_base(p);
    HOLDS(!zg_refused(r));
    zg_written w = zg_pyramid_write(p, room.table, ZG_MOST_ENTRIES, room.bytes, ZG_MOST_RECORD);
    HOLDS(!zg_refused(w.refusal) && w.length == zg_pyramid_record_bytes(p) &&
          w.length == ZG_RECORD_BYTES(p->n, p->darts));
    w = zg_pyramid_write(p, room.table, ZG_MOST_ENTRIES, room.bytes, zg_pyramid_record_bytes(p) - 1);
    HOLDS(w.refusal.number == ZG_E_LENGTH);
}

/* A level is added, joined and made the base, in both rooms. */
static void changes(zg_pyramid *p)
{
    const uint8_t h = p->h, n = p->n;
    const uint16_t darts = p->darts;
    const size_t N = darts, all = zg_pyramid_entries(p);
    alike();
    zg_refusal r = zg_pyramid_mark_cells(p, 0, room.table, ZG_MOST_ENTRIES, room.marks, ZG_MOST_DARTS);
    zg_refusal s = zg_mark_cells(n, p->darts, other.table, all, 0, other.marks, N);
    SAME(r, s);
    zg_height a = zg_pyramid_add(p, room.marks, ZG_MOST_DARTS, room.table, ZG_MOST_ENTRIES);
    zg_height b = zg_add(n, p->darts, h, other.rows, all, other.lambda, N, other.delta, N, other.marks, N,
                         other.table, all);
    SAME(a.refusal, b.refusal);
    HOLDS(!zg_refused(a.refusal) && a.height == h + 1 && b.height == h + 1 && p->h == h + 1);
    a = zg_pyramid_join(p, h, room.table, ZG_MOST_ENTRIES);
    HOLDS(a.refusal.number == ZG_E_NO_LEVEL && p->h == h + 1);
    a = zg_pyramid_add(p, room.marks, N - 1, room.table, ZG_MOST_ENTRIES);
    HOLDS(a.refusal.number == ZG_E_LENGTH && p->h == h + 1);
    memset(room.marks, ZG_STAY, sizeof room.marks);
    a = zg_pyramid_add(p, room.marks, ZG_MOST_DARTS, room.table, ZG_MOST_ENTRIES);
    HOLDS(!zg_refused(a.refusal) && p->h == h + 2);
    a = zg_pyramid_join(p, h, room.table, ZG_MOST_ENTRIES);
    HOLDS(!zg_refused(a.refusal) && a.height == h + 1 && p->h == h + 1);
    alike();
    const uint8_t top = p->h;
    zg_base c = zg_pyramid_rebase(p, h, room.table, ZG_MOST_ENTRIES, room.old, ZG_MOST_DARTS);
    zg_base d = zg_rebase(n, darts, top, other.rows, all, other.lambda, N, other.delta, N,
                          other.table, all, h, other.old, N);
    SAME(c.refusal, d.refusal);
    HOLDS(!zg_refused(c.refusal) && c.darts == d.darts && p->darts == c.darts && p->h == 1 && c.darts < N);
    r = zg_pyramid_check(p, room.table, ZG_MOST_ENTRIES);
    HOLDS(!zg_refused(r));
    p->h = 9;
    r = zg_pyramid_begin(p);
    HOLDS(!zg_refused(r) && p->h == 0 && room.delta[0] == n && room.lambda[p->darts - 1] == 0);
    r = zg_pyramid_check(p, room.table, ZG_MOST_ENTRIES);
    HOLDS(!zg_refused(r));
}

/* Less than is due, and null, as an empty std::vector has it. */
static void little(zg_pyramid p)
{
    const zg_pyramid whole = p;
    zg_refusal r = zg_pyramid_check(&p, room.table, zg_pyramid_entries(&p) - 1);
    HOLDS(r.number == ZG_E_LENGTH);
    r = zg_pyramid_check(&p, NULL, 0);
    HOLDS(r.number == ZG_E_LENGTH);
    r = zg_pyramid_check(&p, NULL, ZG_MOST_ENTRIES);
    HOLDS(r.number == ZG_E_LENGTH);
    p.rows = NULL;
    r = zg_pyramid_check(&p, room.table, ZG_MOST_ENTRIES);
    HOLDS(r.number == ZG_E_LENGTH);
    p = whole;
    p.lambda_room = p.darts - 1u;
    r = zg_pyramid_check(&p, room.table, ZG_MOST_ENTRIES);
    HOLDS(r.number == ZG_E_LENGTH);
    r = zg_pyramid_begin(&p);
    HOLDS(r.number == ZG_E_LENGTH && room.delta[0] == whole.delta[0]);
    p = whole;
    p.delta = NULL;
    zg_link l = zg_pyramid_read(&p, 0, 0, 0);
    HOLDS(l.refusal.number == ZG_E_LENGTH);
    zg_count c = zg_pyramid_survivors(&whole, 0, NULL, 0);
    HOLDS(c.refusal.number == ZG_E_LENGTH);
    p = whole;
    zg_record t = zg_pyramid_take(&p, NULL, 0, NULL, 0);
    HOLDS(t.refusal.number == ZG_E_ENDS_EARLY && p.darts == 0 && p.n == 0);
    r = zg_pyramid_check(&p, room.table, ZG_MOST_ENTRIES);
    HOLDS(r.number == ZG_E_DIMENSION);
    p.n = 255;
    p.darts = 65535;
    r = zg_pyramid_check(&p, room.table, ZG_MOST_ENTRIES);
    HOLDS(r.number == ZG_E_DIMENSION);
}

#ifdef __cplusplus
/* Vectors, an empty one too. */
static void vectors(const zg_pyramid *p)
{
    std::vector<uint16_t> none, table(zg_pyramid_entries(p));
    zg_refusal r = zg_pyramid_check(p, none.data(), none.size());
    HOLDS(r.number == ZG_E_LENGTH);
    r = zg_pyramid_check(p, table.data(), table.size());
    HOLDS(!zg_refused(r) && !memcmp(table.data(), room.table, table.size() * sizeof table[0]));
}
#endif

/* At height 0 number 8 of an add has level 0 for Delta and for the marks: lambda and delta of the dart tell which. */
static void eight(zg_pyramid *p)
{
    zg_height r;
    zg_refusal s = zg_pyramid_begin(p);
    HOLDS(!zg_refused(s));
    memset(room.marks, ZG_STAY, sizeof room.marks);
    room.marks[1] = p->n;
    r = zg_pyramid_add(p, room.marks, ZG_MOST_DARTS, room.table, ZG_MOST_ENTRIES);
    HOLDS(r.refusal.number == ZG_E_MARKS && r.refusal.level == 0 && r.refusal.dart == 1);
    HOLDS(room.lambda[r.refusal.dart] == 0 && room.delta[r.refusal.dart] == p->n);
    room.delta[2] = 0;
    r = zg_pyramid_add(p, room.marks, ZG_MOST_DARTS, room.table, ZG_MOST_ENTRIES);
    HOLDS(r.refusal.number == ZG_E_MARKS && r.refusal.level == 0 && r.refusal.dart == 2);
    HOLDS(room.lambda[r.refusal.dart] != 0 || room.delta[r.refusal.dart] != p->n);
    room.delta[2] = p->n;
}

/* A vertex with two edges that end, brought in and taken back. */
static void partner(zg_pyramid *p)
{
    const uint16_t edges[4] = {1, 0, 3, 2}, vertices[4] = {2, 1, 0, 3};
    zg_refusal r = zg_pyramid_import(p, 4, edges, 3, vertices, 4);
    HOLDS(r.number == ZG_E_LENGTH);
    r = zg_pyramid_import(p, 4, edges, 4, vertices, 4);
    HOLDS(!zg_refused(r) && p->n == 2 && p->darts == 8 && p->h == 0);
    r = zg_pyramid_check(p, room.table, ZG_MOST_ENTRIES);
    HOLDS(!zg_refused(r));
    r = zg_pyramid_export(p, room.edges, ZG_MOST_PARTNER_DARTS, room.vertices, ZG_MOST_PARTNER_DARTS);
    HOLDS(!zg_refused(r) && !memcmp(room.edges, edges, sizeof edges) && !memcmp(room.vertices, vertices, sizeof vertices));
    r = zg_pyramid_import(p, 0, NULL, 0, NULL, 0);
    HOLDS(r.number == ZG_E_DARTS && p->darts == 8);
    p->delta_room = 7;
    r = zg_pyramid_import(p, 4, edges, 4, vertices, 4);
    HOLDS(r.number == ZG_E_LENGTH && p->darts == 8);
}

int main(int argc, char **argv)
{
    static uint16_t rows[ZG_ENTRIES(2, 12)]; /* the size is a constant where its parts are */
    size_t length = argc == 2 ? file_bytes(argv[1]) : 0;
    zg_pyramid p = zg_room_pyramid(&room);
    zg_record r = zg_pyramid_take(&p, room.bytes, length, room.table, ZG_MOST_ENTRIES);
    HOLDS(!zg_refused(r.refusal) && p.n == r.n && p.h == r.h && p.darts == r.darts && sizeof rows == 72);
    if (failed)
        return 1;
    questions(&p);
    alike();
    all_levels(&p);
#ifdef __cplusplus
    vectors(&p);
#endif
    little(p);
    changes(&p);
    eight(&p);
    partner(&p);
    printf("%u darts, %u levels: every function as the plain one\n", r.darts, r.h + 1u);
    return failed;
}
