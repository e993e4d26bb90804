/* The maps that the jobs are measured on: grids of cubes and rings, and pyramids by removing some of their removable
 * cells, in some of them also by contracting contractible ones. */
#include "maps.h"
#include "plain.h"

#include <stdio.h>
#include <stdlib.h>
#include <string.h>

struct form {
    const char *name;
    unsigned n, size[4];
    unsigned hole_from[4], hole_to[4]; /* cubes left out */
    unsigned levels, percent;          /* how many levels, and how many of the cells that fit go in each */
    int shuffled;                      /* darts numbered at random */
    int contracted;                    /* every kernel has cells of both kinds */
    int ring;                          /* a ring of so many darts in place of a grid */
};

static const struct form forms[] = {
    {"grid2", 2, {16, 32, 1, 1}, {0}, {0}, 8, 30, 0},
    {"grid2-2048", 2, {16, 16, 1, 1}, {0}, {0}, 8, 30, 0},
    {"grid2-1024", 2, {8, 16, 1, 1}, {0}, {0}, 8, 30, 0},
    {"grid2-512", 2, {8, 8, 1, 1}, {0}, {0}, 8, 30, 0},
    {"grid3", 3, {3, 4, 7, 1}, {0}, {0}, 9, 30, 0},
    {"path32", 1, {2048, 1, 1, 1}, {0}, {0}, 32, 8, 0},
    {"path32-2048", 1, {1024, 1, 1, 1}, {0}, {0}, 32, 8, 0},
    {"path32-1024", 1, {512, 1, 1, 1}, {0}, {0}, 32, 8, 0},
    {"path32-512", 1, {256, 1, 1, 1}, {0}, {0}, 32, 8, 0},
    {"grid4", 4, {1, 1, 2, 5}, {0}, {0}, 8, 30, 0},
    {"strip", 2, {1, 512, 1, 1}, {0}, {0}, 8, 30, 1},
    {"strip-2048", 2, {1, 256, 1, 1}, {0}, {0}, 8, 30, 1},
    {"strip-1024", 2, {1, 128, 1, 1}, {0}, {0}, 8, 30, 1},
    {"strip-512", 2, {1, 64, 1, 1}, {0}, {0}, 8, 30, 1},
    {"voxels", 3, {3, 5, 6, 1}, {1, 1, 1, 0}, {2, 3, 4, 1}, 9, 30, 0},
    {"both1", 1, {2048, 1, 1, 1}, {0}, {0}, 32, 4, 0, 1},
    {"both2", 2, {16, 32, 1, 1}, {0}, {0}, 8, 15, 0, 1},
    {"both3", 3, {3, 4, 7, 1}, {0}, {0}, 9, 15, 0, 1},
    {"both4", 4, {1, 1, 2, 5}, {0}, {0}, 8, 15, 0, 1},
    {"cycle", 1, {0}, {0}, {0}, 1, 99, 1, 0, 4096},
    {"vertex", 2, {0}, {0}, {0}, 1, 99, 1, 0, 4096},
    {"vertex-2048", 2, {0}, {0}, {0}, 1, 99, 1, 0, 2048},
    {"vertex-1024", 2, {0}, {0}, {0}, 1, 99, 1, 0, 1024},
    {"vertex-512", 2, {0}, {0}, {0}, 1, 99, 1, 0, 512},
    {"tall1", 2, {16, 32, 1, 1}, {0}, {0}, 1, 8, 0},
    {"tall2", 2, {16, 32, 1, 1}, {0}, {0}, 2, 8, 0},
    {"tall4", 2, {16, 32, 1, 1}, {0}, {0}, 4, 8, 0},
    {"tall8", 2, {16, 32, 1, 1}, {0}, {0}, 8, 8, 0},
    {"tall16", 2, {16, 32, 1, 1}, {0}, {0}, 16, 8, 0},
    {"tall32", 2, {16, 32, 1, 1}, {0}, {0}, 32, 8, 0},
};

static uint64_t random_state;

static unsigned random_below(unsigned bound)
{
    random_state = random_state * 6364136223846793005u + 1442695040888963407u;
    return (unsigned)(random_state >> 33) % bound;
}

/* ---------------------------------------------------------------- grids */

/* A dart of a cube is a corner and an order of the axes: the edge runs along the first, the face along the first two,
 * and the next cube lies beyond the last. */
static unsigned orders;
static uint8_t order_of[24][4];

static void list_orders(unsigned n)
{
    orders = 0;
    for (unsigned code = 0; code < 256; code++) {
        unsigned axes[4] = {code & 3, code >> 2 & 3, code >> 4 & 3, code >> 6}, seen = 0;
        for (unsigned k = 0; k < n; k++)
            seen |= 1u << axes[k];
        if (seen != (1u << n) - 1 || code >> 2 * n)
            continue;
        for (unsigned k = 0; k < n; k++)
            order_of[orders][k] = (uint8_t)axes[k];
        orders++;
    }
}

static unsigned order_with_swap(unsigned n, unsigned order, unsigned k)
{
    uint8_t axes[4];
    memcpy(axes, order_of[order], 4);
    axes[k - 1] = order_of[order][k];
    axes[k] = order_of[order][k - 1];
    unsigned found = 0;
    while (memcmp(order_of[found], axes, n))
        found++;
    return found;
}

static int in_hole(const struct form *f, const unsigned *at)
{
    for (unsigned k = 0; k < f->n; k++)
        if (at[k] < f->hole_from[k] || at[k] >= f->hole_to[k])
            return 0;
    return 1;
}

static unsigned cube_at(const struct form *f, const unsigned *at)
{
    return ((at[3] * f->size[2] + at[2]) * f->size[1] + at[1]) * f->size[0] + at[0];
}

/* Numbers the cubes that are there, the others have ZG_ABSENT. */
static unsigned number_cubes(const struct form *f, uint16_t *number)
{
    unsigned at[4], cubes = 0;
    for (at[3] = 0; at[3] < f->size[3]; at[3]++)
        for (at[2] = 0; at[2] < f->size[2]; at[2]++)
            for (at[1] = 0; at[1] < f->size[1]; at[1]++)
                for (at[0] = 0; at[0] < f->size[0]; at[0]++)
                    number[cube_at(f, at)] = (uint16_t)(in_hole(f, at) ? ZG_ABSENT : cubes++);
    return cubes;
}

/* The number of the cube beyond an axis, or ZG_ABSENT. */
static unsigned cube_beyond(const struct form *f, const uint16_t *number, unsigned cube, unsigned axis, int up)
{
    unsigned at[4];
    for (unsigned k = 0, left = cube; k < 4; left /= f->size[k], k++)
        at[k] = left % f->size[k];
    if (at[axis] == (up ? f->size[axis] - 1 : 0))
        return ZG_ABSENT;
    at[axis] = up ? at[axis] + 1 : at[axis] - 1;
    return number[cube_at(f, at)];
}

static void link_cube(const struct form *f, const uint16_t *number, unsigned cube, struct pyramid *p)
{
    unsigned n = f->n, flags = orders << n, first = number[cube] * flags;
    for (unsigned flag = 0; flag < flags; flag++) {
        unsigned corner = flag / orders, order = flag % orders, last = order_of[order][n - 1];
        unsigned across = (corner ^ 1u << last) * orders + order, d = first + flag;
        unsigned beyond = cube_beyond(f, number, cube, last, corner >> last & 1);
        p->rows[d] = (uint16_t)(first + (corner ^ 1u << order_of[order][0]) * orders + order);
        for (unsigned i = 1; i < n; i++)
            p->rows[i * p->darts + d] = (uint16_t)(first + corner * orders + order_with_swap(n, order, i));
        p->rows[n * p->darts + d] = (uint16_t)(beyond == ZG_ABSENT ? d : beyond * flags + across);
    }
}

static void make_grid(const struct form *f, struct pyramid *p)
{
    static uint16_t number[ZG_MOST_DARTS];
    list_orders(f->n);
    unsigned cubes = number_cubes(f, number), all = f->size[0] * f->size[1] * f->size[2] * f->size[3];
    p->n = (uint8_t)f->n;
    p->h = 0;
    p->darts = (uint16_t)(cubes * (orders << f->n));
    for (unsigned cube = 0; cube < all; cube++)
        if (number[cube] != ZG_ABSENT)
            link_cube(f, number, cube, p);
}

/* The last two rows lead round a ring of all darts: a cycle for n = 1, and for n = 2 one vertex, whose edges join its
 * opposite sides. With nearly all cells of dimension n-1 in one kernel, walks are long. */
static void make_ring(const struct form *f, struct pyramid *p)
{
    unsigned darts = (unsigned)f->ring;
    p->n = (uint8_t)f->n;
    p->h = 0;
    p->darts = (uint16_t)darts;
    for (unsigned d = 0; d < darts; d++) {
        p->rows[d] = (uint16_t)((d + darts / 2) % darts);
        p->rows[(f->n - 1) * darts + d] = (uint16_t)(d ^ 1);
        p->rows[f->n * darts + d] = (uint16_t)((d & 1 ? d + 1 : d + darts - 1) % darts);
    }
}

static void shuffle_darts(struct pyramid *p)
{
    static uint16_t name[ZG_MOST_DARTS], old[ZG_MOST_ENTRIES];
    for (unsigned d = 0; d < p->darts; d++)
        name[d] = (uint16_t)d;
    for (unsigned k = p->darts; k > 1; k--) {
        unsigned other = random_below(k);
        uint16_t kept = name[k - 1];
        name[k - 1] = name[other];
        name[other] = kept;
    }
    memcpy(old, p->rows, sizeof old);
    for (unsigned i = 0; i <= p->n; i++)
        for (unsigned d = 0; d < p->darts; d++)
            p->rows[i * p->darts + name[d]] = name[old[i * p->darts + d]];
}

/* ---------------------------------------------------------------- pyramids */

/* The darts of one cell, in the order in which they are reached; returns how many. */
static unsigned list_cell(const struct pyramid *p, const uint16_t *table, unsigned dimension, unsigned dart,
                          uint16_t *cell)
{
    static uint8_t met[ZG_MOST_DARTS];
    unsigned opens = 0, all = 1;
    memset(met, 0, sizeof met);
    cell[0] = (uint16_t)dart;
    met[dart] = 1;
    for (; opens < all; opens++)
        for (unsigned j = 0; j <= p->n; j++) {
            unsigned e = table[j * p->darts + cell[opens]];
            if (j != dimension && !met[e]) {
                met[e] = 1;
                cell[all++] = (uint16_t)e;
            }
        }
    return all;
}

static int none_marked(const uint16_t *cell, unsigned size, const uint8_t *marks)
{
    for (unsigned k = 0; k < size; k++)
        if (marks[cell[k]] != ZG_STAY)
            return 0;
    return 1;
}

/* Marks some of the removable cells of one dimension, apart from what is marked already. */
static void choose_cells(const struct pyramid *p, const uint16_t *table, unsigned dimension, unsigned percent,
                         uint8_t mark, uint8_t *marks)
{
    static uint16_t cell[ZG_MOST_DARTS];
    static uint8_t fits[ZG_MOST_DARTS];
    plain_removable(p->n, p->darts, table, dimension, fits);
    for (unsigned d = 0; d < p->darts; d++)
        if (fits[d] != ZG_STAY) {
            unsigned size = list_cell(p, table, dimension, d, cell);
            int taken = random_below(100) < percent && none_marked(cell, size, marks);
            for (unsigned k = 0; k < size; k++) {
                fits[cell[k]] = ZG_STAY;
                if (taken)
                    marks[cell[k]] = mark;
            }
        }
}

/* A cell of dimension d is contractible where it is removable, with dimension n-d, in the map whose rows stand in the
 * other order. */
static void choose_contracted(const struct pyramid *p, const uint16_t *table, unsigned dimension, unsigned percent,
                              uint8_t *marks)
{
    static uint16_t turned[ZG_MOST_ENTRIES];
    for (unsigned i = 0; i <= p->n; i++)
        memcpy(turned + (p->n - i) * p->darts, table + i * p->darts, p->darts * sizeof *table);
    choose_cells(p, turned, p->n - dimension, percent, (uint8_t)(ZG_CONTRACT + dimension), marks);
}

/* Dimensions in turn: the highest first to be removed, edges first to be contracted. */
static void add_levels(struct pyramid *p, const struct form *f)
{
    static uint16_t table[ZG_MOST_ENTRIES];
    static uint8_t marks[ZG_MOST_DARTS];
    size_t len = (size_t)(p->n + 1) * p->darts;
    memset(p->lambda, 0, p->darts);
    memset(p->delta, p->n, p->darts);
    memcpy(table, p->rows, len * sizeof *table);
    while (p->h < f->levels) {
        unsigned turn = p->h % p->n, removed = p->n - 1u - turn;
        memset(marks, ZG_STAY, sizeof marks);
        choose_cells(p, table, removed, f->percent, (uint8_t)removed, marks);
        if (f->contracted)
            choose_contracted(p, table, 1 + turn, f->percent, marks);
        zg_height r = plain_add(p->n, p->darts, p->h, p->rows, len, p->lambda, p->darts, p->delta, p->darts, marks,
                                p->darts, table, len);
        if (r.refusal.number)
            abort();
        p->h = r.height;
    }
}

int make_pyramid(struct pyramid *p, const char *name)
{
    for (const struct form *f = forms; f < forms + sizeof forms / sizeof *forms; f++)
        if (!strcmp(f->name, name)) {
            random_state = 1;
            if (f->ring)
                make_ring(f, p);
            else
                make_grid(f, p);
            if (f->shuffled)
                shuffle_darts(p);
            add_levels(p, f);
            return 1;
        }
    return 0;
}

static uint8_t *put_field(uint8_t *to, unsigned tag, unsigned length)
{
    to[0] = (uint8_t)tag;
    to[1] = (uint8_t)length;
    to[2] = (uint8_t)(length >> 8);
    return to + 3;
}

unsigned write_record(const struct pyramid *p, uint8_t *bytes)
{
    uint8_t *to = put_field(bytes, 0x01, 4);
    *to++ = p->n;
    *to++ = p->h;
    *to++ = (uint8_t)p->darts;
    *to++ = (uint8_t)(p->darts >> 8);
    for (unsigned i = 0; i <= p->n; i++) {
        to = put_field(to, 0x10 + i, 2u * p->darts);
        for (unsigned d = 0; d < p->darts; d++) {
            *to++ = (uint8_t)p->rows[i * p->darts + d];
            *to++ = (uint8_t)(p->rows[i * p->darts + d] >> 8);
        }
    }
    to = put_field(to, 0x30, p->darts);
    memcpy(to, p->lambda, p->darts);
    to = put_field(to + p->darts, 0x31, p->darts);
    memcpy(to, p->delta, p->darts);
    return (unsigned)(to + p->darts - bytes);
}
