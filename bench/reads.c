/* Counts the table entries that the walks of all kernels read when a link is followed from both its ends, and when it is
 * followed once; and what relinking reads besides, with the test whether a link is known. The tables must be the same.
 * It is a counting copy of the removal in plain.c, and no faster than it need be. */
#include "maps.h"

#include <stdio.h>
#include <string.h>

struct reads {
    unsigned walks, of_walks, others;
};

static struct pyramid map;
static uint16_t tables[2][ZG_MOST_ENTRIES];
static unsigned *counter;

static uint16_t *entry(uint16_t *table, unsigned i, unsigned d)
{
    ++*counter;
    return table + i * map.darts + d;
}

static int in_kernel(unsigned level, unsigned d) { return map.lambda[d] == level; }

static unsigned walk(uint16_t *table, unsigned level, unsigned i, unsigned d)
{
    do
        d = *entry(table, i, *entry(table, map.delta[d] > ZG_CONTRACT ? i - 1 : i + 1, d));
    while (in_kernel(level, d));
    return d;
}

static void relink(uint16_t *table, unsigned level, int once, struct reads *r)
{
    for (unsigned d = 0; d < map.darts; d++) {
        if (!in_kernel(level, d))
            continue;
        unsigned i = map.delta[d] & (ZG_CONTRACT - 1);
        counter = &r->others;
        unsigned survivor = *entry(table, i, d);
        if (in_kernel(level, survivor) || (once && *entry(table, i, survivor) != d))
            continue;
        r->walks++;
        counter = &r->of_walks;
        unsigned end = walk(table, level, i, d);
        table[i * map.darts + survivor] = (uint16_t)end;
        if (once)
            table[i * map.darts + end] = (uint16_t)survivor;
    }
    for (unsigned k = 0; k < (map.n + 1u) * map.darts; k++)
        if (in_kernel(level, k % map.darts))
            table[k] = ZG_ABSENT;
}

int main(int argc, char **argv)
{
    int differ = 0;
    printf("%-22s %9s %9s %9s %9s %9s %9s %7s\n", "map (n, N, h)", "walks", "links", "reads", "once", "others", "once",
           "walked");
    for (int k = 1; k < argc; k++) {
        struct reads both = {0}, one = {0};
        char name[64];
        if (!make_pyramid(&map, argv[k]))
            return 2;
        memcpy(tables[0], map.rows, sizeof map.rows);
        memcpy(tables[1], map.rows, sizeof map.rows);
        for (unsigned level = 0; level < map.h; level++) {
            relink(tables[0], level, 0, &both);
            relink(tables[1], level, 1, &one);
        }
        differ |= memcmp(tables[0], tables[1], (map.n + 1u) * map.darts * sizeof *tables[0]);
        snprintf(name, sizeof name, "%s (%u, %u, %u)", argv[k], map.n, map.darts, map.h);
        printf("%-22s %9u %9u %9u %9u %9u %9u %7.3f\n", name, both.walks, one.walks, both.of_walks, one.of_walks,
               both.others, one.others, (double)one.of_walks / both.of_walks);
    }
    return differ ? 1 : 0;
}
