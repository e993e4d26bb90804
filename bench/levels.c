/* Prints for each level of each map its survivors and the base entries that unfolding it reads, as the library answers:
 * level MAP n N h, then level, survivors and reads. */
#include "maps.h"

#include <stdio.h>

static struct pyramid map;
static uint16_t table[ZG_MOST_ENTRIES];

static unsigned survivors(void)
{
    unsigned found = 0;
    for (unsigned d = 0; d < map.darts; d++)
        found += table[d] != ZG_ABSENT;
    return found;
}

int main(int argc, char **argv)
{
    for (int k = 1; k < argc; k++) {
        if (!make_pyramid(&map, argv[k]))
            return 2;
        size_t len = (size_t)(map.n + 1) * map.darts;
        for (unsigned l = 0; l <= map.h; l++) {
            zg_unfolding r = zg_unfold(map.n, map.darts, map.h, map.rows, len, map.lambda, map.darts, map.delta,
                                       map.darts, (uint8_t)l, table, len);
            if (r.refusal.number)
                return 1;
            printf("level %s %u %u %u %u %u %u\n", argv[k], map.n, map.darts, map.h, l, survivors(), r.count);
        }
    }
    return 0;
}
