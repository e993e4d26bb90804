/* The headers and the two archives, as C and as C++: layouts, numbers and texts, that header and archive are of one
 * version, and that both archives are linked side by side. */
#include "zompelgors.h"
#include "zompelgors_regions.h"

#include <stdio.h>
#include <string.h>

#define SAME(name, a, b) typedef char name[(a) == (b) ? 1 : -1]

SAME(size_of_refusal, sizeof(zg_refusal), 8);
SAME(place_of_dart, offsetof(zg_refusal, dart), 6);
SAME(size_of_reading, sizeof(zg_reading), 16);
SAME(place_of_count, offsetof(zg_reading, count), 8);
SAME(place_of_neighbour, offsetof(zg_reading, neighbour), 12);
SAME(size_of_link, sizeof(zg_link), 16);
SAME(place_of_link_count, offsetof(zg_link, count), 8);
SAME(place_of_link_neighbour, offsetof(zg_link, neighbour), 12);
SAME(place_of_since, offsetof(zg_link, since), 14);
SAME(size_of_unfolding, sizeof(zg_unfolding), 16);
SAME(place_of_unfolding_count, offsetof(zg_unfolding, count), 8);
SAME(place_of_latest, offsetof(zg_unfolding, since), 12);
SAME(size_of_count, sizeof(zg_count), 12);
SAME(place_of_total, offsetof(zg_count, count), 8);
SAME(size_of_height, sizeof(zg_height), 10);
SAME(place_of_height, offsetof(zg_height, height), 8);
SAME(size_of_part, sizeof(zg_part), 14);
SAME(place_of_unfolded, offsetof(zg_part, unfolded), 8);
SAME(place_of_start, offsetof(zg_part, start), 10);
SAME(place_of_length, offsetof(zg_part, length), 12);
SAME(size_of_record, sizeof(zg_record), 12);
SAME(place_of_n, offsetof(zg_record, n), 8);
SAME(place_of_h, offsetof(zg_record, h), 9);
SAME(place_of_darts, offsetof(zg_record, darts), 10);
SAME(size_of_factor, sizeof(zg_factor), 24);
SAME(place_of_empty, offsetof(zg_factor, empty), 8);
SAME(place_of_factor, offsetof(zg_factor, factor), 16);
SAME(size_of_written, sizeof(zg_written), 12);
SAME(place_of_written_length, offsetof(zg_written, length), 8);
SAME(size_of_base, sizeof(zg_base), 12);
SAME(place_of_base_darts, offsetof(zg_base, darts), 8);
SAME(place_of_base_height, offsetof(zg_base, h), 10);

/* Every answer begins with its refusal. */
SAME(first_of_reading, offsetof(zg_reading, refusal), 0);
SAME(first_of_link, offsetof(zg_link, refusal), 0);
SAME(first_of_unfolding, offsetof(zg_unfolding, refusal), 0);
SAME(first_of_count, offsetof(zg_count, refusal), 0);
SAME(first_of_height, offsetof(zg_height, refusal), 0);
SAME(first_of_part, offsetof(zg_part, refusal), 0);
SAME(first_of_record, offsetof(zg_record, refusal), 0);
SAME(first_of_factor, offsetof(zg_factor, refusal), 0);
SAME(first_of_written, offsetof(zg_written, refusal), 0);
SAME(first_of_base, offsetof(zg_base, refusal), 0);

/* Sizes that follow from others. */
SAME(most_entries, ZG_MOST_ENTRIES, (ZG_MOST_DIMENSION + 1) * ZG_MOST_DARTS);
SAME(most_record, ZG_MOST_RECORD, 7 + 5 * (3 + 2 * ZG_MOST_DARTS) + 2 * (3 + ZG_MOST_DARTS));
SAME(rows_of_a_census, ZG_SUMS, ZG_MOST_HEIGHT + 1);
SAME(counts_of_a_census, ZG_CELLS, 5 * ZG_SUMS);
SAME(older_name_of_a_height, ZG_MOST_LEVELS, ZG_MOST_HEIGHT);

/* The old names of the numbers, as long as they are there. */
#ifndef ZG_NO_OLD_NAMES
SAME(old_darts, ZG_DARTS, ZG_E_DARTS);
SAME(old_marks, ZG_MARKS, ZG_E_MARKS);
SAME(old_contracted, ZG_CONTRACTED, ZG_E_CONTRACTED);
#endif

static int fail(const char *what)
{
    printf("%s\n", what);
    return 1;
}

int main(void)
{
    uint16_t k, other;
    const uint16_t rows[4] = {1, 0, 0, 1};
    const uint8_t lambda[2] = {1, 0}, delta[2] = {1, 0};
    uint16_t table[4], names[2] = {9, 9};
    if (zg_version() != ZG_VERSION)
        return fail("the archive is of another version than the header");
    for (k = ZG_ACCEPTED; k <= ZG_E_CONTRACTED; k++)
        for (other = 0; other < k; other++)
            if (!strcmp(zg_refusal_text(k), zg_refusal_text(other)))
                return fail("two numbers have one text");
    if (strcmp(zg_refusal_text(ZG_E_CONTRACTED + 1), zg_refusal_text(65535)))
        return fail("a text for a number that is none");
    if (zg_check(1, 2, 1, rows, 4, lambda, 2, delta, 2, table, 4).number ||
        zg_regions(1, 2, 1, rows, 4, lambda, 2, delta, 2, table, 4, 1, names, 2).number || names[0] || names[1])
        return fail("the two archives don't go together");
    printf("version %d.%d.%d, %d numbers\n", ZG_VERSION_MAJOR, ZG_VERSION_MINOR, ZG_VERSION_PATCH, ZG_E_CONTRACTED);
    return 0;
}
