/* Takes a record and counts the regions of each of its levels: regions RECORD. One line a level: its number, how many
 * names there are, and how many darts the largest region has. A refusal is said in words. Status 0 printed, 1 refused,
 * 2 the call is wrong, or something can't be read or written. */
#include "zompelgors_pyramid.h"
#include <stdio.h>

static zg_room room;

static int refused(zg_refusal r)
{
    if (zg_refused(r))
        printf("refused %u %u %u %u: %s\n", r.number, r.level, r.involution, r.dart, zg_refusal_text(r.number));
    return zg_refused(r);
}

static int wrong(const char *what)
{
    fprintf(stderr, "regions: %s\n", what);
    return 2;
}

/* The bytes of a file into the room; -1 if it can't be read. */
static long bytes_of(const char *path)
{
    FILE *file = fopen(path, "rb");
    size_t length = file ? fread(room.bytes, 1, sizeof room.bytes, file) : 0;
    int bad = !file || ferror(file);
    return (file && fclose(file)) || bad ? -1 : (long)length;
}

/* A dart that is its own name begins a region. */
static void count(unsigned level, unsigned darts)
{
    static unsigned size[ZG_MOST_DARTS];
    unsigned d, regions = 0, largest = 0;
    for (d = 0; d < darts; d++)
        size[d] = 0;
    for (d = 0; d < darts; d++) {
        regions += room.names[d] == d;
        size[room.names[d]]++;
    }
    for (d = 0; d < darts; d++)
        largest = size[d] > largest ? size[d] : largest;
    printf("%u %u %u\n", level, regions, largest);
}

int main(int argc, char **argv)
{
    if (argc != 2)
        return wrong("give a record");
    if (zg_version() != ZG_VERSION)
        return wrong("header and library are of two versions");
    long length = bytes_of(argv[1]);
    if (length < 0)
        return wrong("the record can't be read");

    zg_pyramid p = zg_room_pyramid(&room);
    if (refused(zg_pyramid_take(&p, room.bytes, (size_t)length, room.table, ZG_MOST_ENTRIES).refusal))
        return 1;
    for (uint8_t level = 0; level <= p.h; level++) {
        if (refused(zg_pyramid_regions(&p, level, room.table, ZG_MOST_ENTRIES, room.names, ZG_MOST_DARTS)))
            return 1;
        count(level, p.darts);
    }
    return fflush(stdout) || ferror(stdout) ? wrong("the counts can't be written") : 0;
}
