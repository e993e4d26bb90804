/* A station's day: takes a record, asks how its top level is linked and since when, counts its cells, adds a level by
 * marking and writes the pyramid back: station RECORD NEW_RECORD. A refusal is said in words, and nothing is written
 * then. Status 0 written, 1 refused, 2 the call is wrong, or something can't be read or written. */
#include "zompelgors_pyramid.h"
#include <stdio.h>

static zg_room room;

static int refused(zg_refusal r)
{
    if (zg_refused(r))
        printf("refused %u %u %u %u: %s\n", r.number, r.level, r.involution, r.dart, zg_refusal_text(r.number));
    return zg_refused(r);
}

static int wrong(const char *what)
{
    fprintf(stderr, "station: %s\n", what);
    return 2;
}

/* The bytes of a file into the room; -1 if it can't be read. */
static long bytes_of(const char *path)
{
    FILE *file = fopen(path, "rb");
    size_t length = file ? fread(room.bytes, 1, sizeof room.bytes, file) : 0;
    int bad = !file || ferror(file);
    return (file && fclose(file)) || bad ? -1 : (long)length;
}

/* The front of the room's bytes into a file, whole. */
static int written(const char *path, size_t length)
{
    FILE *file = fopen(path, "wb");
    int whole = file && fwrite(room.bytes, 1, length, file) == length;
    return file && !fclose(file) && whole;
}

/* The neighbours of the lowest dart of the top level, which the table holds, with the reads of each and since when. */
static int links(const zg_pyramid *p)
{
    uint16_t dart = 0;
    while (dart < p->darts && room.table[dart] == ZG_ABSENT)
        dart++;
    for (uint8_t i = 0; i <= p->n && dart < p->darts; i++) {
        zg_link l = zg_pyramid_read(p, p->h, i, dart);
        if (refused(l.refusal))
            return 0;
        printf("link %u a%u %u reads %u since %u\n", dart, i, l.neighbour, (unsigned)l.count, l.since);
    }
    return 1;
}

/* The cells of each dimension of the top level, and their alternating sum; the table then holds that level. The sum is
 * the Euler number only while every cell is a ball. */
static int census(const zg_pyramid *p)
{
    if (refused(zg_pyramid_census(p, room.table, ZG_MOST_ENTRIES, &room.counts)))
        return 0;
    printf("census of level %u:", p->h);
    for (unsigned i = 0; i <= p->n; i++)
        printf(" %u", room.counts.cells[ZG_CELL_AT(p->h, i)]);
    printf(", sum %d\n", (int)room.counts.sums[p->h]);
    return 1;
}

/* A level more: the vertices that zg_mark_cells finds on the top level, which the table holds, are removed. */
static int grow(zg_pyramid *p)
{
    uint8_t below = p->h;
    if (refused(zg_pyramid_mark_cells(p, 0, room.table, ZG_MOST_ENTRIES, room.marks, ZG_MOST_DARTS)) ||
        refused(zg_pyramid_add(p, room.marks, ZG_MOST_DARTS, room.table, ZG_MOST_ENTRIES).refusal))
        return 0;
    zg_factor f = zg_pyramid_decimation(p, below, room.table, ZG_MOST_ENTRIES);
    if (refused(f.refusal))
        return 0;
    if (f.empty)
        printf("level %u added, and it has no dart\n", p->h);
    else
        printf("level %u added, shrunk by %.3f\n", p->h, f.factor);
    return 1;
}

int main(int argc, char **argv)
{
    if (argc != 3)
        return wrong("give a record, and a name for the new one");
    if (zg_version() != ZG_VERSION)
        return wrong("header and library are of two versions");
    long length = bytes_of(argv[1]);
    if (length < 0)
        return wrong("the record can't be read");

    zg_pyramid p = zg_room_pyramid(&room);
    if (refused(zg_pyramid_take(&p, room.bytes, (size_t)length, room.table, ZG_MOST_ENTRIES).refusal) || !links(&p) ||
        !census(&p) || !grow(&p) || !census(&p))
        return 1;
    zg_written w = zg_pyramid_write(&p, room.table, ZG_MOST_ENTRIES, room.bytes, sizeof room.bytes);
    if (refused(w.refusal))
        return 1;
    if (!written(argv[2], w.length))
        return wrong("the new record can't be written");
    printf("%u bytes written\n", (unsigned)w.length);
    return fflush(stdout) || ferror(stdout) ? wrong("the answers can't be written") : 0;
}
