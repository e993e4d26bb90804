/* Takes a record, unfolds a level and prints its rows, -1 for a dart that is gone: unfold RECORD LEVEL. A refusal is said
 * in words. Status 0 printed, 1 refused, 2 the call is wrong, or something can't be read or written. */
#include "zompelgors_pyramid.h"
#include <stdio.h>

static zg_room room;

static int refused(zg_refusal r)
{
    if (zg_refused(r))
        printf("refused %u %u %u %u: %s\n", r.number, r.level, r.involution, r.dart, zg_refusal_text(r.number));
    return zg_refused(r);
}

static int wrong(const char *what)
{
    fprintf(stderr, "unfold: %s\n", what);
    return 2;
}

/* The bytes of a file into the room; -1 if it can't be read. */
static long bytes_of(const char *path)
{
    FILE *file = fopen(path, "rb");
    size_t length = file ? fread(room.bytes, 1, sizeof room.bytes, file) : 0;
    int bad = !file || ferror(file);
    return (file && fclose(file)) || bad ? -1 : (long)length;
}

/* A level is digits alone and fits a byte, else 256; one above the height is refused by the library. */
static unsigned level_of(const char *word)
{
    unsigned level = *word ? 0 : 256;
    for (; *word && level < 256; word++)
        level = *word >= '0' && *word <= '9' ? 10 * level + (unsigned)(*word - '0') : 256;
    return level;
}

int main(int argc, char **argv)
{
    if (argc != 3)
        return wrong("give a record and a level");
    if (zg_version() != ZG_VERSION)
        return wrong("header and library are of two versions");
    unsigned level = level_of(argv[2]);
    if (level > 255)
        return wrong("the level is no number from 0 to 255");
    long length = bytes_of(argv[1]);
    if (length < 0)
        return wrong("the record can't be read");

    zg_pyramid p = zg_room_pyramid(&room);
    if (refused(zg_pyramid_take(&p, room.bytes, (size_t)length, room.table, ZG_MOST_ENTRIES).refusal) ||
        refused(zg_pyramid_unfold(&p, (uint8_t)level, room.table, ZG_MOST_ENTRIES).refusal))
        return 1;
    for (size_t k = 0; k < zg_pyramid_entries(&p); k++)
        printf("%d%c", room.table[k] == ZG_ABSENT ? -1 : room.table[k], (k + 1) % p.darts ? ' ' : '\n');
    return fflush(stdout) || ferror(stdout) ? wrong("the rows can't be written") : 0;
}
