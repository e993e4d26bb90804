/* Brings in a 2D combinatorial map, walks around a vertex and a face of its base, takes it back, and brings in a wrong
 * one, which is refused. Status 0 if all of that came about, 1 if not, 2 the answers can't be written. */
#include "zompelgors_pyramid.h"

#include <stdio.h>
#include <string.h>

enum { EDGES = 12, M = 2 * EDGES };

static zg_room room;

/*
 * A grid of 3 x 3 points. Edge k, 1 to 12, has the darts k and -k: 1 and 2 run along the top, 3 and 4 along the middle,
 * 5 and 6 along the bottom, from left to right; 7, 8, 9 and 10, 11, 12 run downward. A vertex is given by its darts
 * counterclockwise, and ends with 0.
 */
static const int corners[] = {7, 1, 0, -1, 8, 2, 0, -2, 9, 0, -7, 10, 3, 0, -8, -3, 11, 4, 0,
                              -9, -4, 12, 0, -10, 5, 0, -11, -5, 6, 0, -12, -6, 0};

/* Dart k is number 2(k-1), dart -k the next. */
static uint16_t number_of(int dart) { return (uint16_t)(dart > 0 ? 2 * (dart - 1) : 2 * (-dart - 1) + 1); }
static int dart_of(unsigned number) { return number % 2 ? -(int)(number / 2) - 1 : (int)(number / 2) + 1; }

static int refused(zg_refusal r)
{
    if (zg_refused(r))
        printf("refused %u %u %u %u: %s\n", r.number, r.level, r.involution, r.dart, zg_refusal_text(r.number));
    return zg_refused(r);
}

/* From a dart by one row and then by the other, until it comes round: every second dart of the base is 2d. */
static void round_about(const char *what, const uint16_t *rows, unsigned first, unsigned second, int dart)
{
    unsigned start = 2u * number_of(dart), at = start;
    printf("%s:", what);
    do {
        printf(" %d", dart_of(at / 2));
        at = rows[second * 2 * M + rows[first * 2 * M + at]];
    } while (at != start);
    putchar('\n');
}

int main(void)
{
    uint16_t edges[M], vertices[M];
    zg_pyramid p = zg_room_pyramid(&room);
    for (unsigned d = 0; d < M; d++)
        edges[d] = (uint16_t)(d ^ 1);
    for (const int *first = corners, *dart = first; first < corners + sizeof corners / sizeof *corners; first = ++dart)
        for (; *dart; dart++)
            vertices[number_of(*dart)] = number_of(dart[1] ? dart[1] : *first);
    if (zg_version() != ZG_VERSION || refused(zg_pyramid_import(&p, M, edges, M, vertices, M)) ||
        refused(zg_pyramid_check(&p, room.table, ZG_MOST_ENTRIES)))
        return 1;
    printf("%d darts became %u\n", M, p.darts);
    round_about("around the vertex in the middle", p.rows, 2, 1, -8);
    round_about("around the face at the top left", p.rows, 0, 1, 1);
    if (refused(zg_pyramid_export(&p, room.edges, ZG_MOST_PARTNER_DARTS, room.vertices, ZG_MOST_PARTNER_DARTS)))
        return 1;
    int same = !memcmp(edges, room.edges, sizeof edges) && !memcmp(vertices, room.vertices, sizeof vertices);
    puts(same ? "the same two rows came back" : "other rows came back");
    vertices[number_of(4)] = number_of(-3); /* -8 leads there too, and comes after 4 */
    int told = refused(zg_pyramid_import(&p, M, edges, M, vertices, M));
    return fflush(stdout) || ferror(stdout) ? 2 : !same || !told;
}
