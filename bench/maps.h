/* The maps that the jobs are measured on, each with a folded pyramid. */
#ifndef MAPS_H
#define MAPS_H

#include "zompelgors.h"


struct pyramid {
    uint8_t n, h;
    uint16_t darts;
    uint16_t rows[ZG_MOST_ENTRIES];
    uint8_t lambda[ZG_MOST_DARTS], delta[ZG_MOST_DARTS];
};

/* Makes the map of that name with its pyramid; returns 0 if there is none. */
int make_pyramid(struct pyramid *p, const char *name);

/* Writes the pyramid's record, with rows of two bytes an entry, and returns its length. */
unsigned write_record(const struct pyramid *p, uint8_t *bytes);

#endif
