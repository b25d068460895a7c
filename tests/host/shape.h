/* How many lists there are, how many ODTs each has, and how many entries each of these. */
#ifndef SHAPE_H
#define SHAPE_H

#include "rig.h"

struct shape {
    int line; /* of the table that has it */
    unsigned lists;
    uint8_t odts[POOL_LISTS];
    uint8_t entries[POOL_ODTS]; /* of each ODT, by its number over all lists */
};

unsigned first_odt(const struct shape *s, unsigned list); /* ODTs of the lists before it */
unsigned all_odts(const struct shape *s);
unsigned all_entries(const struct shape *s);
unsigned list_of(const struct shape *s, unsigned odt);

/* FREE_DAQ, and all of a shape allocated, list by list and ODT by ODT. */
void take_shape(struct rig *r, const struct shape *s);

/* The slave has just these lists, ODTs and entries: asked on a copy, which changes nothing. */
void has_shape(struct rig *r, const struct shape *s);
#define HAS_SHAPE(r, shape) (HERE(), has_shape(r, shape))

#endif
