/* What can be seen of a slave from outside, without changing it: exchanges are run on copies of its
 * state and memory, each from the same beginning, and all that comes back is written down. */
#ifndef PROBE_H
#define PROBE_H

#include "rig.h"

struct seen {
    uint8_t bytes[16384];
    size_t len;
};

/* Writes down the packets that wait, locks, MTA, pointer, seed, generator, the count of wrong keys,
 * how many lists there are and what can still be allocated, selections and lists. */
void probe(struct rig *r, struct seen *seen);

/* A command that must be refused so, and leave all that a probe and the memories show, and every
 * byte of the state but the reader's place and what sending its answer changes. */
void refused(struct rig *r, const char *answer, const char *format, ...);
#define REFUSED(r, ...) (HERE(), refused(r, __VA_ARGS__))

/* Wire bytes that must give these numbers, none of them 1, and change the reader's place alone. */
void dropped(struct rig *r, const char *bytes, const char *numbers);
#define DROPPED(r, bytes, numbers) (HERE(), dropped(r, bytes, numbers))

#endif
