/* Buffers whose next byte, on one side, is not there: a touch past that edge is a crash. */
#ifndef LEND_H
#define LEND_H

#include <stddef.h>
#include <stdint.h>

/* EDGE_AFTER: the byte after the buffer is not mapped. EDGE_BEFORE: the byte before it is not. */
enum edge { EDGE_AFTER, EDGE_BEFORE };
extern enum edge lend_edge;

/* A buffer of exactly size bytes (0 too) at the edge; all of it holds fill. */
uint8_t *lend(size_t size, uint8_t fill);

/* Gives it back, and checks that nothing was written on the side away from the edge. */
void lend_end(uint8_t *buffer, size_t size);

#endif
