/* A run of frames as a small game of its own, as a recorder lends it. */
#ifndef PART_H
#define PART_H

#include "guard.h"

/* The frames from a on and before b, in memory to be given back with drop_part: rows, offsets and presence are those of the part. */
typedef struct {
	input in;
	uint32_t *cells[CELL_STORES];
	uint8_t *presence;
} part;

/* Whoever is there in all of its frames has presence bytes all the same if `marked` is 1, and if it is 2 by chance. Spare bits are anything. */
part cut_part(const input *in, size_t a, size_t b, int marked);
void drop_part(part *p);

#endif
