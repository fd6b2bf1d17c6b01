/* Sound files made for tests, with all freedoms that another writer has: in slices, to be damaged and put together. */
#ifndef SOUNDS_H
#define SOUNDS_H

#include "slp.h"

enum { MOST_EVENTS = 512, MOST_TABLE = 16 };

typedef struct {
	uint8_t code;
	uint8_t *bytes;
	size_t len;
} slice;

/* Slices point into `memory`, where each has bytes of its own. */
typedef struct {
	slp_version version;
	uint8_t codes[MOST_TABLE];
	size_t sizes[MOST_TABLE], entries;
	slice events[MOST_EVENTS];
	size_t n;
	slice tail;
	uint8_t memory[1 << 17];
	size_t used;
} sound;

/* A sound file of a version: ports in any order, the same id again, frames with nobody in them, unlike ends, metadata. */
void make_sound(sound *s, slp_version v);
/* One change to its table, its events, its tail, or an event's head; it may be sound all the same. */
void damage_sound(sound *s);
/* Its bytes, in memory to be freed. The length is that of the event data. */
uint8_t *join(const sound *s, size_t *len);

#endif
