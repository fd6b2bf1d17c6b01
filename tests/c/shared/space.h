/* Stores to be filled by slp_read, lent between guard bytes, and the two calls that read columns back. */
#ifndef SPACE_H
#define SPACE_H

#include "guard.h"

enum { FILLED_STORES = CELL_STORES + 2 };

typedef struct {
	slp_space s;
	size_t lens[FILLED_STORES];    /* in elements, in the order of slp_lengths */
	loan loans[FILLED_STORES];
} lent_space;

/* The numbers of slp_lengths, in their order. */
void each_length(const slp_lengths *n, size_t each[FILLED_STORES]);
/* Stores of these lengths with some bytes in them. */
lent_space lend_space(const size_t lens[FILLED_STORES]);
void give_back_space(lent_space *l);
/* The first byte of store k, and the bytes of an element. */
uint8_t *store_bytes(const slp_space *s, size_t k);
size_t unit_of(size_t k);

slp_measured guarded_measure(const uint8_t *file, size_t len);
/* Checks too that a refusal changed no store, and that an answer changed none past what is needed. */
slp_opened guarded_read(const uint8_t *file, size_t len, lent_space *l, const slp_lengths *needed);

#endif
