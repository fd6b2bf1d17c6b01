/* Columns back: both calls against the model. */
#ifndef AGAINST_H
#define AGAINST_H

#include "model.h"
#include "slp.h"
#include "space.h"

/* Checks that slp_measure and slp_read answer for a file as the model does, with every store and what lies past it; their refusal, or 0. */
unsigned check_file(const uint8_t *file, size_t len);
/* The same, and the answer with its stores, in memory to be given back with free_opened. */
typedef struct {
	slp_opened o;
	slp_lengths lengths;
	slp_space s;
	uint32_t *cells;
	uint8_t *bytes;
} opened_file;

opened_file check_opening(const uint8_t *file, size_t len);
void free_opened(opened_file *f);

/* Bytes that decide more than others: the head, the table, and the first bytes of events; and what they become. */
size_t damaged_place(const model_file *f);
uint8_t damaged_byte(uint8_t was);
/* The same checks of a file with one byte damaged, which is then as it was; their refusal, or 0. The stores are lent once for a file: a refusal leaves
 * them alone. */
unsigned check_damaged(model_file *f, lent_space *l);

#endif
