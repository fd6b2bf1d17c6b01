/* The index of a replay by a second writing of its rules: the walk's events first, then rows, then numbers. */
#ifndef MODEL_INDEX_H
#define MODEL_INDEX_H

#include "slp.h"

typedef struct {
	uint8_t refused;   /* 12 not among them */
	size_t offset;
	uint8_t *bytes;    /* to be freed; NULL where it is refused */
	size_t len, frames;
} model_index;

model_index model_index_of(const uint8_t *file, size_t len);
/* The refusal of an index for a replay whose own index is `own`. */
unsigned model_accepts(const model_index *own, const uint8_t *index, size_t len);
slp_moment model_find(const uint8_t *index, size_t len, int32_t id);

#endif
