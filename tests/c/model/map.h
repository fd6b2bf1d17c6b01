/* The metadata map by a second writing of its rules: entries judged and written, bodies read. */
#ifndef MODEL_MAP_H
#define MODEL_MAP_H

#include "slp.h"

/* The refusal of entries, or 0 and their body in `out`, of which `len` bytes are used; 2 and 12 are among them. */
unsigned model_write_map(const slp_entry *entries, size_t cells, const uint8_t *texts, size_t texts_len, size_t count, size_t room, uint8_t *out,
                         size_t out_room, size_t *len);

/* What is read of a body; entries go to a store with room for all of them. */
slp_map_read model_read_map(const uint8_t *body, size_t len, slp_entry *entries, size_t cells);

#endif
