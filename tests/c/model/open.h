/* A replay read back into columns, by a second writing of its rules: the productions of a replay, and what its tree says. */
#ifndef MODEL_OPEN_H
#define MODEL_OPEN_H

#include "slp.h"

slp_measured model_measure(const uint8_t *file, size_t len);
/* On 0 the stores are filled; else they stay. */
slp_opened model_read(const uint8_t *file, size_t len, const slp_space *s);

#endif
