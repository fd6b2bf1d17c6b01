/* Why a file is refused with 19, by a second writing of its rules: where a replay stands after each event, and what may come there. */
#ifndef MODEL_FAULT_H
#define MODEL_FAULT_H

#include "slp.h"

slp_faulted model_fault(const uint8_t *file, size_t len);

#endif
