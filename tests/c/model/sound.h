/* Whether a file is sound, by a second writing of the rules: the events are listed, then taken one after another as the format has them. */
#ifndef MODEL_SOUND_H
#define MODEL_SOUND_H

#include "slp.h"

slp_checked model_check(const uint8_t *file, size_t len);
/* Whether this is what may stand behind the event data: a closing brace, or metadata that is a map's. */
int model_proper_tail(const uint8_t *tail, size_t len);

#endif
