/* Whether two answers are the same, field by field: what lies between fields may be anything. */
#ifndef SAME_H
#define SAME_H

#include "slp.h"

int same_frames(const slp_frames *a, const slp_frames *b);
int same_start(const slp_start *a, const slp_start *b);
int same_game(const slp_game *a, const slp_game *b);
int same_places(const slp_places *a, const slp_places *b);
int same_measured(const slp_measured *a, const slp_measured *b);
int same_opened(const slp_opened *a, const slp_opened *b);

#endif
