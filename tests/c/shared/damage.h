/* Damage: by chance, after which a game or a file is anything, and for one refusal. */
#ifndef DAMAGE_H
#define DAMAGE_H

#include "made.h"

/* One change somewhere in a game; lent memory stays valid. */
void damage(made *m);
/* The fault of one refusal, 1 to 7, in a game of rich_plan: none hides another. */
void fault_frames(made *m, unsigned number);
/* Numbers beyond the frames, slots and rows of a game of rich_plan, from near ones on. */
enum { FAR_NUMBERS = 8 };
extern const size_t far_numbers[FAR_NUMBERS];
/* A number near a limit, or any. */
size_t odd_number(size_t near);

#endif
