/* Rows as lists of numbers, to be compared. */
#ifndef FLAT_H
#define FLAT_H

#include "guard.h"

/* The seven calls. */
typedef enum { FRAME_ROW, PRE_ROW, POST_ROW, ITEM_ROW, FOD_ROW, WHISPY_ROW, STADIUM_ROW, ROW_KINDS } row_kind;

/* A frame's row has two numbers, a port with two players 104 for each of four, 3 for start and end, 8 for its ranges. */
enum { MOST_VALUES = 2 + 4 * 104 + 3 + 8 };

/* An answer. A row's values are its fields in their order, each in 32 bits, and beside them its raw cells, which should be the same numbers; numbers
 * of a frame that are no cells stand in both lists. A player's mark, whether it is present, stands apart: in a frame's row one for each player. */
typedef struct {
	unsigned refused;
	uint32_t fields[MOST_VALUES], cells[MOST_VALUES];
	uint8_t is_float[MOST_VALUES];
	size_t n, n_cells;
	uint8_t marks[8];
	size_t n_marks;
	int odd;   /* a version is wrong, a player's marks are not one, or something is not zero that should be */
} flat;

/* Numbers that a row should have. */
typedef struct {
	uint32_t values[MOST_VALUES];
	size_t n;
	uint8_t marks[8];
	size_t n_marks;
} values;

/* A call over lent copies of the stores. */
flat guarded_row(const input *in, row_kind kind, size_t slot, size_t index);
/* The row of these cells, by the call for the family of that number; its version should be this one. */
flat given_row(uint8_t number, const uint32_t *cells, size_t len, slp_version version, uint32_t present);
/* Whether a row has these values: in a float's field a NaN may be any NaN. */
int flat_is(const flat *f, const uint32_t *should, size_t n);
/* Whether its players have these marks. */
int flat_marked(const flat *f, const uint8_t *marks, size_t n);
/* Whether a refusal has no row. */
int flat_is_zero(const flat *f);

#endif
