/* Buffers that are lent as copies between guard bytes, and the calls of the library over such buffers.
 *
 * Each guarded call checks that no guard and no input has changed, that a refusal changed no output, and that an accepted answer left the
 * output behind it as it was. Under valgrind the guards may not even be read. */
#ifndef GUARD_H
#define GUARD_H

#include "slp.h"

typedef struct {
	uint8_t *base, *data, *before;
	size_t len, front, total;
} loan;

/* `count` elements of `unit` bytes; one of no elements is lent as NULL half of the time. */
loan lend(const void *from, size_t count, size_t unit);
/* Whether guards and the bytes from `from` on are as they were lent. */
int kept(loan *l, size_t from);
void give_back(loan *l);

/* All that slp_write takes but the output. */
typedef struct {
	slp_game game;
	slp_stores stores;
	slp_bytes block, codes, metadata;
} input;

enum { CELL_STORES = 13 };
/* The k-th of the stores with cells, in the order of slp_write. */
slp_cells *cell_store(slp_stores *s, size_t k);

enum { LOANS = CELL_STORES + 4 };
/* Makes an input point to lent copies of its slices. */
void lend_input(input *in, loan loans[LOANS]);
/* Checks that all of them are as they were, and gives them back. */
void take_back(loan loans[LOANS]);

/* The library's room for a game's own counts is enough for its file of `len` bytes. */
void check_room(const input *in, size_t len);
/* The file of a game is sound; where its metadata is no map's body, that is what is wrong with it. */
void check_sound(const input *in, const uint8_t *file, size_t len);
slp_written guarded_write(const input *in, uint8_t *out, size_t out_len);
/* The final frames alone; the scratch is lent between guards too. */
slp_written guarded_final(const input *in, uint8_t *out, size_t out_len, uint8_t *scratch, size_t scratch_len);
/* The run of frames from a up to b; with b at ONE_FRAME, frame a by the call for one frame. */
#define ONE_FRAME (SIZE_MAX - 1)
slp_appended guarded_run(const input *in, uint8_t *out, size_t out_len, size_t place, size_t a, size_t b);
/* The head of a recording, and its end at a place. */
slp_appended guarded_head(const input *in, uint8_t *out, size_t out_len);
slp_closed guarded_end(const input *in, uint8_t *out, size_t out_len, size_t place);
uint8_t guarded_rollbacks(const uint32_t *ids, size_t ids_len, uint8_t keep, uint8_t *mask, size_t mask_len, uint8_t *scratch,
                          size_t scratch_len);
/* Over lent copies of the stores alone: `family` is SLP_FAMILY_.. or any number. */
slp_run guarded_rows(const input *in, uint32_t *out, size_t out_len, uint8_t family, size_t slot, size_t from, size_t to);
slp_walked guarded_walk(const uint8_t *file, size_t len);
slp_checked guarded_check(const uint8_t *file, size_t len);
slp_step guarded_step(const uint8_t *file, size_t len, size_t place);
size_t guarded_first_place(const uint8_t *file, size_t len);

#endif
