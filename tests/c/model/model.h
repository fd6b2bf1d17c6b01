/* A second writing of the rules, plain and slow: what every call should answer. It follows the text of the format, not the library. */
#ifndef MODEL_H
#define MODEL_H

#include "columns.h"
#include "flat.h"

typedef struct {
	uint8_t *bytes;
	size_t len, room;
	size_t *ends;        /* where each event after the payload table ends */
	size_t events, ends_room;
	size_t data_end;     /* where event data ends */
} model_file;

/* How many slots a game has; of more than four port columns, which are refused, the first four count. */
size_t slots_of(const slp_frames *f);
/* Refusals 1 and 2. */
int too_new(slp_version v);
int too_many(const slp_counts *c, size_t codes, size_t metadata);
/* Refusals 1 to 11 of a game, or 0. */
unsigned model_refusal(const input *in);
/* The file of a game that is not refused. */
model_file model_write(const input *in);
/* The bytes of its frames from a on and before b. */
model_file model_run(const input *in, size_t a, size_t b);
/* Refusals 1 to 7, 13 and 12, in that order, of a run at a place of an output of `room` bytes, or 0. */
unsigned model_run_refusal(const input *in, size_t room, size_t place, size_t a, size_t b);
/* Refusals 1 to 11, 13 and 12, in that order, of the final frames in an output and a scratch of so many bytes, or 0. */
unsigned model_final_refusal(const input *in, size_t room, size_t scratch);
/* The rows that are kept, of a game that is not refused by 1 to 11: of each id the last, as a game by themselves; its memory is to be freed. */
typedef struct {
	input in;
	void *memory[CELL_STORES + 1];
} model_kept;
model_kept model_final(const input *in);
void model_free_kept(model_kept *k);
/* The head of a recording, with a length of zero; its refusals 1, 2, 8, 9, 10 and 12 into `room` bytes, or 0. */
model_file model_head(const input *in);
unsigned model_head_refusal(const input *in, size_t room);
/* The end of a recording: its ends, up to data_end, and its tail; its refusals 1, 2, 11 and 12 at a place of `room` bytes, or 0. */
model_file model_end(const input *in);
unsigned model_end_refusal(const input *in, size_t room, size_t place);
void model_free(model_file *f);
/* The room of a plan. */
slp_reserved model_room(const slp_plan *p);

slp_step model_step(const uint8_t *file, size_t len, size_t place);
slp_walked model_walk(const uint8_t *file, size_t len);

/* The mask's answer; on 0 also the mask and its scratch of *needed bytes. Quadratic. */
unsigned model_rollbacks(const uint32_t *ids, size_t n, uint8_t keep, size_t mask_len, size_t scratch_len, uint8_t *mask,
                         uint8_t *scratch, size_t *needed);

/* What a row should have, told by the stores. */
values model_row(const input *in, row_kind kind, size_t slot, size_t index);
/* Refusals 1 to 7 and 13 of a row, or 0. */
unsigned model_row_refusal(const input *in, row_kind kind, size_t slot, size_t index);
/* Refusals 1 to 7, 13 and 12 of a run of rows into so many cells, or 0; the cells of row `index`, of which there are *cells. */
unsigned model_rows_refusal(const input *in, uint8_t number, size_t slot, size_t from, size_t to, size_t room);
void model_run_row(const input *in, uint8_t number, size_t slot, size_t index, uint32_t row[MOST_COLUMNS + 1], size_t *cells);
/* The cells that a row has when it is made of these: `bits`. */
void model_given(uint8_t number, slp_version version, const uint32_t *cells, size_t len, uint32_t bits[32]);
/* How many rows a call can be asked for. */
size_t row_count(const slp_frames *f, row_kind kind);

int same_step(slp_step a, slp_step b);
int same_walked(slp_walked a, slp_walked b);

#endif
