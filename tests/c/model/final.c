/* The final frames: which rows are kept, and all columns of these rows by themselves. */
#include <stdlib.h>
#include <string.h>

#include "check.h"
#include "model.h"

/* The last row of each id, in the order of the rows; how many there are. Quadratic. */
static size_t last_rows(slp_cells ids, size_t *rows)
{
	size_t n = 0;
	for (size_t i = 0; i < ids.len; i++) {
		int again = 0;
		for (size_t j = i + 1; j < ids.len && !again; j++)
			again = ids.p[j] == ids.p[i];
		if (!again)
			rows[n++] = i;
	}
	return n;
}

/* Of each column of `stride` cells those at these rows. */
static uint32_t *gather(slp_cells *c, size_t stride, const size_t *rows, size_t n)
{
	size_t columns = stride ? c->len / stride : 0;
	uint32_t *to = take(columns * n * sizeof *to + 1);
	for (size_t k = 0; k < columns; k++)
		for (size_t i = 0; i < n; i++)
			to[k * n + i] = c->p[k * stride + rows[i]];
	*c = (slp_cells){ to, columns * n };
	return to;
}

/* The rows that these frames have by offsets, and offsets that lead through them. A family that the version lacks has none. */
static void gather_by(slp_cells *offsets, slp_cells *cells, size_t *count, const size_t *rows, size_t n, void *memory[2])
{
	uint32_t *to = take((n + 1) * sizeof *to), total = 0;
	size_t *theirs = take((*count + 1) * sizeof *theirs);
	to[0] = 0;
	for (size_t i = 0; offsets->len && i < n; i++) {
		for (uint32_t j = offsets->p[rows[i]]; j < offsets->p[rows[i] + 1]; j++)
			theirs[total++] = j;
		to[i + 1] = total;
	}
	memory[0] = gather(cells, *count, theirs, total);
	memory[1] = to;
	*offsets = (slp_cells){ to, offsets->len ? n + 1 : 0 };
	*count = total;
	free(theirs);
}

/* A bit a kept row, and spare bits 0: as many bytes as that takes, where the slot had any. */
static void gather_bits(const uint8_t *from, size_t *len, const size_t *rows, size_t n, uint8_t *to)
{
	if (*len == 0)
		return;
	*len = (n + 7) / 8;
	memset(to, 0, *len);
	for (size_t i = 0; i < n; i++)
		if (from[rows[i] / 8] >> rows[i] % 8 & 1)
			to[i / 8] = (uint8_t)(to[i / 8] | 1 << i % 8);
}

static uint8_t *gather_presence(slp_frames *f, slp_bytes *presence, const size_t *rows, size_t n)
{
	uint8_t *to = take(presence->len + 1);
	size_t from = 0, at = 0;
	for (size_t p = 0; p < f->port_count; p++) {
		size_t *lens[2] = { &f->ports[p].leader_presence, &f->ports[p].follower_presence };
		for (size_t k = 0; k < 2; k++) {
			size_t had = *lens[k];
			gather_bits(presence->p + from, lens[k], rows, n, to + at);
			from += had;
			at += *lens[k];
		}
	}
	*presence = (slp_bytes){ to, at };
	return to;
}

model_kept model_final(const input *in)
{
	model_kept k = { .in = *in };
	slp_stores *s = &k.in.stores;
	slp_counts *c = &k.in.game.frames.counts;
	size_t *rows = take((in->stores.ids.len + 1) * sizeof *rows), n = last_rows(in->stores.ids, rows);
	slp_cells *by_frame[5] = { &s->ids, &s->starts, &s->pres, &s->posts, &s->ends };
	for (size_t i = 0; i < 5; i++)
		k.memory[i] = gather(by_frame[i], c->frames, rows, n);
	gather_by(&s->item_offsets, &s->items, &c->items, rows, n, k.memory + 5);
	gather_by(&s->fod_offsets, &s->fods, &c->fods, rows, n, k.memory + 7);
	gather_by(&s->whispy_offsets, &s->whispys, &c->whispys, rows, n, k.memory + 9);
	gather_by(&s->stadium_offsets, &s->stadiums, &c->stadiums, rows, n, k.memory + 11);
	k.memory[CELL_STORES] = gather_presence(&k.in.game.frames, &s->presence, rows, n);
	c->frames = n;
	free(rows);
	return k;
}

void model_free_kept(model_kept *k)
{
	for (size_t i = 0; i <= CELL_STORES; i++)
		free(k->memory[i]);
}

static int outside(slp_cells ids)
{
	for (size_t i = 0; i < ids.len; i++)
		if ((int32_t)ids.p[i] < SLP_FIRST_FRAME_ID || (int32_t)ids.p[i] > SLP_LAST_FRAME_ID)
			return 1;
	return 0;
}

unsigned model_final_refusal(const input *in, size_t room, size_t scratch)
{
	unsigned number = model_refusal(in);
	if (number)
		return number;
	if (outside(in->stores.ids))
		return 13;
	if (scratch < in->stores.ids.len)
		return 12;
	model_kept k = model_final(in);
	model_file f = model_write(&k.in);
	number = room < f.len ? 12 : 0;
	model_free(&f);
	model_free_kept(&k);
	return number;
}
