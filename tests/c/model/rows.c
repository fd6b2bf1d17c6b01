/* What a row should have. */
#include <string.h>

#include "columns.h"
#include "model.h"

static void put(values *v, uint64_t value)
{
	v->values[v->n++] = (uint32_t)value;
}

/* A record's cells, and zeros for the columns that the version lacks. */
static void put_record(values *v, family k, slp_version version, const uint32_t *cells, size_t rows, size_t row)
{
	static const slp_version newest = { 3, 18, 0 };
	size_t has = columns_of(k, version), all = columns_of(k, newest);
	for (size_t c = 0; c < all; c++)
		put(v, c < has ? cells[c * rows + row] : 0);
}

static void put_slot(values *v, const input *in, family k, size_t slot, size_t index)
{
	slp_version version = in->game.frames.version;
	size_t frames = in->game.frames.counts.frames;
	const slp_cells *c = k == PRE ? &in->stores.pres : &in->stores.posts;
	put_record(v, k, version, c->p + slot * columns_of(k, version) * frames, frames, index);
}

/* Whether a slot's player is in a frame: bit `index` of the slot's own bytes, which follow those of the slots before it. */
static uint8_t present(const input *in, size_t slot, size_t index)
{
	const slp_frames *f = &in->game.frames;
	size_t before = 0;
	for (size_t i = 0, at = 0; i < f->port_count; i++) {
		const slp_port_column *p = &f->ports[i];
		for (int follower = 0; follower <= (p->follower != 0); follower++, at++) {
			size_t bytes = follower ? p->follower_presence : p->leader_presence;
			if (at == slot)
				return bytes == 0 || (in->stores.presence.p[before + index / 8] >> index % 8 & 1);
			before += bytes;
		}
	}
	return 0;
}

static void put_mark(values *v, const input *in, size_t slot, size_t index)
{
	v->marks[v->n_marks++] = present(in, slot, index);
}

static void put_range(values *v, slp_cells offsets, size_t index)
{
	put(v, offsets.len ? offsets.p[index] : 0);
	put(v, offsets.len ? offsets.p[index + 1] - offsets.p[index] : 0);
}

static void put_player(values *v, const input *in, size_t slot, size_t index)
{
	put_mark(v, in, slot, index);
	put_slot(v, in, PRE, slot, index);
	put_slot(v, in, POST, slot, index);
}

static void put_frame(values *v, const input *in, size_t index)
{
	const slp_frames *f = &in->game.frames;
	const slp_stores *s = &in->stores;
	put(v, s->ids.p[index]);
	put(v, f->port_count);
	for (size_t i = 0, slot = 0; i < f->port_count; i++) {
		put(v, f->ports[i].port);
		put(v, f->ports[i].follower != 0);
		put_player(v, in, slot++, index);
		if (f->ports[i].follower)
			put_player(v, in, slot++, index);
	}
	put_record(v, FRAME_START, f->version, s->starts.p, f->counts.frames, index);
	put_record(v, FRAME_END, f->version, s->ends.p, f->counts.frames, index);
	put_range(v, s->item_offsets, index);
	put_range(v, s->fod_offsets, index);
	put_range(v, s->whispy_offsets, index);
	put_range(v, s->stadium_offsets, index);
}

values model_row(const input *in, row_kind kind, size_t slot, size_t index)
{
	const slp_frames *f = &in->game.frames;
	const slp_stores *s = &in->stores;
	values v;
	memset(&v, 0, sizeof v);
	switch (kind) {
	case FRAME_ROW: put_frame(&v, in, index); break;
	case PRE_ROW: put_mark(&v, in, slot, index), put_slot(&v, in, PRE, slot, index); break;
	case POST_ROW: put_mark(&v, in, slot, index), put_slot(&v, in, POST, slot, index); break;
	case ITEM_ROW: put_record(&v, ITEM, f->version, s->items.p, f->counts.items, index); break;
	case FOD_ROW: put_record(&v, FOD, f->version, s->fods.p, f->counts.fods, index); break;
	case WHISPY_ROW: put_record(&v, WHISPY, f->version, s->whispys.p, f->counts.whispys, index); break;
	default: put_record(&v, STADIUM, f->version, s->stadiums.p, f->counts.stadiums, index); break;
	}
	return v;
}

size_t row_count(const slp_frames *f, row_kind kind)
{
	const slp_counts *c = &f->counts;
	const size_t counts[ROW_KINDS] = { c->frames, c->frames, c->frames, c->items, c->fods, c->whispys, c->stadiums };
	return counts[kind];
}

/* Codes, metadata, start and end do not matter to a row. */
unsigned model_row_refusal(const input *in, row_kind kind, size_t slot, size_t index)
{
	input frames = *in;
	frames.game.codes_given = frames.game.metadata_given = 0;
	unsigned n = model_refusal(&frames);
	if (n >= 1 && n <= 7)
		return n;
	if (index >= row_count(&in->game.frames, kind))
		return 13;
	return (kind == PRE_ROW || kind == POST_ROW) && slot >= slots_of(&in->game.frames) ? 13 : 0;
}

/* ---- rows of a run */

/* The families by the numbers of the header, and the row calls that have them; a frame's start and end are in the frame's row. */
static const family BY_NUMBER[8] = { FRAME_START, PRE, POST, FRAME_END, ITEM, FOD, WHISPY, STADIUM };
static const row_kind ROWS_BY_NUMBER[8] = { FRAME_ROW, PRE_ROW, POST_ROW, FRAME_ROW, ITEM_ROW, FOD_ROW, WHISPY_ROW, STADIUM_ROW };

static int of_players(uint8_t number)
{
	return number == SLP_FAMILY_PRE || number == SLP_FAMILY_POST;
}

unsigned model_rows_refusal(const input *in, uint8_t number, size_t slot, size_t from, size_t to, size_t room)
{
	input frames = *in;
	frames.game.codes_given = frames.game.metadata_given = 0;
	const slp_frames *f = &in->game.frames;
	unsigned n = model_refusal(&frames);
	if (n >= 1 && n <= 7)
		return n;
	if (number > 7 || slot >= (of_players(number) ? slots_of(f) : 1) || from > to || to > row_count(f, ROWS_BY_NUMBER[number]))
		return 13;
	size_t cells = columns_of(BY_NUMBER[number], f->version) + (size_t)of_players(number);
	return room < (to - from) * cells ? 12 : 0;
}

void model_run_row(const input *in, uint8_t number, size_t slot, size_t index, uint32_t row[MOST_COLUMNS + 1], size_t *cells)
{
	const slp_frames *f = &in->game.frames;
	const slp_stores *s = &in->stores;
	const slp_cells stores[8] = { s->starts, s->pres, s->posts, s->ends, s->items, s->fods, s->whispys, s->stadiums };
	size_t columns = columns_of(BY_NUMBER[number], f->version), rows = row_count(f, ROWS_BY_NUMBER[number]);
	for (size_t c = 0; c < columns; c++)
		row[c] = stores[number].p[(slot * columns + c) * rows + index];
	*cells = columns;
	if (of_players(number))
		row[(*cells)++] = present(in, slot, index);
}

void model_given(uint8_t number, slp_version version, const uint32_t *cells, size_t len, uint32_t bits[32])
{
	uint8_t widths[MOST_COLUMNS];
	size_t columns = widths_of(BY_NUMBER[number], version, widths);
	for (size_t c = 0; c < 32; c++)
		bits[c] = c < columns && c < len ? cells[c] & most(widths[c]) : 0;
}
