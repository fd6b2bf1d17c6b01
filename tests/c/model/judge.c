/* Refusals 1 to 11. */
#include <string.h>

#include "columns.h"
#include "model.h"

int too_new(slp_version v)
{
	return v.major > 3 || (v.major == 3 && (v.minor > 18 || (v.minor == 18 && v.patch > 0)));
}

int too_many(const slp_counts *c, size_t codes, size_t metadata)
{
	return c->frames > SLP_MAX_FRAMES || c->items > SLP_MAX_ITEMS || c->fods > SLP_MAX_STAGE_ROWS || c->whispys > SLP_MAX_STAGE_ROWS ||
	       c->stadiums > SLP_MAX_STAGE_ROWS || codes > SLP_MAX_CODES || metadata > SLP_MAX_METADATA;
}

static size_t port_columns(const slp_frames *f)
{
	return f->port_count < 4 ? f->port_count : 4;
}

size_t slots_of(const slp_frames *f)
{
	size_t n = 0;
	for (size_t p = 0; p < port_columns(f); p++)
		n += f->ports[p].follower ? 2 : 1;
	return n;
}

static size_t rows_of(const slp_frames *f, family k)
{
	const slp_counts *c = &f->counts;
	const size_t rows[FAMILIES] = { c->frames, c->frames, c->frames, c->items, c->frames, c->fods, c->whispys, c->stadiums };
	return rows[k];
}

static slp_cells cells_of(const slp_stores *s, family k)
{
	const slp_cells cells[FAMILIES] = { s->pres, s->posts, s->starts, s->items, s->ends, s->fods, s->whispys, s->stadiums };
	return cells[k];
}

static int bad_store(const input *in)
{
	const slp_frames *f = &in->game.frames;
	int bad = in->stores.ids.len != f->counts.frames;
	for (family k = PRE; k < FAMILIES; k++) {
		size_t blocks = k == PRE || k == POST ? slots_of(f) : 1;
		bad |= cells_of(&in->stores, k).len != blocks * columns_of(k, f->version) * rows_of(f, k);
	}
	return bad;
}

/* Cell i is of column i / rows, counted through the slots. */
static int wide_cell(const input *in)
{
	const slp_frames *f = &in->game.frames;
	for (family k = PRE; k < FAMILIES; k++) {
		uint8_t widths[MOST_COLUMNS];
		size_t columns = widths_of(k, f->version, widths), rows = rows_of(f, k);
		slp_cells c = cells_of(&in->stores, k);
		for (size_t i = 0; i < c.len; i++)
			if (c.p[i] > most(widths[i / rows % columns]))
				return 1;
	}
	return 0;
}

static int bad_offsets_of(slp_cells o, size_t frames, size_t rows, int exists)
{
	if (!exists)
		return o.len != 0 || rows != 0;
	if (o.len != frames + 1 || o.p[0] != 0 || o.p[frames] != rows)
		return 1;
	for (size_t i = 0; i < frames; i++)
		if (o.p[i + 1] < o.p[i])
			return 1;
	return 0;
}

static int bad_offsets(const input *in)
{
	const slp_frames *f = &in->game.frames;
	const slp_stores *s = &in->stores;
	const slp_cells offsets[4] = { s->item_offsets, s->fod_offsets, s->whispy_offsets, s->stadium_offsets };
	static const family families[4] = { ITEM, FOD, WHISPY, STADIUM };
	for (size_t i = 0; i < 4; i++)
		if (bad_offsets_of(offsets[i], f->counts.frames, rows_of(f, families[i]), has_family(families[i], f->version)))
			return 1;
	return 0;
}

static int bad_presence(const input *in)
{
	const slp_frames *f = &in->game.frames;
	size_t bytes = (f->counts.frames + 7) / 8, sum = 0;
	for (size_t p = 0; p < port_columns(f); p++) {
		const slp_port_column *c = &f->ports[p];
		if (c->leader_presence != 0 && c->leader_presence != bytes)
			return 1;
		if (c->follower_presence != 0 && (!c->follower || c->follower_presence != bytes))
			return 1;
		sum += c->leader_presence + c->follower_presence;
	}
	return in->stores.presence.len != sum;
}

static int bad_ports(const slp_frames *f)
{
	if (f->port_count > 4)
		return 1;
	for (size_t p = 0; p < f->port_count; p++) {
		if (f->ports[p].port > 3)
			return 1;
		for (size_t q = 0; q < p; q++)
			if (f->ports[q].port == f->ports[p].port)
				return 1;
	}
	return 0;
}

/* Too long, or with a zero that a viewer would take for its end. */
static int bad_text(const slp_text *t, size_t limit)
{
	return t->len > limit || memchr(t->bytes, 0, t->len);
}

static int bad_seat(slp_version v, const slp_seat *p)
{
	if (!p->given)
		return 0;
	if (p->kind > 2 || (p->kind == SLP_CPU && !p->cpu_level.given))
		return 1;
	if (reaches(v, 1, 0) && !p->ucf.given)
		return 1;
	if (reaches(v, 1, 3) && (!p->name_tag_given || bad_text(&p->name_tag, 16)))
		return 1;
	if (reaches(v, 3, 9) && (!p->netplay.given || bad_text(&p->netplay.name, 30) || bad_text(&p->netplay.code, 9)))
		return 1;
	return reaches(v, 3, 11) && (!p->netplay.suid_given || bad_text(&p->netplay.suid, 28));
}

static int bad_start(slp_version v, const slp_start *s)
{
	for (size_t n = 0; n < 4; n++)
		if (bad_seat(v, &s->seats[n]))
			return 1;
	return (reaches(v, 1, 5) && !s->is_pal.given) || (reaches(v, 2, 0) && !s->is_frozen_ps.given) ||
	       (reaches(v, 3, 7) && !s->scene.given) || (reaches(v, 3, 12) && !s->language.given) ||
	       (reaches(v, 3, 14) && (!s->match_info.given || bad_text(&s->match_info.id, 50)));
}

static int bad_codes(const input *in)
{
	uint64_t blocks = ((uint64_t)in->game.actual_size + 511) / 512;
	return in->game.codes_given && (!reaches(in->game.frames.version, 3, 3) || in->codes.len != blocks * 512);
}

static int bad_end(const slp_game *g)
{
	if (!g->end.given)
		return g->double_end != 0;
	return reaches(g->frames.version, 2, 0) && g->end.initiator > 3 && g->end.initiator != 255;
}

unsigned model_refusal(const input *in)
{
	const slp_game *g = &in->game;
	slp_version v = g->frames.version;
	if (too_new(v))
		return 1;
	if (too_many(&in->game.frames.counts, in->game.codes_given ? in->codes.len : 0, in->game.metadata_given ? in->metadata.len : 0))
		return 2;
	if (bad_store(in))
		return 3;
	if (wide_cell(in))
		return 4;
	if (bad_offsets(in))
		return 5;
	if (bad_presence(in))
		return 6;
	if (bad_ports(&g->frames))
		return 7;
	if (in->block.len < block_length(v) || in->block.len > 65535)
		return 8;
	if (bad_start(v, &g->start))
		return 9;
	if (bad_codes(in))
		return 10;
	return bad_end(g) ? 11 : 0;
}
