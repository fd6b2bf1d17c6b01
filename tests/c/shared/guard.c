#include "guard.h"

#include <stdlib.h>
#include <string.h>

#include "check.h"

#if defined(__has_include)
#if __has_include(<valgrind/memcheck.h>)
#include <valgrind/memcheck.h>
#define HIDE(p, n) ((void)VALGRIND_MAKE_MEM_NOACCESS(p, n))
#define SHOW(p, n) ((void)VALGRIND_MAKE_MEM_DEFINED(p, n))
#endif
#endif
#ifndef HIDE
#define HIDE(p, n) ((void)(p), (void)(n))
#define SHOW(p, n) ((void)(p), (void)(n))
#endif

enum { GUARD = 64, GUARD_BYTE = 0xa5, ALIGNMENTS = 8 };

loan lend(const void *from, size_t count, size_t unit)
{
	loan l = { .len = count * unit, .front = GUARD + unit * below(ALIGNMENTS) };
	l.total = l.front + l.len + GUARD;
	l.base = take(l.total);
	l.before = take(l.len);
	memset(l.base, GUARD_BYTE, l.total);
	l.data = l.base + l.front;
	if (l.len) {
		memcpy(l.data, from, l.len);
		memcpy(l.before, from, l.len);
	}
	HIDE(l.base, l.front);
	HIDE(l.base + l.front + l.len, GUARD);
	if (!l.len && below(2))
		l.data = NULL;
	return l;
}

static int all_guard(const uint8_t *p, size_t n)
{
	for (size_t i = 0; i < n; i++)
		if (p[i] != GUARD_BYTE)
			return 0;
	return 1;
}

int kept(loan *l, size_t from)
{
	uint8_t *end = l->base + l->front + l->len;
	SHOW(l->base, l->front);
	SHOW(end, GUARD);
	if (!all_guard(l->base, l->front) || !all_guard(end, GUARD))
		return 0;
	return from >= l->len || memcmp(l->base + l->front + from, l->before + from, l->len - from) == 0;
}

void give_back(loan *l)
{
	free(l->base);
	free(l->before);
}

slp_cells *cell_store(slp_stores *s, size_t k)
{
	slp_cells *all[CELL_STORES] = {
		&s->ids, &s->starts, &s->pres, &s->posts, &s->ends, &s->items, &s->fods, &s->whispys, &s->stadiums,
		&s->item_offsets, &s->fod_offsets, &s->whispy_offsets, &s->stadium_offsets,
	};
	return all[k];
}

static loan lend_bytes(slp_bytes *b)
{
	loan l = lend(b->p, b->len, 1);
	b->p = l.data;
	return l;
}

static loan lend_cells(slp_cells *c)
{
	loan l = lend(c->p, c->len, 4);
	c->p = (const uint32_t *)(const void *)l.data;
	return l;
}

void lend_input(input *in, loan loans[LOANS])
{
	for (size_t k = 0; k < CELL_STORES; k++)
		loans[k] = lend_cells(cell_store(&in->stores, k));
	loans[CELL_STORES] = lend_bytes(&in->stores.presence);
	loans[CELL_STORES + 1] = lend_bytes(&in->block);
	loans[CELL_STORES + 2] = lend_bytes(&in->codes);
	loans[CELL_STORES + 3] = lend_bytes(&in->metadata);
}

void take_back(loan loans[LOANS])
{
	for (size_t k = 0; k < LOANS; k++) {
		CHECK(kept(&loans[k], 0));
		give_back(&loans[k]);
	}
}

void check_room(const input *in, size_t len)
{
	slp_reserved r = slp_room(slp_plan_of(&in->game, in->block.len, in->codes.len, in->metadata.len));
	CHECK_EQ(r.refused, 0);
	CHECK(len <= r.bytes);
}

slp_checked guarded_check(const uint8_t *file, size_t len)
{
	loan l = lend(file, len, 1);
	slp_checked c = slp_check(l.data, len);
	CHECK(kept(&l, 0));
	CHECK(c.offset == 0 || (c.refused >= 15 && c.refused <= 17));
	give_back(&l);
	return c;
}

void check_sound(const input *in, const uint8_t *file, size_t len)
{
	size_t most = in->metadata.len / 4 + 1;
	slp_entry *entries = take(most * sizeof *entries);
	int body = !in->game.metadata_given || slp_read_map(in->metadata.p, in->metadata.len, entries, SLP_CELLS(most)).refused == 0;
	free(entries);
	slp_checked c = guarded_check(file, len);
	CHECK_EQ(c.refused, body ? 0 : 23);
	CHECK_EQ(c.offset, 0);
}

slp_written guarded_write(const input *in, uint8_t *out, size_t out_len)
{
	input lent = *in;
	loan loans[LOANS];
	lend_input(&lent, loans);
	loan o = lend(out, out_len, 1);
	slp_written w = slp_write_game(o.data, out_len, &lent.game, &lent.stores, lent.block, lent.codes, lent.metadata);
	take_back(loans);
	CHECK(memcmp(&lent.game, &in->game, sizeof lent.game) == 0);
	CHECK(w.refused <= 12);
	CHECK(w.refused ? w.len == 0 : w.len <= out_len);
	if (!w.refused)
		check_room(in, w.len);
	CHECK(kept(&o, w.len));
	if (!w.refused)
		check_sound(in, o.data, w.len);
	if (out_len)
		memcpy(out, o.base + o.front, out_len);
	give_back(&o);
	return w;
}

slp_written guarded_final(const input *in, uint8_t *out, size_t out_len, uint8_t *scratch, size_t scratch_len)
{
	input lent = *in;
	loan loans[LOANS];
	lend_input(&lent, loans);
	loan o = lend(out, out_len, 1), s = lend(scratch, scratch_len, 1);
	slp_written w =
		slp_write_final_game(o.data, out_len, s.data, scratch_len, &lent.game, &lent.stores, lent.block, lent.codes, lent.metadata);
	take_back(loans);
	CHECK(memcmp(&lent.game, &in->game, sizeof lent.game) == 0);
	CHECK(w.refused <= 13);
	CHECK(w.refused ? w.len == 0 : w.len <= out_len);
	if (!w.refused)
		check_room(in, w.len);
	CHECK(kept(&o, w.len));
	CHECK(kept(&s, w.refused ? 0 : in->game.frames.counts.frames));
	if (out_len)
		memcpy(out, o.base + o.front, out_len);
	if (scratch_len)
		memcpy(scratch, s.base + s.front, scratch_len);
	give_back(&o);
	give_back(&s);
	return w;
}

slp_appended guarded_run(const input *in, uint8_t *out, size_t out_len, size_t place, size_t a, size_t b)
{
	input lent = *in;
	loan loans[LOANS];
	lend_input(&lent, loans);
	loan o = lend(out, out_len, 1);
	slp_appended r = b == ONE_FRAME ? slp_write_frame(o.data, out_len, place, lent.game.frames, SLP_STORES(&lent.stores), a)
	                                : slp_write_frames(o.data, out_len, place, lent.game.frames, SLP_STORES(&lent.stores), a, b);
	take_back(loans);
	CHECK(memcmp(&lent.game, &in->game, sizeof lent.game) == 0);
	CHECK(r.refused <= 7 || r.refused == 12 || r.refused == 13);
	CHECK(r.refused ? r.end == 0 : r.end >= place && r.end <= out_len);
	CHECK(kept(&o, r.refused ? 0 : r.end));
	/* nothing before the place either */
	CHECK(r.refused || place == 0 || memcmp(o.base + o.front, out, place) == 0);
	if (out_len)
		memcpy(out, o.base + o.front, out_len);
	give_back(&o);
	return r;
}

slp_appended guarded_head(const input *in, uint8_t *out, size_t out_len)
{
	input lent = *in;
	loan loans[LOANS];
	lend_input(&lent, loans);
	loan o = lend(out, out_len, 1);
	slp_appended r = slp_write_game_head(o.data, out_len, &lent.game, lent.block, lent.codes);
	take_back(loans);
	CHECK(memcmp(&lent.game, &in->game, sizeof lent.game) == 0);
	CHECK(r.refused <= 2 || (r.refused >= 8 && r.refused <= 10) || r.refused == 12);
	CHECK(r.refused ? r.end == 0 : r.end <= out_len);
	CHECK(kept(&o, r.refused ? 0 : r.end));
	if (out_len)
		memcpy(out, o.base + o.front, out_len);
	give_back(&o);
	return r;
}

slp_closed guarded_end(const input *in, uint8_t *out, size_t out_len, size_t place)
{
	input lent = *in;
	loan loans[LOANS];
	lend_input(&lent, loans);
	loan o = lend(out, out_len, 1);
	slp_closed r = slp_write_game_end(o.data, out_len, place, &lent.game, lent.metadata);
	take_back(loans);
	CHECK(memcmp(&lent.game, &in->game, sizeof lent.game) == 0);
	CHECK(r.refused <= 2 || r.refused == 11 || r.refused == 12);
	CHECK(r.refused ? r.end == 0 && r.events == 0 : r.events >= place && r.events < r.end && r.end <= out_len);
	CHECK(kept(&o, r.refused ? 0 : r.end));
	/* nothing before the place either */
	CHECK(r.refused || place == 0 || memcmp(o.base + o.front, out, place) == 0);
	if (out_len)
		memcpy(out, o.base + o.front, out_len);
	give_back(&o);
	return r;
}

uint8_t guarded_rollbacks(const uint32_t *ids, size_t ids_len, uint8_t keep, uint8_t *mask, size_t mask_len, uint8_t *scratch,
                          size_t scratch_len)
{
	loan i = lend(ids, ids_len, 4), m = lend(mask, mask_len, 1), s = lend(scratch, scratch_len, 1);
	uint8_t n = slp_rollbacks((const uint32_t *)(const void *)i.data, ids_len, keep, m.data, mask_len, s.data, scratch_len);
	int64_t needed = 0;
	for (size_t k = 0; n == 0 && k < ids_len; k++)
		if ((int64_t)(int32_t)ids[k] + 124 > needed)
			needed = (int64_t)(int32_t)ids[k] + 124;
	CHECK(kept(&i, 0));
	CHECK(kept(&m, n ? 0 : ids_len));
	CHECK(kept(&s, (size_t)needed));
	if (mask_len)
		memcpy(mask, m.base + m.front, mask_len);
	if (scratch_len)
		memcpy(scratch, s.base + s.front, scratch_len);
	give_back(&i);
	give_back(&m);
	give_back(&s);
	return n;
}

slp_run guarded_rows(const input *in, uint32_t *out, size_t out_len, uint8_t family, size_t slot, size_t from, size_t to)
{
	input lent = *in;
	loan loans[LOANS];
	lend_input(&lent, loans);
	loan o = lend(out, out_len, 4);
	slp_run r = slp_rows((uint32_t *)(void *)o.data, out_len, lent.game.frames, SLP_STORES(&lent.stores), family, slot, from, to);
	take_back(loans);
	CHECK(r.refused <= 7 || r.refused == 12 || r.refused == 13);
	CHECK(r.refused ? r.len == 0 : r.len <= out_len);
	CHECK(kept(&o, 4 * r.len));
	if (out_len)
		memcpy(out, o.base + o.front, 4 * out_len);
	give_back(&o);
	return r;
}

slp_walked guarded_walk(const uint8_t *file, size_t len)
{
	loan f = lend(file, len, 1);
	slp_walked w = slp_walk(f.data, len);
	CHECK(kept(&f, 0));
	give_back(&f);
	return w;
}

slp_step guarded_step(const uint8_t *file, size_t len, size_t place)
{
	loan f = lend(file, len, 1);
	slp_step s = slp_step_at(f.data, len, place);
	CHECK(kept(&f, 0));
	give_back(&f);
	return s;
}

size_t guarded_first_place(const uint8_t *file, size_t len)
{
	loan f = lend(file, len, 1);
	size_t place = slp_first_place(f.data, len);
	CHECK(kept(&f, 0));
	give_back(&f);
	return place;
}
