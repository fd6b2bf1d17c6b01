/* Games whose frames stop being alike at every place: the library writes eight frames that have the same players together, whatever rows of items and of the
 * stages stand between them, and reads the events of eight frames together. Every file is compared with the model's, over an output that just fits, and
 * what is read from it with the model's reading. */
#include <stdlib.h>
#include <string.h>

#include "against.h"
#include "check.h"
#include "columns.h"
#include "made.h"
#include "model.h"

/* Enough for a frame alone, three times eight, and a rest. */
enum { MOST_FRAMES = 27 };

static const slp_version VERSIONS[] = { { 3, 18, 0 }, { 3, 0, 0 }, { 2, 2, 0 }, { 2, 1, 0 } };
enum { ALL_VERSIONS = sizeof VERSIONS / sizeof *VERSIONS };

/* Where fewer rounds are asked for: the newest version, the longest game. */
static size_t versions(void)
{
	return light ? 1 : ALL_VERSIONS;
}

static size_t least_frames(void)
{
	return light ? MOST_FRAMES : 0;
}

/* Before 2.2 a frame of nobody leaves no event: such a game is the only one here that does not come back. */
static int comes_back(const slp_frames *f)
{
	return reaches(f->version, 2, 2) || f->port_count || f->counts.frames == 0;
}

static void check_game(const input *in)
{
	model_file f = model_write(in);
	uint8_t *to = take(f.len);
	memset(to, 0xee, f.len);
	slp_written w = guarded_write(in, to, f.len);
	CHECK_EQ(w.refused, 0);
	CHECK_EQ(w.len, f.len);
	CHECK(memcmp(to, f.bytes, f.len) == 0);
	free(to);
	CHECK_EQ(check_file(f.bytes, f.len) == 0, comes_back(&in->game.frames));
	model_free(&f);
}

/* ---- presence */

/* What a player is where likeness breaks: away in that frame, from it on, or until it. */
typedef enum { ONCE, FROM, UNTIL, MANNERS } manner;

static int away(manner how, size_t at, size_t frame)
{
	return how == ONCE ? frame == at : how == FROM ? frame >= at : frame < at;
}

/* Gives a game of no presence bits those of every slot, or of one: all are present, and spare bits are anything. */
static void give_presence(made *m, size_t slots, size_t only)
{
	slp_frames *f = &m->in.game.frames;
	size_t bytes = (f->counts.frames + 7) / 8, slot = 0, given = 0;
	for (size_t i = 0; i < f->port_count; i++) {
		slp_port_column *p = &f->ports[i];
		p->leader_presence = only == slots || only == slot ? bytes : 0;
		slot++;
		if (p->follower) {
			p->follower_presence = only == slots || only == slot ? bytes : 0;
			slot++;
		}
		given += p->leader_presence + p->follower_presence;
	}
	m->in.stores.presence.len = given;
}

/* The presence bytes of a slot, with a player who is away as told. */
static void set_presence(uint8_t *bits, size_t frames, manner how, size_t at)
{
	for (size_t i = 0; i < frames; i++) {
		bits[i / 8] = (uint8_t)(bits[i / 8] | 1 << i % 8);
		if (away(how, at, i))
			bits[i / 8] = (uint8_t)(bits[i / 8] & ~(1 << i % 8));
	}
}

/* One slot's player away at every place, with presence bits for this slot alone or for all. */
static void check_slot(const plan *p, size_t slots, size_t slot, int alone)
{
	size_t bytes = (p->frames + 7) / 8;
	made m = make_returning(*p);
	give_presence(&m, slots, alone ? slot : slots);
	for (size_t s = 0; s < slots; s++)
		set_presence(m.presence + s * bytes, p->frames, ONCE, p->frames);
	uint8_t *bits = m.presence + (alone ? 0 : slot * bytes);
	for (manner how = ONCE; how < MANNERS; how++)
		for (size_t at = 0; at < p->frames; at++) {
			set_presence(bits, p->frames, how, at);
			check_game(&m.in);
		}
	unmake(&m);
}

static void players(void)
{
	for (size_t v = 0; v < versions(); v++)
		for (size_t frames = least_frames(); frames <= MOST_FRAMES; frames++)
			for (size_t slot = 0; slot < 3; slot++) {
				plan p = { .version = VERSIONS[v], .frames = frames, .ports = 2, .followers = 1 };
				check_slot(&p, 3, slot, (frames + slot) % 2 == 0);
			}
}

/* Each of eight players. */
static void eight_players(void)
{
	for (size_t slot = light ? 7 : 0; slot < 8; slot++) {
		plan p = { .version = { 3, 18, 0 }, .frames = MOST_FRAMES, .ports = 4, .followers = 15 };
		check_slot(&p, 8, slot, 0);
	}
}

/* ---- rows of items and of the stages */

static const family ROWS[4] = { ITEM, FOD, WHISPY, STADIUM };

static size_t *count_of(plan *p, size_t k)
{
	size_t *counts[4] = { &p->items, &p->fods, &p->whispys, &p->stadiums };
	return counts[k];
}

/* One row, in the frame of that place. */
static void one_row(uint32_t *offsets, size_t frames, size_t at)
{
	for (size_t i = 0; i <= frames; i++)
		offsets[i] = i > at;
}

/* As many rows as frames: none before that place, the first ones together in its frame, then a row a frame. */
static void rows_from(uint32_t *offsets, size_t frames, size_t at)
{
	for (size_t i = 0; i <= frames; i++)
		offsets[i] = i > at ? (uint32_t)i : 0;
}

static void check_rows(slp_version v, size_t frames, size_t k)
{
	plan one = { .version = v, .frames = frames, .ports = 2, .followers = 1 }, many = one;
	*count_of(&one, k) = 1;
	*count_of(&many, k) = frames;
	made m = make_returning(one), n = make_returning(many);
	for (size_t at = 0; at < frames; at++) {
		one_row(m.cells[9 + k], frames, at);
		check_game(&m.in);
		rows_from(n.cells[9 + k], frames, at);
		check_game(&n.in);
	}
	unmake(&m);
	unmake(&n);
}

static void rows(void)
{
	for (size_t v = 0; v < versions(); v++)
		for (size_t k = 0; k < 4; k++)
			for (size_t frames = least_frames(); has_family(ROWS[k], VERSIONS[v]) && frames <= MOST_FRAMES; frames++)
				check_rows(VERSIONS[v], frames, k);
}

/* ---- all alike, and two breaks with a run of any length between them */

static void alike(void)
{
	for (size_t v = 0; v < versions(); v++)
		for (size_t frames = 0; frames <= 3 * MOST_FRAMES; frames++) {
			plan p = { .version = VERSIONS[v], .frames = frames, .ports = frames % 5, .followers = frames / 5 };
			made m = make_returning(p);
			check_game(&m.in);
			unmake(&m);
		}
}

/* A player is away in one frame, and another frame has a row. */
static void pairs(void)
{
	for (size_t k = 0; k < (light ? 1 : 4); k++) {
		plan p = { .version = { 3, 18, 0 }, .frames = MOST_FRAMES, .ports = 2 };
		*count_of(&p, k) = 1;
		made m = make_returning(p);
		give_presence(&m, 2, k % 2);
		for (size_t a = 0; a < MOST_FRAMES; a += light ? 5 : 1)
			for (size_t b = 0; b < MOST_FRAMES; b++) {
				set_presence(m.presence, MOST_FRAMES, ONCE, a);
				one_row(m.cells[9 + k], MOST_FRAMES, b);
				check_game(&m.in);
			}
		unmake(&m);
	}
}

/* ---- every subset of eight frames, again and again */

enum { SUBSETS = 256 };

static int is_in(size_t subset, size_t frame)
{
	return subset >> frame % 8 & 1;
}

/* A row in each frame of the subset. */
static void rows_in(uint32_t *offsets, size_t frames, size_t subset)
{
	offsets[0] = 0;
	for (size_t i = 0; i < frames; i++)
		offsets[i + 1] = offsets[i] + (uint32_t)is_in(subset, i);
}

static void subset_rows(void)
{
	for (size_t k = 0; k < 4; k++)
		for (size_t subset = 0; subset < SUBSETS; subset += light ? 17 : 1) {
			plan p = { .version = VERSIONS[k == 0 ? subset % 2 : 0], .frames = MOST_FRAMES, .ports = 2, .followers = subset % 3 };
			for (size_t i = 0; i < MOST_FRAMES; i++)
				*count_of(&p, k) += (size_t)is_in(subset, i);
			made m = make_returning(p);
			rows_in(m.cells[9 + k], MOST_FRAMES, subset);
			check_game(&m.in);
			unmake(&m);
		}
}

/* A player who comes and goes. */
static void subset_players(void)
{
	for (size_t subset = 0; subset < SUBSETS; subset += light ? 17 : 1)
		for (size_t slot = 0; slot < 3; slot++) {
			size_t bytes = (MOST_FRAMES + 7) / 8;
			plan p = { .version = VERSIONS[(subset + slot) % versions()], .frames = MOST_FRAMES, .ports = 2, .followers = 1 };
			made m = make_returning(p);
			give_presence(&m, 3, 3);
			for (size_t s = 0; s < 3; s++)
				set_presence(m.presence + s * bytes, MOST_FRAMES, ONCE, MOST_FRAMES);
			memset(m.presence + slot * bytes, (int)subset, bytes);
			check_game(&m.in);
			unmake(&m);
		}
}

int main(int argc, char **argv)
{
	begin("eights", argc, argv);
	test("all alike", alike);
	test("players", players);
	test("eight players", eight_players);
	test("rows", rows);
	test("pairs", pairs);
	test("rows in every subset of eight frames", subset_rows);
	test("players in every subset of eight frames", subset_players);
	return finish();
}
