/* One player's card: games in which the Pre and Post cells of one port are changed. The files must have one length, and every byte that differs must be in
 * a payload of that port's Pre and Post, as the walk finds them, behind frame id, port and follower; and the rows of all others must stay. */
#include <stdlib.h>
#include <string.h>

#include "check.h"
#include "columns.h"
#include "flat.h"
#include "made.h"
#include "model.h"

/* Two games that differ in one port's cells, and their files. */
typedef struct {
	const input *one, *other;
	size_t column;                 /* the port column whose cells differ */
	size_t first_slot, players;    /* its slots */
	uint8_t *file, *other_file;
	size_t len;
} pair;

enum { PRES = 2, POSTS = 3, HEAD = 6 };

static size_t differing;   /* bytes that differed, over all games */

/* ---- changing a card */

/* How much of the card is changed: every cell, some, or one. */
typedef enum { EVERY, SOME, SINGLE, AMOUNTS } amount;

static int is_hit(amount how, size_t i, size_t chosen)
{
	return how == EVERY || (how == SOME ? below(10) == 0 : i == chosen);
}

/* The cells of one family's store with those of the port's slots changed, each within its width. */
static uint32_t *changed_cells(const made *m, size_t store, family k, size_t first_slot, size_t players, amount how)
{
	const slp_frames *f = &m->in.game.frames;
	uint8_t widths[MOST_COLUMNS];
	size_t columns = widths_of(k, f->version, widths), frames = f->counts.frames, block = columns * frames;
	size_t len = block * slots_of(f), chosen = below(players * block + 1);
	uint32_t *to = take(len * 4 + 4);
	if (len)
		memcpy(to, m->cells[store], len * 4);
	for (size_t i = 0; i < players * block; i++)
		if (is_hit(how, i, chosen)) {
			uint32_t limit = most(widths[i / frames % columns]), flip = (uint32_t)draw() & limit;
			to[first_slot * block + i] ^= flip ? flip : 1;
		}
	return to;
}

/* ---- the files */

static uint8_t *written(const input *in, size_t *len)
{
	model_file f = model_write(in);
	uint8_t *to = take(f.len + 1);
	slp_written w = guarded_write(in, to, f.len);
	CHECK_EQ(w.refused, 0);
	*len = w.len;
	model_free(&f);
	return to;
}

/* Marks the bytes behind the heads of the port's events; gives how many of these events hold a byte that differs. */
static size_t mark_card(const pair *p, const uint8_t *file, const uint8_t *other, uint8_t *card)
{
	uint8_t port = p->one->game.frames.ports[p->column].port;
	size_t touched = 0;
	slp_step s = guarded_step(file, p->len, guarded_first_place(file, p->len));
	for (; s.kind == SLP_STEP_EVENT; s = guarded_step(file, p->len, s.next)) {
		slp_step t = guarded_step(other, p->len, s.at);
		CHECK(t.kind == s.kind && t.code == s.code && t.payload == s.payload && t.next == s.next);
		if ((s.code == 0x37 || s.code == 0x38) && file[s.payload + 4] == port) {
			memset(card + s.payload + HEAD, 1, s.len - HEAD);
			touched += memcmp(file + s.payload, other + s.payload, s.len) != 0;
		}
	}
	CHECK(s.kind == SLP_STEP_ENDS);
	return touched;
}

/* How many records of present players have a changed cell. */
static size_t changed_records(const pair *p, size_t store, family k)
{
	const slp_frames *f = &p->one->game.frames;
	input one = *p->one, other = *p->other;
	const uint32_t *a = cell_store(&one.stores, store)->p, *b = cell_store(&other.stores, store)->p;
	size_t columns = columns_of(k, f->version), frames = f->counts.frames, n = 0;
	for (size_t slot = p->first_slot; slot < p->first_slot + p->players; slot++)
		for (size_t i = 0; i < frames; i++) {
			int changed = 0;
			for (size_t c = 0; c < columns; c++)
				changed |= a[(slot * columns + c) * frames + i] != b[(slot * columns + c) * frames + i];
			n += changed && is_present(p->one, slot, i);
		}
	return n;
}

static void check_files(const pair *p)
{
	uint8_t *card = take(p->len), *again = take(p->len);
	memset(card, 0, p->len);
	memset(again, 0, p->len);
	size_t touched = mark_card(p, p->file, p->other_file, card), back = mark_card(p, p->other_file, p->file, again);
	CHECK(memcmp(card, again, p->len) == 0);
	CHECK_EQ(touched, changed_records(p, PRES, PRE) + changed_records(p, POSTS, POST));
	CHECK_EQ(back, touched);
	size_t outside = 0;
	for (size_t i = 0; i < p->len; i++) {
		outside += p->file[i] != p->other_file[i] && !card[i];
		differing += p->file[i] != p->other_file[i];
	}
	CHECK_EQ(outside, 0);
	free(card);
	free(again);
}

/* ---- the rows */

/* Two answers that must be the same. */
static void check_same(const pair *p, row_kind kind, size_t slot, size_t index)
{
	flat a = guarded_row(p->one, kind, slot, index), b = guarded_row(p->other, kind, slot, index);
	CHECK_EQ(a.refused, b.refused);
	CHECK(a.refused ? flat_is_zero(&a) && flat_is_zero(&b) : flat_is(&b, a.cells, a.n_cells) && flat_marked(&b, a.marks, a.n_marks));
}

/* A frame's row, but for the port's players: before a port column's numbers stand two of the frame and those of the columns before. */
static void check_frame(const pair *p, size_t index)
{
	const slp_frames *f = &p->one->game.frames;
	flat a = guarded_row(p->one, FRAME_ROW, 0, index), b = guarded_row(p->other, FRAME_ROW, 0, index);
	size_t player = (a.n_cells - 2 - 2 * f->port_count - 3 - 8) / slots_of(f);
	size_t from = 2 + 2 * p->column + player * p->first_slot;
	CHECK_EQ(a.n_cells, b.n_cells);
	memcpy(a.cells + from, b.cells + from, (2 + p->players * player) * sizeof *a.cells);
	CHECK(flat_is(&b, a.cells, a.n_cells));
	CHECK(flat_marked(&b, a.marks, a.n_marks));
}

static void check_rows(const pair *p)
{
	const slp_frames *f = &p->one->game.frames;
	size_t index = below(f->counts.frames);
	for (size_t slot = 0; slot <= slots_of(f); slot++)
		if (slot < p->first_slot || slot >= p->first_slot + p->players) {
			check_same(p, PRE_ROW, slot, index);
			check_same(p, POST_ROW, slot, index);
		}
	for (row_kind kind = ITEM_ROW; kind < ROW_KINDS; kind++)
		check_same(p, kind, 0, below(row_count(f, kind) + 1));
	check_frame(p, index);
}

/* ---- the games */

static void check_card(const made *m, size_t column, size_t first_slot, amount how)
{
	input other = m->in;
	size_t players = m->in.game.frames.ports[column].follower ? 2 : 1, len = 0;
	uint32_t *pres = changed_cells(m, PRES, PRE, first_slot, players, how), *posts = changed_cells(m, POSTS, POST, first_slot, players, how);
	cell_store(&other.stores, PRES)->p = pres;
	cell_store(&other.stores, POSTS)->p = posts;
	pair p = { .one = &m->in, .other = &other, .column = column, .first_slot = first_slot, .players = players };
	p.file = written(&m->in, &p.len);
	p.other_file = written(&other, &len);
	CHECK_EQ(len, p.len);
	check_files(&p);
	check_rows(&p);
	free(p.file);
	free(p.other_file);
	free(pres);
	free(posts);
}

static void check_cards(const plan *p)
{
	made m = make_game(p);
	const slp_frames *f = &m.in.game.frames;
	for (size_t column = 0, slot = 0; column < f->port_count; column++) {
		for (amount how = EVERY; how < AMOUNTS; how++)
			check_card(&m, column, slot, how);
		slot += f->ports[column].follower ? 2 : 1;
	}
	unmake(&m);
}

static void random_games(void)
{
	for (size_t n = rounds(400, 3); n; n--) {
		plan p = random_plan(20);
		p.frames += !p.frames;
		p.ports += !p.ports;
		check_cards(&p);
	}
	CHECK(differing > 0);
}

/* Two players on one setup, one of them with a follower: every version at which something changes. */
static void two_players(void)
{
	static const uint8_t minors[4] = { 3, 6, 3, 19 };
	for (uint8_t major = 0; major < 4; major++)
		for (uint8_t minor = light ? minors[major] - 1 : 0; minor < minors[major]; minor++) {
			plan p = rich_plan();
			p.version = (slp_version){ major, minor, 0 };
			p.ports = 2;
			p.followers = 1;
			check_cards(&p);
		}
}

int main(int argc, char **argv)
{
	begin("apart", argc, argv);
	test("random games", random_games);
	test("two players", two_players);
	return finish();
}
