/* Rows of a run: all runs of many games, refusals and their order, and rows of cells that are given, against the single calls and the model. */
#include <stdlib.h>
#include <string.h>

#include "check.h"
#include "columns.h"
#include "damage.h"
#include "made.h"
#include "model.h"

enum { FAMILY_NUMBERS = 8 };

/* The row call that a family's rows are told by. */
static const row_kind BY_NUMBER[FAMILY_NUMBERS] = { FRAME_ROW, PRE_ROW, POST_ROW, FRAME_ROW, ITEM_ROW, FOD_ROW, WHISPY_ROW, STADIUM_ROW };

static size_t met[16];

static int of_players(uint8_t number)
{
	return number == SLP_FAMILY_PRE || number == SLP_FAMILY_POST;
}

/* A run into so many cells is the model's: its number, or its rows, and no cell behind them is another. */
static void check_run(const input *in, uint8_t number, size_t slot, size_t from, size_t to, size_t room)
{
	unsigned want = model_rows_refusal(in, number, slot, from, to, room);
	uint32_t *out = take(4 * room), *before = take(4 * room);
	draw_bytes(out, 4 * room);
	memcpy(before, out, 4 * room);
	slp_run r = guarded_rows(in, out, room, number, slot, from, to);
	met[want]++;
	CHECK_EQ(r.refused, want);
	size_t put = 0;
	for (size_t i = from; !want && i < to; i++) {
		uint32_t row[MOST_COLUMNS + 1];
		size_t cells;
		model_run_row(in, number, slot, i, row, &cells);
		CHECK(put + cells <= room && memcmp(out + put, row, 4 * cells) == 0);
		put += cells;
	}
	CHECK_EQ(r.len, put);
	CHECK(memcmp(out + put, before + put, 4 * (room - put)) == 0);
	free(out);
	free(before);
}

/* The row made of a run's cells is the one that the single call gives. */
static void check_row(const input *in, uint8_t number, size_t slot, size_t index, const uint32_t *cells, size_t columns)
{
	slp_version v = in->game.frames.version;
	flat of = given_row(number, cells, columns, v, of_players(number) ? cells[columns] : 0);
	flat f = guarded_row(in, BY_NUMBER[number], slot, index);
	if (BY_NUMBER[number] != FRAME_ROW) {
		CHECK(flat_is(&of, f.cells, f.n) && flat_marked(&of, f.marks, f.n_marks));
		return;
	}
	slp_frame_answer a = slp_frame_row(in->game.frames, SLP_STORES(&in->stores), index);
	if (number == SLP_FAMILY_FRAME_START)
		CHECK(flat_is(&of, a.row.start.bits, 2));
	else
		CHECK(flat_is(&of, a.row.end.bits, 1));
}

static void check_rows(const input *in, uint8_t number, size_t slot)
{
	const slp_frames *f = &in->game.frames;
	size_t rows = row_count(f, BY_NUMBER[number]), cells = slp_row_cells(f->version, number);
	size_t columns = cells - (size_t)of_players(number);
	uint32_t *out = take(4 * (rows * cells));
	memset(out, 0xee, 4 * (rows * cells));
	CHECK_EQ(guarded_rows(in, out, rows * cells, number, slot, 0, rows).len, rows * cells);
	for (size_t i = 0; i < rows; i++)
		check_row(in, number, slot, i, out + i * cells, columns);
	free(out);
}

/* Every family and slot: all rows, every part of a few, and what is just outside. */
static void check_all(const input *in, size_t parts)
{
	const slp_frames *f = &in->game.frames;
	for (uint8_t number = 0; number < FAMILY_NUMBERS; number++)
		for (size_t slot = 0; slot < (of_players(number) ? slots_of(f) : 1); slot++) {
			size_t rows = row_count(f, BY_NUMBER[number]), cells = slp_row_cells(f->version, number);
			check_rows(in, number, slot);
			for (size_t n = parts; n; n--) {
				size_t from = below(rows + 2), to = below(rows + 2), need = to > from ? (to - from) * cells : 0;
				check_run(in, number, slot, from, to, need + below(3));
				if (need)
					check_run(in, number, slot, from, to, need - 1);
			}
		}
	check_run(in, SLP_FAMILY_PRE, slots_of(f), 0, 0, 40);
	check_run(in, SLP_FAMILY_ITEM, 1, 0, 0, 40);
	check_run(in, 8, 0, 0, 0, 40);
	check_run(in, 255, 0, 0, 0, 40);
}

static void games(void)
{
	for (size_t n = rounds(200, 3); n; n--) {
		plan p = random_plan(12);
		made m = make_game(&p);
		check_all(&m.in, 4);
		unmake(&m);
	}
}

/* One game at every version that there is. */
static void versions(void)
{
	static const uint8_t minors[4] = { 3, 6, 3, 19 };
	for (uint8_t major = 0; major < 4; major++)
		for (uint8_t minor = 0; minor < minors[major]; minor++) {
			plan p = rich_plan();
			p.version = (slp_version){ major, minor, 0 };
			p.frames = light ? 1 : 5;
			made m = make_game(&p);
			check_all(&m.in, 2);
			unmake(&m);
		}
}

/* ---- refusals */

/* The faults of a set, bit n - 1 for number n, bit 7 for 13 and bit 8 for 12. */
static void check_set(unsigned set)
{
	plan p = rich_plan();
	made m = make_game(&p);
	for (unsigned n = 7; n >= 1; n--)
		if (set >> (n - 1) & 1)
			fault_frames(&m, n);
	unsigned lowest = set >> 7 & 1 ? 13 : set >> 8 & 1 ? 12 : 0;
	for (unsigned n = 7; n >= 1; n--)
		if (set >> (n - 1) & 1)
			lowest = n;
	for (uint8_t number = 0; number < FAMILY_NUMBERS; number++) {
		size_t cells = slp_row_cells((slp_version){ 3, 18, 0 }, number);
		uint32_t *out = take(4 * cells);
		memset(out, 0xee, 4 * cells);
		size_t from = 0, to = set >> 7 & 1 ? SIZE_MAX : 1;
		CHECK_EQ(guarded_rows(&m.in, out, cells - (set >> 8 & 1), number, 0, from, to).refused, lowest);
		free(out);
	}
	unmake(&m);
}

static void every_set(void)
{
	for (unsigned set = 0; set < 512; set += light ? 23 : 1)
		check_set(set);
}

/* Ranges, slots and families that are far away, and a range that is reversed. */
static void far_places(void)
{
	plan p = rich_plan();
	made m = make_game(&p);
	for (uint8_t number = 0; number < 10; number++)
		for (size_t i = 0; i < FAR_NUMBERS; i++) {
			check_run(&m.in, number, 0, 0, far_numbers[i], 400);
			check_run(&m.in, number, 0, far_numbers[i], far_numbers[i], 400);
			check_run(&m.in, number, 0, far_numbers[i], 0, 400);
			check_run(&m.in, number, far_numbers[i], 0, 1, 400);
		}
	check_run(&m.in, SLP_FAMILY_PRE, 0, 2, 1, 400);
	unmake(&m);
}

static void damaged(void)
{
	memset(met, 0, sizeof met);
	for (size_t n = rounds(8000, 60); n; n--) {
		plan p = random_plan(9);
		made m = make_game(&p);
		for (size_t k = 1 + below(2); k; k--)
			damage(&m);
		check_run(&m.in, (uint8_t)below(below(5) ? 8 : 256), below(5) ? below(9) : odd_number(8), below(4), below(5) ? below(10) : odd_number(9),
		          below(below(2) ? 300 : 20));
		unmake(&m);
	}
	for (unsigned n = 0; n <= 7; n++)
		CHECK(light || met[n] > 20);
	CHECK(light || (met[12] > 20 && met[13] > 20));
}

/* ---- rows of cells, whatever they are */

static void check_given(uint8_t number, slp_version v, const uint32_t *cells, size_t len, uint32_t present)
{
	static const size_t all[FAMILY_NUMBERS] = { 2, 19, 32, 1, 16, 2, 1, 2 };
	uint32_t bits[32];
	flat f = given_row(number, cells, len, v, present);
	model_given(number, v, cells, len, bits);
	CHECK(flat_is(&f, bits, all[number]));
	uint8_t mark = present != 0;
	CHECK(flat_marked(&f, &mark, (size_t)of_players(number)));
}

/* Any cells, any number of them, any version, any mark. */
static void any_cells(void)
{
	for (size_t n = rounds(40000, 400); n; n--) {
		uint32_t cells[40];
		draw_bytes(cells, sizeof cells);
		slp_version v = below(3) ? random_version() : (slp_version){ (uint8_t)below(256), (uint8_t)below(256), (uint8_t)below(256) };
		size_t len = below(3) ? below(41) : 40;
		check_given((uint8_t)below(8), v, cells, len, below(2) ? (uint32_t)below(3) : (uint32_t)draw());
	}
}

/* Every width at its limit and over it, and a cell too many. */
static void low_bytes(void)
{
	static const uint32_t odd[] = { 0, 0xff, 0x100, 0x1ff, 0xffff, 0x10000, 0x1ffff, 0x7f800001, 0xffffffff };
	for (uint8_t number = 0; number < 8; number++)
		for (size_t i = 0; i < sizeof odd / sizeof *odd; i++) {
			uint32_t cells[33];
			for (size_t c = 0; c < 33; c++)
				cells[c] = odd[i];
			for (size_t len = 0; len <= 33; len++)
				check_given(number, (slp_version){ 3, 18, 0 }, cells, len, 0x100);
		}
}

int main(int argc, char **argv)
{
	begin("row_runs", argc, argv);
	test("games", games);
	test("versions", versions);
	test("every set of faults", every_set);
	test("far places", far_places);
	test("damaged games", damaged);
	test("any cells", any_cells);
	test("low bytes", low_bytes);
	return finish();
}
