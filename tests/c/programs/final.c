/* Final frames only: the file of the kept rows by themselves, the scratch, and every refusal. */
#include <stdlib.h>
#include <string.h>

#include "check.h"
#include "damage.h"
#include "model.h"

enum { ROOM = 1 << 16 };

static size_t met[32];

/* One call against the model: its answer, every byte of the output, and every byte of the scratch. */
static slp_written check_final(const input *in, uint8_t *out, size_t room, uint8_t *scratch, size_t scratch_len)
{
	unsigned number = model_final_refusal(in, room, scratch_len);
	uint8_t *should = take(room + 1), *mask = take(scratch_len + 1);
	size_t len = 0;
	if (room)
		memcpy(should, out, room);
	if (scratch_len)
		memcpy(mask, scratch, scratch_len);
	if (number == 0) {
		model_kept k = model_final(in);
		model_file f = model_write(&k.in);
		size_t n = in->stores.ids.len, j = 0;
		for (size_t i = 0; i < n; i++) {
			size_t later = i + 1;
			while (later < n && in->stores.ids.p[later] != in->stores.ids.p[i])
				later++;
			mask[i] = later < n;
			j += later == n;
		}
		CHECK_EQ(j, k.in.stores.ids.len);
		len = f.len;
		memcpy(should, f.bytes, len);
		model_free(&f);
		model_free_kept(&k);
	}
	slp_written w = guarded_final(in, out, room, scratch, scratch_len);
	CHECK_EQ(w.refused, number);
	CHECK_EQ(w.len, len);
	CHECK(room == 0 || memcmp(out, should, room) == 0);
	CHECK(scratch_len == 0 || memcmp(scratch, mask, scratch_len) == 0);
	free(should), free(mask);
	met[number]++;
	return w;
}

static uint8_t *fresh(size_t room)
{
	uint8_t *out = take(room + 1);
	draw_bytes(out, room + 1);
	return out;
}

/* The same call of the kept rows by themselves: the file of `write`, and of the call again, with nothing left out. */
static void check_again(const input *in, const uint8_t *file, size_t len)
{
	model_kept k = model_final(in);
	size_t rows = k.in.stores.ids.len;
	uint8_t *out = fresh(len), *scratch = fresh(rows);
	CHECK_EQ(guarded_write(&k.in, out, len).len, len);
	CHECK(memcmp(out, file, len) == 0);
	draw_bytes(out, len);
	CHECK_EQ(check_final(&k.in, out, len, scratch, rows).len, len);
	CHECK(memcmp(out, file, len) == 0);
	for (size_t i = 0; i < rows; i++)
		CHECK_EQ(scratch[i], 0);
	free(out), free(scratch);
	model_free_kept(&k);
}

/* The mask that the scratch begins with is that of the mask's own call. */
static void check_mask(const input *in, const uint8_t *scratch)
{
	static uint8_t marks[SLP_MAX_FRAMES];
	size_t n = in->stores.ids.len;
	uint8_t *mask = fresh(n);
	CHECK_EQ(slp_rollbacks(in->stores.ids.p, n, SLP_EXCEPT_LAST, mask, n, marks, sizeof marks), 0);
	CHECK(n == 0 || memcmp(mask, scratch, n) == 0);
	free(mask);
}

/* With room and scratch to spare, both just enough, and one byte less of either; an id out of range at every row is 13. */
static void check_game(made *m)
{
	static const uint32_t outside[4] = { (uint32_t)-124, 1048453, 0x7fffffff, 0x80000000 };
	size_t n = m->in.game.frames.counts.frames, more = below(4);
	uint8_t *out = fresh(ROOM), *scratch = fresh(n + more);
	slp_written w = check_final(&m->in, out, ROOM, scratch, n + more);
	CHECK_EQ(w.refused, 0);
	check_again(&m->in, out, w.len);
	check_mask(&m->in, scratch);
	draw_bytes(out, w.len);
	CHECK_EQ(check_final(&m->in, out, w.len, scratch, n).len, w.len);
	CHECK_EQ(check_final(&m->in, out, w.len - 1, scratch, n).refused, 12);
	if (n) {
		CHECK_EQ(check_final(&m->in, out, w.len, scratch, n - 1).refused, 12);
		size_t at = below(n);
		uint32_t was = m->cells[0][at];
		m->cells[0][at] = outside[below(4)];
		CHECK_EQ(check_final(&m->in, out, below(2) * w.len, scratch, below(2) * n).refused, 13);
		m->cells[0][at] = was;
	}
	free(out), free(scratch);
}

/* Ids as they were made, of few numbers, all alike, or over all windows of the library's. */
static void draw_ids(made *m)
{
	size_t how = below(5), few = 1 + below(12);
	for (size_t i = 0; i < m->in.game.frames.counts.frames; i++)
		if (how)
			m->cells[0][i] = (how == 1 ? 5 : how == 2 ? (uint32_t)below(few) : how == 3 ? (uint32_t)(below(64) * 16384 + below(2)) : (uint32_t)below(1048576)) - 123;
}

static void games(void)
{
	for (size_t n = rounds(2000, 25); n; n--) {
		plan p = random_plan(below(4) ? 12 : 60);
		made m = make_game(&p);
		draw_ids(&m);
		check_game(&m);
		unmake(&m);
	}
	plan p = rich_plan();
	made m = make_game(&p);
	check_game(&m);
	unmake(&m);
}

/* Of nine rows, every set of them with one id: runs of all lengths at all places. */
static void every_run(void)
{
	plan p = rich_plan();
	made m = make_game(&p);
	size_t n = m.in.game.frames.counts.frames;
	uint8_t *out = fresh(ROOM), *scratch = fresh(n);
	for (unsigned set = 0; set < 1u << n; set += light ? 1 + (unsigned)below(60) : 1) {
		for (size_t i = 0; i < n; i++)
			m.cells[0][i] = set >> i & 1 ? 77 : (uint32_t)i;
		CHECK_EQ(check_final(&m.in, out, ROOM, scratch, n).refused, 0);
	}
	free(out), free(scratch);
	unmake(&m);
}

/* Two rows each with ids on either side of every multiple of 16,384, where a window of ids may end, and the first and last ids. */
static void windows(void)
{
	plan p = { .version = { 3, 18, 0 }, .frames = 4, .ports = 1 };
	made m = make_game(&p);
	uint8_t *out = fresh(ROOM), scratch[4];
	for (uint32_t border = 0; border <= 1048576; border += 16384)
		for (unsigned same = 0; same < 2; same++) {
			uint32_t low = border ? border - 1 : 0, high = border < 1048576 ? border : 1048575;
			const uint32_t ids[4] = { low, high, same ? low : high, same ? high : low };
			for (size_t i = 0; i < 4; i++)
				m.cells[0][i] = ids[i] - 123;
			CHECK_EQ(check_final(&m.in, out, ROOM, scratch, 4).refused, 0);
		}
	free(out);
	unmake(&m);
}

/* Of every set of the fourteen faults the first in the order 1 to 11, 13, 12 for scratch or output is given. */
static void every_set(void)
{
	static uint8_t out[ROOM], scratch[64];
	for (unsigned set = 0; set < 1u << 14; set += light ? 1 + (unsigned)below(900) : 1) {
		plan p = rich_plan();
		made m = make_game(&p);
		size_t frames = m.in.game.frames.counts.frames;
		unsigned first = 0;
		for (unsigned n = 11; n; n--)
			if (set >> (n - 1) & 1) {
				first = n;
				switch (n) {
				case 8: m.in.block.len = 759; break;
				case 9: m.in.game.start.seats[2].kind = 3; break;
				case 10: m.in.game.actual_size = 512; break;
				case 11: m.in.game.end.initiator = 4; break;
				default: fault_frames(&m, n); break;
				}
			}
		int outside = set >> 11 & 1, no_scratch = set >> 12 & 1, no_room = set >> 13 & 1;
		if (outside)
			m.cells[0][0] = (uint32_t)-124;
		unsigned number = first ? first : outside ? 13 : no_scratch || no_room ? 12 : 0;
		CHECK_EQ(guarded_final(&m.in, out, no_room ? 100 : ROOM, scratch, no_scratch ? frames - 1 : frames).refused, number);
		unmake(&m);
	}
}

static void damaged(void)
{
	static uint8_t out[ROOM], scratch[64];
	memset(met, 0, sizeof met);
	for (size_t n = rounds(6000, 50); n; n--) {
		plan p = random_plan(9);
		made m = make_game(&p);
		draw_ids(&m);
		for (size_t k = below(3); k; k--)
			damage(&m);
		if (m.in.stores.ids.len && below(8) == 0)
			m.cells[0][below(m.in.stores.ids.len)] = (uint32_t)odd_number(1048452);
		check_final(&m.in, out, below(4) ? ROOM : below(900), scratch, below(6) ? 64 : below(10));
		unmake(&m);
	}
	for (unsigned n = 0; n <= 13; n++)
		CHECK(light || met[n] > 20);
}

/* As many rows as there may be, every id twice and in no order: the last half of the rows is the file, which has 93 bytes of each behind 350. */
static void most_rows(void)
{
	size_t n = light ? 20000 : SLP_MAX_FRAMES, half = n / 2, room = 351 + 93 * half;
	uint32_t *ids = take(n * sizeof *ids), *cells = calloc(14 * n, sizeof *cells);
	for (size_t i = 0; i < n; i++) {
		ids[i] = (uint32_t)(i % half * 7919 % half) - 123;
		cells[i] = (uint32_t)i;
	}
	const uint8_t block[320] = { 0 };
	input in = { .game = { .frames = { .version = { 0, 1, 0 }, .counts = { .frames = n }, .port_count = 1 } } };
	in.stores.ids = (slp_cells){ ids, n };
	in.stores.pres = (slp_cells){ cells, 14 * n };
	in.stores.posts = (slp_cells){ cells + n, 11 * n };
	in.block = (slp_bytes){ block, sizeof block };
	uint8_t *out = fresh(room), *scratch = fresh(n);
	CHECK_EQ(guarded_final(&in, out, room, scratch, n).len, room);
	size_t wrong = 0;
	for (size_t i = 0; i < n; i++) {
		const uint8_t *pre = out + 350 + 93 * (i % half);
		uint32_t id = (uint32_t)pre[1] << 24 | (uint32_t)pre[2] << 16 | (uint32_t)pre[3] << 8 | pre[4];
		uint32_t seed = (uint32_t)pre[7] << 24 | (uint32_t)pre[8] << 16 | (uint32_t)pre[9] << 8 | pre[10];
		wrong += scratch[i] != (i < half) || pre[0] != SLP_EVENT_FRAME_PRE || id != ids[i] || seed != half + i % half;
	}
	CHECK_EQ(wrong, 0);
	free(ids), free(cells), free(scratch), free(out);
}

int main(int argc, char **argv)
{
	begin("final", argc, argv);
	test("games", games);
	test("every run of rows", every_run);
	test("windows of ids", windows);
	test("every set of faults", every_set);
	test("damaged games", damaged);
	test("the most rows", most_rows);
	return finish();
}
