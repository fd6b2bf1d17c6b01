/* Runs of frames at a place of an output. */
#include <stdlib.h>
#include <string.h>

#include "check.h"
#include "damage.h"
#include "model.h"

enum { ROOM = 1 << 16 };

static size_t met[32];

/* One call against the model: its answer and every byte of the output. */
static slp_appended check_run(const input *in, uint8_t *out, size_t room, size_t place, size_t a, size_t b)
{
	size_t end = b == ONE_FRAME ? a + 1 : b;
	unsigned number = b == ONE_FRAME && a == SIZE_MAX ? model_run_refusal(in, room, place, a, 0) : model_run_refusal(in, room, place, a, end);
	uint8_t *should = take(room + 1);
	if (room)
		memcpy(should, out, room);
	size_t len = 0;
	if (number == 0) {
		model_file f = model_run(in, a, end);
		len = f.len;
		if (len)
			memcpy(should + place, f.bytes, len);
		model_free(&f);
	}
	slp_appended r = guarded_run(in, out, room, place, a, b);
	CHECK_EQ(r.refused, number);
	CHECK_EQ(r.end, number ? 0 : place + len);
	CHECK(room == 0 || memcmp(out, should, room) == 0);
	free(should);
	met[number]++;
	return r;
}

static uint8_t *fresh(size_t room)
{
	uint8_t *out = take(room + 1);
	draw_bytes(out, room + 1);
	return out;
}

/* All frames are what stands in the file between codes and ends; the single calls one after another leave the same; so do two runs. */
static void check_whole(const input *in)
{
	size_t frames = in->game.frames.counts.frames, cut = below(frames + 1), place = below(9);
	model_file f = model_write(in), all = model_run(in, 0, frames);
	size_t room = place + all.len + below(3);
	uint8_t *out = fresh(room), *file = take(f.len + 1), *other = take(room + 1);
	memcpy(other, out, room + 1);
	slp_appended r = check_run(in, out, room, place, 0, frames);
	CHECK_EQ(guarded_write(in, file, f.len).len, f.len);
	size_t before = f.data_end - all.len;
	for (int n = 0; in->game.end.given && n < (in->game.double_end ? 2 : 1); n++)
		before -= f.data_end - f.ends[f.events - 2];
	CHECK(all.len == 0 || memcmp(file + before, out + place, all.len) == 0);
	slp_appended s = { 0, place };
	for (size_t i = 0; i < frames; i++)
		s = check_run(in, other, room, s.end, i, ONE_FRAME);
	CHECK_EQ(s.end, r.end);
	CHECK(memcmp(out, other, room + 1) == 0);
	s = check_run(in, other, room, place, 0, cut);
	s = check_run(in, other, room, s.end, cut, frames);
	CHECK_EQ(s.end, r.end);
	CHECK(memcmp(out, other, room + 1) == 0);
	free(out), free(other), free(file);
	model_free(&f), model_free(&all);
}

static void games(void)
{
	for (size_t n = rounds(2000, 25); n; n--) {
		plan p = random_plan(below(4) ? 12 : 40);
		made m = make_game(&p);
		check_whole(&m.in);
		unmake(&m);
	}
	plan p = rich_plan();
	made m = make_game(&p);
	check_whole(&m.in);
	unmake(&m);
}

/* Every range, also reversed and beyond, at a place that just fits and with one byte less. */
static void ranges(void)
{
	plan p = rich_plan();
	made m = make_game(&p);
	size_t frames = m.in.game.frames.counts.frames;
	for (size_t a = 0; a <= frames + 2; a++)
		for (size_t b = 0; b <= frames + 2; b++) {
			size_t len = 0, place = below(5);
			if (a <= b && b <= frames) {
				model_file f = model_run(&m.in, a, b);
				len = f.len;
				model_free(&f);
			}
			uint8_t *out = fresh(place + len);
			slp_appended r = check_run(&m.in, out, place + len, place, a, b);
			CHECK(r.refused ? r.refused == 13 : r.end == place + len);
			if (len)
				CHECK_EQ(check_run(&m.in, out, place + len - 1, place, a, b).refused, 12);
			CHECK_EQ(check_run(&m.in, out, place + len, place + 1, a, b).refused, r.refused ? 13 : 12);
			free(out);
		}
	unmake(&m);
}

/* An empty run at every place of an output, and at places beyond it; also of a game without frames. */
static void empty_runs(void)
{
	static const size_t far[] = { 1, 2, 1000, UINT32_MAX, (size_t)UINT32_MAX + 1, SIZE_MAX / 2 + 1 };
	for (size_t frames = 0; frames < 3; frames++) {
		plan p = { .version = { 3, 18, 0 }, .frames = frames, .ports = 1 };
		made m = make_game(&p);
		uint8_t out[9];
		draw_bytes(out, sizeof out);
		for (size_t room = 0; room < sizeof out; room++) {
			for (size_t place = 0; place <= room; place++)
				CHECK_EQ(check_run(&m.in, out, room, place, frames, frames).end, place);
			for (size_t i = 0; i < sizeof far / sizeof *far; i++)
				CHECK_EQ(check_run(&m.in, out, room, room + far[i], frames, frames).refused, 12);
			CHECK_EQ(check_run(&m.in, out, room, SIZE_MAX, frames, frames).refused, 12);
		}
		unmake(&m);
	}
}

/* Numbers that are far away, for either end of the range, one frame and the place. */
static void far_runs(void)
{
	plan p = rich_plan();
	made m = make_game(&p);
	uint8_t *out = fresh(ROOM);
	for (size_t i = 0; i < FAR_NUMBERS; i++) {
		for (size_t k = 0; k < FAR_NUMBERS; k++)
			check_run(&m.in, out, ROOM, 0, far_numbers[i], far_numbers[k]);
		check_run(&m.in, out, ROOM, 0, 0, far_numbers[i]);
		check_run(&m.in, out, ROOM, 0, far_numbers[i], 0);
		check_run(&m.in, out, ROOM, 0, far_numbers[i], ONE_FRAME);
		check_run(&m.in, out, ROOM, far_numbers[i], 0, 1);
		check_run(&m.in, out, ROOM, far_numbers[i], 8, ONE_FRAME);
		check_run(&m.in, out, ROOM, far_numbers[i], far_numbers[i], ONE_FRAME);
		check_run(&m.in, NULL, 0, far_numbers[i], 1, 0);
	}
	free(out);
	unmake(&m);
}

/* Of every set of the nine faults the first in the order 1 to 7, 13, 12 is given. */
static void every_set(void)
{
	static uint8_t out[ROOM];
	for (unsigned set = 0; set < 1u << 9; set += light ? 1 + (unsigned)below(40) : 1) {
		plan p = rich_plan();
		made m = make_game(&p);
		unsigned first = 0;
		for (unsigned n = 7; n; n--)
			if (set >> (n - 1) & 1) {
				fault_frames(&m, n);
				first = n;
			}
		int outside = set >> 7 & 1, is_short = set >> 8 & 1;
		unsigned number = first ? first : outside ? 13 : is_short ? 12 : 0;
		CHECK_EQ(guarded_run(&m.in, out, is_short ? 3 : ROOM, is_short ? 4 : 0, outside ? 1 : 0, 0).refused, number);
		CHECK_EQ(guarded_run(&m.in, out, is_short ? 3 : ROOM, is_short ? 4 : 0, outside ? 1u << 20 : 0, ONE_FRAME).refused, number);
		unmake(&m);
	}
}

static void damaged(void)
{
	static uint8_t out[ROOM];
	memset(met, 0, sizeof met);
	for (size_t n = rounds(6000, 50); n; n--) {
		plan p = random_plan(9);
		made m = make_game(&p);
		for (size_t k = below(3); k; k--)
			damage(&m);
		size_t a = below(5) ? below(10) : odd_number(9), b = below(5) ? below(12) : below(3) ? ONE_FRAME : odd_number(9);
		size_t room = below(4) ? 4096 + below(4096) : below(900), place = below(5) ? below(600) : odd_number(room);
		check_run(&m.in, out, room, place, a, b);
		unmake(&m);
	}
	for (unsigned n = 0; n <= 7; n++)
		CHECK(light || met[n] > 20);
	CHECK(light || (met[12] > 20 && met[13] > 20));
}

/* No codes, metadata, start or end matter. */
static void only_frames(void)
{
	plan p = rich_plan();
	made m = make_game(&p);
	uint8_t *out = fresh(ROOM);
	m.in.game.start.seats[0].kind = 9;
	m.in.game.end.initiator = 77;
	m.in.game.actual_size = 1;
	m.in.block.len = 0;
	CHECK_EQ(check_run(&m.in, out, ROOM, 0, 0, m.in.game.frames.counts.frames).refused, 0);
	free(out);
	unmake(&m);
}

int main(int argc, char **argv)
{
	begin("runs", argc, argv);
	test("games", games);
	test("every range", ranges);
	test("empty runs", empty_runs);
	test("far numbers", far_runs);
	test("every set of faults", every_set);
	test("damaged games", damaged);
	test("only frames", only_frames);
	return finish();
}
