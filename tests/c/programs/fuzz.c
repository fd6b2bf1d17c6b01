/* Random and damaged inputs with a fixed seed. Every answer is compared with the model's. */
#include <stdlib.h>
#include <string.h>

#include "check.h"
#include "columns.h"
#include "damage.h"
#include "model.h"

enum { ROOM = 65536 };

static uint8_t out[ROOM];

/* How often each number was answered. A test that never meets one of its numbers shows little. */
static size_t met[32];

static void forget(void)
{
	memset(met, 0, sizeof met);
}

static void check_met(unsigned from, unsigned to)
{
	for (unsigned n = from; n <= to; n++)
		CHECK(light || met[n] > 20);
}

/* Walks a file and steps to some places of it, as the model does. */
static void check_reader(const uint8_t *file, size_t len)
{
	slp_walked w = guarded_walk(file, len);
	met[w.refused]++;
	CHECK(same_walked(w, model_walk(file, len)));
	for (int i = 0; i < 4; i++) {
		size_t place = below(3) ? below(len + 20) : odd_number(len);
		CHECK(same_step(guarded_step(file, len, place), model_step(file, len, place)));
	}
}

/* A length that was never filled in. */
static void zero_length(uint8_t *file)
{
	memset(file + 11, 0, 4);
}

/* Random bytes, with more and more of a file's head before them. */
static void random_files(void)
{
	static const uint8_t head[17] = { 0x7b, 0x55, 0x03, 0x72, 0x61, 0x77, 0x5b, 0x24, 0x55, 0x23, 0x6c, 0, 0, 0, 0, 0x35, 4 };
	static const size_t heads[4] = { 0, 11, 16, 17 };
	uint8_t file[300];
	forget();
	for (size_t n = rounds(300000, 4000); n; n--) {
		size_t len = below(sizeof file + 1), kept_head = heads[below(4)];
		draw_bytes(file, sizeof file);
		memcpy(file, head, kept_head);
		if (kept_head > 11 || below(2)) {
			memset(file + 11, 0, 2);
			file[13] = (uint8_t)below(2);
		}
		if (below(4) == 0)
			zero_length(file);
		if (kept_head == 16)
			file[16] = (uint8_t)(3 * below(30) + 1);
		check_reader(file, len);
	}
	check_met(14, 16);
}

/* A table of small sizes and events of its codes: long walks over files that no game has. */
static void random_tables(void)
{
	uint8_t file[900] = { 0x7b, 0x55, 0x03, 0x72, 0x61, 0x77, 0x5b, 0x24, 0x55, 0x23, 0x6c };
	forget();
	for (size_t n = rounds(30000, 400); n; n--) {
		size_t entries = below(85), first = below(256), declared = below(4) ? below(sizeof file) : below(2);
		draw_bytes(file + 15, sizeof file - 15);
		file[13] = (uint8_t)(declared >> 8);
		file[14] = (uint8_t)declared;
		file[15] = 0x35;
		file[16] = (uint8_t)(3 * entries + 1);
		for (size_t e = 0; e < entries; e++) {
			file[17 + 3 * e] = (uint8_t)(first + 3 * e);
			file[18 + 3 * e] = 0;
			file[19 + 3 * e] = (uint8_t)below(9);
		}
		for (size_t i = 17 + 3 * entries; entries && i < sizeof file; i++)
			if (below(200))
				file[i] = (uint8_t)(first + 3 * below(entries));
		check_reader(file, below(sizeof file + 1));
	}
	check_met(0, 0);
	check_met(14, 17);
}

/* A game's file, by the library and equal to the model's. */
static model_file checked_file(const input *in)
{
	model_file f = model_write(in);
	uint8_t *to = take(f.len + 7);
	memset(to, 0xee, f.len + 7);
	slp_written w = guarded_write(in, to, f.len + 7);
	CHECK_EQ(w.refused, 0);
	CHECK_EQ(w.len, f.len);
	CHECK(memcmp(to, f.bytes, f.len) == 0);
	free(to);
	return f;
}

static model_file random_file(size_t most_frames)
{
	plan p = random_plan(most_frames);
	made m = make_game(&p);
	model_file f = checked_file(&m.in);
	unmake(&m);
	return f;
}

static void games(void)
{
	for (size_t n = rounds(6000, 50); n; n--) {
		model_file f = random_file(40);
		slp_walked w = guarded_walk(f.bytes, f.len);
		CHECK_EQ(w.refused, 0);
		CHECK_EQ(w.whole, 1);
		CHECK_EQ(w.stray, 0);
		CHECK_EQ(w.events, f.events);
		CHECK_EQ(w.place, f.data_end);
		model_free(&f);
	}
}

/* An output that is exactly long enough is accepted, one byte less is refused. */
static void rooms(void)
{
	for (size_t n = rounds(1500, 20); n; n--) {
		plan p = random_plan(10);
		made m = make_game(&p);
		model_file f = model_write(&m.in);
		memset(out, 0xee, sizeof out);
		CHECK_EQ(guarded_write(&m.in, out, f.len - 1).refused, 12);
		CHECK_EQ(guarded_write(&m.in, out, below(f.len)).refused, 12);
		CHECK_EQ(out[0], 0xee);
		CHECK_EQ(guarded_write(&m.in, out, f.len).len, f.len);
		CHECK(memcmp(out, f.bytes, f.len) == 0);
		model_free(&f);
		unmake(&m);
	}
}

static void flipped(void)
{
	for (size_t n = rounds(1000, 10); n; n--) {
		model_file f = random_file(6);
		for (int k = 0; k < 40; k++) {
			size_t at = below(4) ? below(60) : below(f.len);
			uint8_t was = f.bytes[at];
			f.bytes[at] = (uint8_t)draw();
			check_reader(f.bytes, below(3) ? f.len : below(f.len + 1));
			if (k == 20 && below(2))
				zero_length(f.bytes);
			if (below(2))
				f.bytes[at] = was;
		}
		model_free(&f);
	}
}

/* What a cut of a game's file should give, told by where its events end. */
static slp_walked check_cut(const model_file *f, size_t cut)
{
	slp_walked w = guarded_walk(f->bytes, cut);
	size_t first = 16 + (size_t)f->bytes[16], stop = cut < f->data_end ? cut : f->data_end, events = 0;
	if (cut > 16)
		CHECK_EQ(slp_first_place(f->bytes, cut), first);
	if (cut < first) {
		CHECK_EQ(w.refused, cut < 15 ? 14 : 15);
		CHECK_EQ(w.offset, cut < 15 ? 0 : 15);
		return w;
	}
	while (events < f->events && f->ends[events] <= stop)
		events++;
	CHECK_EQ(w.refused, 0);
	CHECK_EQ(w.events, events);
	CHECK_EQ(w.place, events ? f->ends[events - 1] : first);
	CHECK_EQ(w.stray, stop - w.place);
	CHECK_EQ(w.whole, cut >= f->data_end);
	CHECK(same_walked(w, model_walk(f->bytes, cut)));
	return w;
}

/* The same cut with a length that was never filled in: to the end of the event data the events and stray bytes of `w`, always cut; after
 * that the tail's first byte is judged as an event, which no table lists. */
static void check_unfilled_cut(model_file *f, size_t cut, slp_walked w)
{
	uint8_t length[4];
	memcpy(length, f->bytes + 11, 4);
	zero_length(f->bytes);
	if (cut > f->data_end)
		w = (slp_walked){ .refused = 16, .offset = f->data_end };
	w.whole = 0;
	CHECK(same_walked(guarded_walk(f->bytes, cut), w));
	CHECK(same_walked(w, model_walk(f->bytes, cut)));
	for (int i = 0; i < 2; i++) {
		size_t place = i ? cut : below(cut + 20);
		CHECK(same_step(guarded_step(f->bytes, cut, place), model_step(f->bytes, cut, place)));
	}
	memcpy(f->bytes + 11, length, 4);
}

static void every_cut(void)
{
	static const slp_version versions[] = { { 0, 1, 0 }, { 1, 4, 0 }, { 2, 2, 0 }, { 3, 0, 0 }, { 3, 7, 0 }, { 3, 12, 0 }, { 3, 18, 0 } };
	for (size_t i = light ? 6 : 0; i < sizeof versions / sizeof *versions; i++) {
		plan p = rich_plan();
		p.version = versions[i];
		p.frames = light ? 1 : 9;
		p.codes = !light;
		made m = make_game(&p);
		model_file f = checked_file(&m.in);
		for (size_t cut = 0; cut <= f.len; cut++)
			check_unfilled_cut(&f, cut, check_cut(&f, cut));
		model_free(&f);
		unmake(&m);
	}
}

/* Every place of a file, and some beyond. */
static void every_step(void)
{
	plan p = rich_plan();
	p.frames = light ? 1 : 9;
	p.codes = !light;
	made m = make_game(&p);
	model_file f = checked_file(&m.in);
	for (size_t place = 0; place < f.len + 20; place++) {
		size_t cut = below(2) ? f.len : below(f.len + 1);
		CHECK(same_step(guarded_step(f.bytes, cut, place), model_step(f.bytes, cut, place)));
	}
	for (int k = 0; k < 64; k++)
		CHECK(same_step(guarded_step(f.bytes, f.len, SIZE_MAX >> k), model_step(f.bytes, f.len, SIZE_MAX >> k)));
	model_free(&f);
	unmake(&m);
}

static uint32_t random_id(size_t spread)
{
	static const uint32_t odd[] = { (uint32_t)-124, (uint32_t)-123, 1048453, 0x7fffffff, 0x80000000, 0xffffffff };
	return below(400) ? (uint32_t)(below(spread) - 123) : odd[below(sizeof odd / sizeof *odd)];
}

static void masks(void)
{
	static uint32_t ids[200];
	static uint8_t mask[220], scratch[2100], want_mask[220], want_scratch[1100000];
	forget();
	for (size_t n = rounds(40000, 400); n; n--) {
		size_t count = below(201), spread = 1 + below(below(20) ? 250 : 2000), needed, mask_len = below(20) ? 220 : below(220);
		size_t scratch_len = below(8) ? 2100 : below(2100);
		for (size_t i = 0; i < count; i++)
			ids[i] = random_id(spread);
		uint8_t keep = (uint8_t)(below(4) ? below(2) : draw());
		draw_bytes(mask, sizeof mask);
		draw_bytes(scratch, 64);
		unsigned want = model_rollbacks(ids, count, keep, mask_len, scratch_len, want_mask, want_scratch, &needed);
		CHECK_EQ(guarded_rollbacks(ids, count, keep, mask, mask_len, scratch, scratch_len), want);
		met[want]++;
		if (want)
			continue;
		CHECK(memcmp(mask, want_mask, count) == 0);
		CHECK(memcmp(scratch, want_scratch, needed) == 0);
	}
	check_met(0, 0);
	check_met(12, 13);
}

/* What the model answers to a game of which anything may be wrong, with this much room. */
static void check_any(const input *in, size_t room)
{
	unsigned want = model_refusal(in);
	model_file f = { 0 };
	if (!want) {
		f = model_write(in);
		want = f.len > room ? 12 : 0;
	}
	memset(out, 0xee, room);
	slp_written w = guarded_write(in, out, room);
	CHECK_EQ(w.refused, want);
	met[want]++;
	if (!want) {
		CHECK_EQ(w.len, f.len);
		CHECK(memcmp(out, f.bytes, f.len) == 0);
		CHECK(same_walked(guarded_walk(out, w.len), (slp_walked){ .whole = 1, .events = f.events, .place = f.data_end }));
	}
	model_free(&f);
}

static void damaged_games(void)
{
	forget();
	for (size_t n = rounds(30000, 200); n; n--) {
		plan p = random_plan(12);
		made m = make_game(&p);
		for (size_t k = 1 + below(3); k; k--)
			damage(&m);
		check_any(&m.in, below(8) ? ROOM : below(2000));
		unmake(&m);
	}
	check_met(0, 12);
}

int main(int argc, char **argv)
{
	begin("fuzz", argc, argv);
	test("random files", random_files);
	test("random tables", random_tables);
	test("games", games);
	test("rooms", rooms);
	test("flipped bytes", flipped);
	test("every cut", every_cut);
	test("every step", every_step);
	test("masks", masks);
	test("damaged games", damaged_games);
	return finish();
}
