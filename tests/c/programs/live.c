/* A live recording: its head, its frames in runs that are lent as small games of their own, its end and its length. */
#include <stdlib.h>
#include <string.h>

#include "check.h"
#include "damage.h"
#include "model.h"
#include "part.h"

enum { ROOM = 1 << 17 };

static size_t met[32];

static uint8_t *fresh(size_t room)
{
	uint8_t *out = take(room + 1);
	draw_bytes(out, room + 1);
	return out;
}

/* ---- a call against the model: its answer and every byte of the output */

/* Checks that the output has these bytes at the place, or is as it was. */
static void check_output(const uint8_t *out, const uint8_t *before, size_t room, unsigned number, size_t place, const model_file *f)
{
	if (number) {
		CHECK(room == 0 || memcmp(out, before, room) == 0);
		return;
	}
	CHECK(place == 0 || memcmp(out, before, place) == 0);
	CHECK(memcmp(out + place, f->bytes, f->len) == 0);
	CHECK(memcmp(out + place + f->len, before + place + f->len, room - place - f->len) == 0);
}

static slp_appended check_head(const input *in, uint8_t *out, size_t room)
{
	unsigned number = model_head_refusal(in, room);
	model_file f = { 0 };
	uint8_t *before = take(room + 1);
	if (number == 0)
		f = model_head(in);
	memcpy(before, out, room);
	slp_appended r = guarded_head(in, out, room);
	CHECK_EQ(r.refused, number);
	CHECK_EQ(r.end, f.len);
	check_output(out, before, room, number, 0, &f);
	model_free(&f), free(before);
	met[number]++;
	return r;
}

static slp_closed check_end(const input *in, uint8_t *out, size_t room, size_t place)
{
	unsigned number = model_end_refusal(in, room, place);
	model_file f = { 0 };
	uint8_t *before = take(room + 1);
	if (number == 0)
		f = model_end(in);
	memcpy(before, out, room);
	slp_closed r = guarded_end(in, out, room, place);
	CHECK_EQ(r.refused, number);
	CHECK_EQ(r.events, number ? 0 : place + f.data_end);
	CHECK_EQ(r.end, number ? 0 : place + f.len);
	check_output(out, before, room, number, place, &f);
	model_free(&f), free(before);
	met[number]++;
	return r;
}

/* ---- whole recordings */

typedef struct {
	uint8_t *bytes;
	size_t len;
} disk;

static void put(disk *d, const uint8_t *bytes, size_t n)
{
	memcpy(d->bytes + d->len, bytes, n);
	d->len += n;
}

/* Put there so far and cut anywhere behind the bytes `from`: read as the same cut of the file, but never whole. */
static void check_died(const disk *d, size_t from, const uint8_t *file)
{
	size_t cut = from + below(d->len - from + 1);
	slp_walked x = guarded_walk(d->bytes, cut), y = slp_walk(file, cut);
	y.whole = 0;
	CHECK(same_walked(x, y));
}

static void record_head(const input *in, disk *d)
{
	model_file f = model_head(in);
	uint8_t *out = fresh(f.len + 9);
	CHECK_EQ(check_head(in, out, f.len - 1).refused, 12);
	check_head(in, out, f.len);
	slp_appended r = check_head(in, out, f.len + below(9));
	put(d, out, r.end);
	free(out);
	model_free(&f);
}

static void record_runs(const input *in, disk *d, const uint8_t *file)
{
	size_t frames = in->game.frames.counts.frames;
	for (size_t a = 0, b; a < frames; a = b) {
		b = a + 1 + below(below(3) ? 4 : frames);
		b = b < frames ? b : frames;
		part p = cut_part(in, a, b, 2);
		model_file f = model_run(in, a, b);
		size_t place = below(9), from = d->len;
		uint8_t *out = fresh(place + f.len);
		slp_appended r = guarded_run(&p.in, out, place + f.len, place, 0, b - a);
		if (CHECK_EQ(r.refused, 0))
			put(d, out + place, r.end - place);
		check_died(d, from, file);
		free(out);
		model_free(&f);
		drop_part(&p);
	}
}

/* At a place of an output of its own, which it just fits; then with a byte less, and at places beyond. */
static slp_closed record_end(const input *in, disk *d)
{
	model_file f = model_end(in);
	size_t place = below(20), room = place + f.len;
	uint8_t *out = fresh(room + 9);
	CHECK_EQ(check_end(in, out, room - 1, place).refused, 12);
	CHECK_EQ(check_end(in, out, place, place + 1).refused, 12);
	check_end(in, out, room + below(9), place);
	slp_closed r = check_end(in, out, room, place);
	put(d, out + place, r.end - place);
	r.events -= place, r.end -= place;
	free(out);
	model_free(&f);
	return r;
}

/* The recording is the file of slp_write, byte for byte. */
static void check_recording(const input *in)
{
	model_file f = model_write(in);
	uint8_t *file = take(f.len);
	disk d = { take(2 * f.len), 0 };
	CHECK_EQ(guarded_write(in, file, f.len).len, f.len);
	record_head(in, &d);
	record_runs(in, &d, file);
	size_t events = d.len;
	slp_closed c = record_end(in, &d);
	CHECK(events + c.events == f.data_end && d.len == f.len);
	CHECK(d.len == f.len && memcmp(d.bytes + 15, file + 15, f.len - 15) == 0);
	d.len = events + c.events;
	check_died(&d, events, file);
	slp_field field = slp_length_field(d.len - 15);
	CHECK_EQ(field.refused, 0);
	memcpy(d.bytes + 11, field.bytes, 4);
	CHECK(memcmp(d.bytes, file, f.len) == 0);
	free(file), free(d.bytes);
	model_free(&f);
}

static void recordings(void)
{
	for (size_t n = rounds(2000, 20); n; n--) {
		plan p = random_plan(below(4) ? 12 : 60);
		made m = make_game(&p);
		check_recording(&m.in);
		unmake(&m);
	}
	plan p = rich_plan();
	made m = make_game(&p);
	check_recording(&m.in);
	unmake(&m);
}

/* ---- refusals */

/* More codes and metadata than there may be. */
static uint8_t many[SLP_MAX_CODES + 1];

static void fault(made *m, unsigned number, size_t *room)
{
	switch (number) {
	case 1: m->in.game.frames.version.patch = 1; break;
	case 8: m->in.block.len = 759; break;
	case 9: m->in.game.start.seats[2].kind = 3; break;
	case 10: m->in.game.actual_size ^= 1024; break;
	case 11: m->in.game.end.initiator = 4; break;
	case 12: *room = 3; break;
	default: break;
	}
}

/* The faults of a set, bit k for the k-th of these numbers; the lowest of them, or 0. */
static unsigned fault_set(made *m, unsigned set, const unsigned *numbers, size_t n, size_t *room)
{
	unsigned lowest = 0;
	plan p = rich_plan();
	*m = make_game(&p);
	*room = ROOM;
	while (n--)
		if (set >> n & 1)
			fault(m, lowest = numbers[n], room);
	return lowest;
}

/* Of every set of faults of the head, and of the end, the lowest number is given. */
static void every_set(void)
{
	static const unsigned head[6] = { 1, 2, 8, 9, 10, 12 }, end[4] = { 1, 2, 11, 12 };
	uint8_t *out = fresh(ROOM);
	made m;
	size_t room;
	for (unsigned set = 0; set < 64; set++) {
		/* so many codes take long to lend */
		if (light && (set & 2) && set != 2)
			continue;
		unsigned lowest = fault_set(&m, set, head, 6, &room);
		if (set & 2)
			m.in.codes = (slp_bytes){ many, sizeof many };
		CHECK_EQ(check_head(&m.in, out, room).refused, lowest);
		unmake(&m);
	}
	for (unsigned set = 0; set < 16; set++) {
		unsigned lowest = fault_set(&m, set, end, 4, &room);
		if (set & 2)
			m.in.metadata = (slp_bytes){ many, SLP_MAX_METADATA + 1 };
		CHECK_EQ(check_end(&m.in, out, room, 4).refused, lowest);
		unmake(&m);
	}
	free(out);
}

/* The largest head and end that there are. */
static void largest(void)
{
	plan p = rich_plan();
	made m = make_game(&p);
	size_t room = SLP_MAX_CODES / 512 * 517 + ROOM;
	uint8_t *out = fresh(room);
	m.in.codes = (slp_bytes){ many, SLP_MAX_CODES };
	m.in.game.actual_size = SLP_MAX_CODES;
	m.in.metadata = (slp_bytes){ many, SLP_MAX_METADATA };
	CHECK_EQ(check_head(&m.in, out, room).refused, 0);
	CHECK_EQ(check_end(&m.in, out, ROOM, 0).refused, 0);
	free(out);
	unmake(&m);
}

/* The lowest number of head, frames and end is the writer's; each is the model's. */
static void damaged(void)
{
	static uint8_t out[ROOM];
	memset(met, 0, sizeof met);
	for (size_t n = rounds(6000, 50); n; n--) {
		plan p = random_plan(9);
		made m = make_game(&p);
		for (size_t k = below(3); k; k--)
			damage(&m);
		size_t frames = m.in.game.frames.counts.frames, room = below(4) ? ROOM : below(900), place = below(5) ? below(600) : odd_number(room);
		check_head(&m.in, out, room);
		check_end(&m.in, out, room, place);
		unsigned numbers[3] = { check_head(&m.in, out, ROOM).refused, guarded_run(&m.in, out, ROOM, 0, 0, frames).refused,
		                        check_end(&m.in, out, ROOM, 0).refused }, lowest = 0;
		for (size_t k = 0; k < 3; k++)
			if (numbers[k] && (lowest == 0 || numbers[k] < lowest))
				lowest = numbers[k];
		CHECK_EQ(slp_write_game(out, ROOM, &m.in.game, &m.in.stores, m.in.block, m.in.codes, m.in.metadata).refused, lowest);
		unmake(&m);
	}
	for (unsigned n = 0; n <= 12; n++)
		CHECK(light || (n >= 2 && n <= 7) || met[n] > 20);
}

/* Places at every byte of a small output, beyond it, and far away. */
static void places(void)
{
	plan p = { .version = { 3, 18, 0 }, .end = 1 };
	made m = make_game(&p);
	uint8_t out[20];
	draw_bytes(out, sizeof out);
	for (size_t room = 0; room <= sizeof out; room++) {
		for (size_t place = 0; place <= room + 2; place++)
			CHECK_EQ(check_end(&m.in, out, room, place).refused, place + 8 <= room ? 0 : 12);
		for (size_t i = 0; i < FAR_NUMBERS; i++)
			check_end(&m.in, out, room, room + far_numbers[i] < room ? SIZE_MAX : room + far_numbers[i]);
	}
	CHECK_EQ(check_end(&m.in, out, 0, SIZE_MAX).refused, 12);
	unmake(&m);
}

/* Nothing but its own part matters to a head or an end. */
static void only_their_parts(void)
{
	plan p = rich_plan();
	made m = make_game(&p);
	uint8_t *out = fresh(ROOM);
	slp_game good = m.in.game;
	m.in.game.frames.port_count = 9;
	m.in.stores.ids.len--;
	m.in.game.end.initiator = 77;
	m.in.metadata = (slp_bytes){ many, SLP_MAX_METADATA + 1 };
	CHECK_EQ(check_head(&m.in, out, ROOM).refused, 0);
	m.in.metadata.len = 5;
	m.in.game.end = good.end;
	m.in.game.start.seats[0].kind = 9;
	m.in.game.actual_size ^= 1024;
	m.in.block.len = 0;
	CHECK_EQ(check_end(&m.in, out, ROOM, 7).refused, 0);
	free(out);
	unmake(&m);
}

/* ---- length fields */

static void check_field(uint64_t n)
{
	slp_field f = slp_length_field(n);
	uint64_t most = UINT32_MAX, should = n > most ? 0 : n, is = 0;
	for (int i = 0; i < 4; i++)
		is = is << 8 | f.bytes[i];
	CHECK_EQ(f.refused, n > most ? 2 : 0);
	CHECK_EQ(is, should);
}

static void fields(void)
{
	for (int bit = 0; bit < 64; bit++)
		for (uint64_t n = ((uint64_t)1 << bit) - 2, k = 0; k < 5; k++)
			check_field(n + k);
	for (size_t n = 2000; n; n--)
		check_field(draw() >> below(64));
}

int main(int argc, char **argv)
{
	begin("live", argc, argv);
	test("recordings", recordings);
	test("every set of faults", every_set);
	if (!light)
		test("largest", largest);
	test("damaged games", damaged);
	test("places", places);
	test("only their parts", only_their_parts);
	test("length fields", fields);
	return finish();
}
