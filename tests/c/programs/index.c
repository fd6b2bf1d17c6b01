/* The index of a replay: worked ones, every refusal with its limits, sets of faults, every cut, generated games, damaged files, damaged indexes. */
#include "index.h"

#include <stdlib.h>
#include <string.h>

#include "check.h"
#include "made.h"
#include "model.h"
#include "pieces.h"

enum { START = 0x36, FRAME = 0x3a };

/* How often each number was answered. */
static size_t met[32];

/* ---- the calls, over lent copies */

/* Into an output of so many bytes: the index of `own` and what stood behind it, or all as it was. */
static void check_write(const uint8_t *file, size_t len, const model_index *own, size_t room)
{
	uint8_t *stood = take(room);
	draw_bytes(stood, room);
	loan f = lend(file, len, 1), out = lend(stood, room, 1);
	slp_index_written w = slp_write_index(f.data, len, out.data, room);
	unsigned refused = own->refused ? own->refused : room < own->len ? SLP_SHORT_OUTPUT : 0;
	CHECK_EQ(w.refused, refused);
	CHECK_EQ(w.offset, own->offset);
	CHECK_EQ(w.len, own->refused ? 0 : own->len);
	CHECK(kept(&f, 0));
	CHECK(kept(&out, refused ? 0 : own->len));
	CHECK(refused || memcmp(out.data, own->bytes, own->len) == 0);
	met[w.refused]++;
	give_back(&f);
	give_back(&out);
	free(stood);
}

static void check_accepts(const uint8_t *file, size_t len, const model_index *own, const uint8_t *index, size_t index_len)
{
	loan f = lend(file, len, 1), i = lend(index, index_len, 1);
	slp_index_accepted a = slp_accepts_index(f.data, len, i.data, index_len);
	CHECK_EQ(a.refused, model_accepts(own, index, index_len));
	CHECK_EQ(a.offset, own->offset);
	CHECK(kept(&f, 0) && kept(&i, 0));
	met[a.refused]++;
	give_back(&f);
	give_back(&i);
}

static void check_find(const uint8_t *index, size_t len, int32_t id)
{
	loan i = lend(index, len, 1);
	slp_moment m = slp_find_frame(i.data, len, id), should = model_find(index, len, id);
	CHECK(m.refused == should.refused && m.row == should.row && m.offset == should.offset && m.id == should.id);
	CHECK(kept(&i, 0));
	met[m.refused]++;
	give_back(&i);
}

/* A file: its index measured, too short by a byte and by any, exact, and with room to spare; its own index and an empty one accepted or not. */
static model_index check_file(const uint8_t *file, size_t len)
{
	model_index own = model_index_of(file, len);
	check_write(file, len, &own, 0);
	check_write(file, len, &own, own.len + below(20));
	if (!own.refused) {
		check_write(file, len, &own, own.len);
		check_write(file, len, &own, own.len - 1);
		check_write(file, len, &own, below(own.len));
	}
	check_accepts(file, len, &own, own.bytes, own.refused ? 0 : own.len);
	check_accepts(file, len, &own, (const uint8_t *)"SPX\0\1\0\0\0\0", 9);
	return own;
}

/* ---- worked files */

/* A game of 3.18 and its pieces: frames of these ids. */
static void frames_of(pieces *p, const int32_t *ids, size_t n)
{
	plan q = one_frame_plan();
	q.frames = n;
	made m = make_game(&q);
	for (size_t i = 0; i < n; i++)
		m.cells[0][i] = (uint32_t)ids[i];
	model_file f = model_write(&m.in);
	take_apart(p, f.bytes, f.len);
	model_free(&f);
	unmake(&m);
}

static pieces p;

/* Case 6: one frame of id 0 at 808. */
static void worked(void)
{
	static const uint8_t six[17] = { 'S', 'P', 'X', 0, 1, 0, 0, 0, 1, 0, 0, 0, 0, 0, 0, 3, 40 };
	size_t len;
	frames_of(&p, (const int32_t[]){ 0 }, 1);
	uint8_t *file = put_together(&p, &len), out[17];
	slp_index_written w = slp_write_index(file, len, out, sizeof out);
	CHECK_EQ(len, 990);
	CHECK(w.refused == 0 && w.offset == 0 && w.len == 17 && memcmp(out, six, 17) == 0);
	CHECK_EQ(slp_accepts_index(file, len, six, 17).refused, 0);
	slp_moment m = slp_find_frame(six, 17, 0);
	CHECK(m.refused == 0 && m.row == 0 && m.offset == 808 && m.id == 0);
	free(file);
	/* -123, -122, -122, -121: the later frame of the id that is there twice; a frame has 174 bytes */
	frames_of(&p, (const int32_t[]){ -123, -122, -122, -121 }, 4);
	file = put_together(&p, &len);
	uint8_t four[41];
	CHECK_EQ(slp_write_index(file, len, four, sizeof four).len, 41);
	m = slp_find_frame(four, 41, -122);
	CHECK(m.refused == 0 && m.row == 2 && m.offset == 808 + 2 * 174 && m.id == -122);
	CHECK_EQ(file[m.offset], FRAME);
	m = slp_find_frame(four, 41, -120);
	CHECK(m.refused == SLP_NO_SUCH_ID && m.row == 0 && m.offset == 0 && m.id == 0);
	m = slp_find_frame(four, 40, -122);
	CHECK(m.refused == SLP_BAD_INDEX && m.row == 0 && m.offset == 0 && m.id == 0);
	free(file);
}

/* ---- refusals */

/* Of the pieces as they are now. */
static void check_pieces(unsigned refused)
{
	size_t len;
	uint8_t *file = put_together(&p, &len);
	model_index own = check_file(file, len);
	CHECK_EQ(own.refused, refused);
	CHECK_EQ(slp_write_index(file, len, NULL, 0).refused, refused ? refused : SLP_SHORT_OUTPUT);
	free(own.bytes);
	free(file);
}

static void versions(void)
{
	static const struct {
		uint8_t major, minor, patch;
		unsigned refused;
	} said[] = { { 0, 0, 0, 24 }, { 1, 255, 255, 24 }, { 2, 1, 255, 24 }, { 2, 2, 0, 0 }, { 2, 255, 0, 0 }, { 3, 0, 0, 0 }, { 3, 18, 1, 0 }, { 3, 255, 0, 0 },
	             { 4, 0, 0, 0 }, { 255, 0, 0, 0 } };
	for (size_t i = 0; i < sizeof said / sizeof *said; i++) {
		frames_of(&p, (const int32_t[]){ -123, 5 }, 2);
		memcpy(p.events[0].bytes, (const uint8_t[]){ said[i].major, said[i].minor, said[i].patch }, 3);
		check_pieces(said[i].refused);
	}
}

/* What the first event must be, and what a FrameStart must have. */
static void first_events(void)
{
	static const int32_t ids[] = { 7, 8 };
	frames_of(&p, ids, 2);
	resize(&p, START, 4);
	check_pieces(0);
	resize(&p, START, 3);
	check_pieces(24);
	frames_of(&p, ids, 2);
	drop_piece(&p, 0);
	check_pieces(24);
	p.n = 0;
	check_pieces(24);
	frames_of(&p, ids, 2);
	move_piece(&p, 0, 1);
	check_pieces(24);
	frames_of(&p, ids, 2);
	resize(&p, FRAME, 4);
	check_pieces(0);
	resize(&p, FRAME, 3);
	check_pieces(24);
	resize(&p, FRAME, 0);
	check_pieces(24);
	/* one that is listed, but never comes */
	frames_of(&p, NULL, 0);
	resize(&p, FRAME, 3);
	check_pieces(0);
}

/* So many frames of five bytes, ids 0 and so on; a GameStart of four bytes. */
static uint8_t *many(size_t frames, size_t *len)
{
	static const uint8_t head[28] = { 0x7b, 0x55, 0x03, 0x72, 0x61, 0x77, 0x5b, 0x24, 0x55, 0x23, 0x6c, 0, 0, 0, 0, 0x35, 7, START, 0, 4, FRAME, 0, 4, START, 3, 18 };
	*len = sizeof head + 5 * frames;
	uint8_t *file = take(*len);
	memcpy(file, head, sizeof head);
	for (size_t i = 0; i < frames; i++)
		memcpy(file + sizeof head + 5 * i, (const uint8_t[]){ FRAME, (uint8_t)(i >> 24), (uint8_t)(i >> 16), (uint8_t)(i >> 8), (uint8_t)i }, 5);
	size_t data = *len - 15;
	memcpy(file + 11, (const uint8_t[]){ (uint8_t)(data >> 24), (uint8_t)(data >> 16), (uint8_t)(data >> 8), (uint8_t)data }, 4);
	return file;
}

/* 1,048,576 frames have an index, one more is refused 2 before 12. */
static void most_frames(void)
{
	for (size_t over = 0; over < 2; over++) {
		size_t len, room = SLP_INDEX_LEN(SLP_MAX_FRAMES + over);
		uint8_t *file = many(SLP_MAX_FRAMES + over, &len);
		model_index own = model_index_of(file, len);
		CHECK_EQ(own.refused, over ? 2 : 0);
		check_write(file, len, &own, room);
		check_write(file, len, &own, 0);
		if (!over) {
			check_accepts(file, len, &own, own.bytes, own.len);
			check_find(own.bytes, own.len, 0);
			check_find(own.bytes, own.len, 1048575);
			check_find(own.bytes, own.len, 1048576);
		} else {
			check_accepts(file, len, &own, file, len);
		}
		free(own.bytes);
		free(file);
	}
}

/* Every set of faults: the walk's 14 to 17 one at a time, 24, 2, then 12, or 25 and 26. The first of the order is given. */
static void sets(void)
{
	static const unsigned walks[] = { 0, 14, 15, 16, 17 };
	for (size_t many_frames = 0; many_frames < 2; many_frames++) {
		size_t frames = many_frames ? SLP_MAX_FRAMES + 1 : 3, len, room = SLP_INDEX_LEN(frames);
		uint8_t *file = many(frames, &len), *index = take(room), *out = take(room);
		memset(index, 0, room);
		for (unsigned walk = 0; walk < 5; walk++)
			for (unsigned set = 0; set < 16; set++) {
				uint8_t *f = take(len);
				memcpy(f, file, len);
				f[0] ^= walks[walk] == 14;
				f[16] = walks[walk] == 15 ? 6 : f[16];
				f[len - 5] = walks[walk] == 16 ? 1 : f[len - 5];
				f[14] = (uint8_t)(f[14] - (walks[walk] == 17 ? 1 : 0));
				f[24] = set & 1 ? 2 : 3;
				f[25] = set & 1 ? 1 : 18;
				unsigned early = walks[walk] ? walks[walk] : set & 1 ? 24 : many_frames ? 2 : 0;
				memset(out, 0xee, room);
				slp_index_written w = slp_write_index(f, len, out, set & 2 ? room - 1 : room);
				CHECK_EQ(w.refused, early ? early : set & 2 ? 12 : 0);
				CHECK(w.refused == 0 || (out[0] == 0xee && memcmp(out, out + 1, room - 1) == 0));
				if (early == 0 && !(set & 2))
					memcpy(index, out, room);
				index[0] = set & 4 ? 'T' : 'S';
				index[room - 1] ^= set & 8 ? 1 : 0;
				CHECK_EQ(slp_accepts_index(f, len, index, room).refused, early ? early : set & 4 ? 25 : set & 8 ? 26 : 0);
				index[room - 1] ^= set & 8 ? 1 : 0;
				free(f);
				if (light && many_frames && set > 3)
					break;
			}
		free(file);
		free(index);
		free(out);
	}
}

/* ---- cuts and games */

static const slp_version VERSIONS[] = { { 2, 1, 0 }, { 2, 2, 0 }, { 3, 0, 0 }, { 3, 3, 0 }, { 3, 18, 0 } };
enum { VERSIONS_LEN = sizeof VERSIONS / sizeof *VERSIONS };

static model_file small_file(size_t k)
{
	const plan q = { .version = VERSIONS[k], .frames = 3, .items = 1, .fods = 1, .whispys = 1, .stadiums = 1, .ports = 2, .followers = 1, .presence = 1,
	                 .seats = 2, .codes = 1, .actual_size = 3, .metadata = 1, .metadata_len = 5, .end = 1 };
	made m = make_game(&q);
	model_file f = model_write(&m.in);
	unmake(&m);
	return f;
}

/* How many FrameStarts end within a cut, by where the writing model ended its events. */
static size_t frames_within(const model_file *f, size_t cut)
{
	size_t n = 0;
	for (size_t k = 1; k < f->events; k++)
		n += f->bytes[f->ends[k - 1]] == FRAME && f->ends[k] <= cut;
	return n;
}

/* Every cut, with the true length and with none: as the model has it, and the first rows of the whole file's index, as many as have their FrameStart. */
static void every_cut(void)
{
	for (size_t k = 0; k < VERSIONS_LEN; k += light ? 2 : 1)
		for (int unfilled = 0; unfilled < 2; unfilled++) {
			model_file f = small_file(k);
			model_index whole = model_index_of(f.bytes, f.len);
			if (unfilled)
				memset(f.bytes + 11, 0, 4);
			for (size_t cut = 0; cut <= f.len; cut += light ? 7 : 1) {
				model_index own = check_file(f.bytes, cut);
				CHECK_EQ(own.refused, cut < 15 ? 14 : cut < 16 + (size_t)f.bytes[16] ? 15 : unfilled && cut > f.data_end ? 16 : k == 0 || cut < f.ends[0] ? 24 : 0);
				if (!own.refused) {
					CHECK_EQ(own.frames, frames_within(&f, cut));
					CHECK(memcmp(own.bytes + 9, whole.bytes + 9, 8 * own.frames) == 0);
				}
				free(own.bytes);
			}
			free(whole.bytes);
			model_free(&f);
		}
}

/* The rows of a game: the ids that were written, and the places where the library's own steps find FrameStarts. */
static void check_rows(const input *in, const model_file *f, const uint8_t *index)
{
	size_t row = 0;
	slp_step s = { .next = slp_first_place(f->bytes, f->len) };
	while ((s = slp_step_at(f->bytes, f->len, s.next)).kind == SLP_STEP_EVENT) {
		if (s.code != FRAME)
			continue;
		const uint8_t *at = index + 9 + 8 * row;
		CHECK_EQ((uint32_t)at[0] << 24 | (uint32_t)at[1] << 16 | (uint32_t)at[2] << 8 | at[3], in->stores.ids.p[row]);
		CHECK_EQ((uint32_t)at[4] << 24 | (uint32_t)at[5] << 16 | (uint32_t)at[6] << 8 | at[7], s.at);
		row++;
	}
	CHECK_EQ(row, in->game.frames.counts.frames);
}

/* Each id is found at the last frame that has it. */
static void check_ids(const input *in, const uint8_t *index, size_t len)
{
	size_t frames = in->game.frames.counts.frames;
	for (size_t i = 0; i < frames; i++) {
		size_t last = i;
		for (size_t j = i; j < frames; j++)
			last = in->stores.ids.p[j] == in->stores.ids.p[i] ? j : last;
		slp_moment m = slp_find_frame(index, len, (int32_t)in->stores.ids.p[i]);
		CHECK(m.refused == 0 && m.row == last && (uint32_t)m.id == in->stores.ids.p[i]);
		check_find(index, len, (int32_t)in->stores.ids.p[i]);
	}
	for (int32_t id = -130; id < -110; id++)
		check_find(index, len, id);
}

static void games(void)
{
	for (size_t n = rounds(4000, 40); n; n--) {
		plan q = random_plan(n % 8 ? 20 : 70);
		made m = make_game(&q);
		model_file f = model_write(&m.in);
		model_index own = check_file(f.bytes, f.len);
		int old = q.version.major < 2 || (q.version.major == 2 && q.version.minor < 2);
		CHECK_EQ(own.refused, old ? 24 : 0);
		if (!own.refused) {
			CHECK_EQ(own.frames, q.frames);
			check_rows(&m.in, &f, own.bytes);
			check_ids(&m.in, own.bytes, own.len);
		}
		free(own.bytes);
		model_free(&f);
		unmake(&m);
	}
}

/* ---- damage */

static uint8_t damaged_byte(uint8_t was)
{
	static const uint8_t bytes[] = { 0x10, 0x36, 0x37, 0x38, 0x3a, 0x3c, 0x7d, 0, 1, 2, 3, 4, 255 };
	return below(2) ? (uint8_t)(was ^ 1 << below(8)) : bytes[below(sizeof bytes)];
}

/* Bytes of the head, of an event's beginning, or any. */
static size_t damaged_place(const model_file *f)
{
	size_t k = below(f->events), at = k ? f->ends[k - 1] : 16 + (size_t)f->bytes[16];
	return below(4) == 0 ? below(60) : below(3) ? (at + below(6)) % f->len : below(f->len);
}

static void damaged_files(void)
{
	memset(met, 0, sizeof met);
	for (size_t n = rounds(4000, 30); n; n--) {
		model_file f = small_file(n % VERSIONS_LEN);
		for (int k = 0; k < 10; k++) {
			size_t at = damaged_place(&f);
			uint8_t was = f.bytes[at];
			f.bytes[at] = damaged_byte(was);
			model_index own = check_file(f.bytes, below(4) ? f.len : below(f.len + 1));
			free(own.bytes);
			if (below(3))
				f.bytes[at] = was;
		}
		model_free(&f);
	}
	for (unsigned n = 14; n <= 17; n++)
		CHECK(light || met[n] > 20);
	CHECK(light || (met[0] > 20 && met[12] > 20 && met[24] > 20));
}

enum { MOST_DAMAGED = 1024 };

/* Of an index in `to` with room for more: a byte changed, cut, longer, a row fewer or more with its count, a count alone. Its new length. */
static size_t damage_index(uint8_t *to, size_t len)
{
	size_t rows = (len - 9) / 8, longer = below(20);
	switch (below(7)) {
	case 0: to[below(len)] = damaged_byte(0); return len;
	case 1: to[below(len)] ^= (uint8_t)(1 << below(8)); return len;
	case 2: return below(len);
	case 3: memset(to + len, 0, longer); return len + longer;
	case 4: to[8] = (uint8_t)(rows ? rows - 1 : 0); return rows ? len - 8 : len;
	case 5: to[8] = (uint8_t)(rows + 1); draw_bytes(to + len, 8); return len + 8;
	default: to[5 + below(4)] = (uint8_t)below(4); return len;
	}
}

/* Each with an acceptance and two lookups. */
static void damaged_indexes(void)
{
	memset(met, 0, sizeof met);
	for (size_t n = rounds(1000, 6); n; n--) {
		plan q = random_plan(20);
		q.version = VERSIONS[1 + n % (VERSIONS_LEN - 1)];
		made m = make_game(&q);
		model_file f = model_write(&m.in);
		model_index own = model_index_of(f.bytes, f.len);
		for (int k = 0; k < (light ? 60 : 1000); k++) {
			uint8_t index[MOST_DAMAGED];
			memcpy(index, own.bytes, own.len);
			size_t len = damage_index(index, own.len);
			slp_index_accepted a = slp_accepts_index(f.bytes, f.len, index, len);
			CHECK_EQ(a.refused, model_accepts(&own, index, len));
			met[a.refused]++;
			if (k % 10 == 0)
				check_accepts(f.bytes, f.len, &own, index, len);
			check_find(index, len, -123 + (int32_t)below(24));
			check_find(index, len, (int32_t)(len >= 17 ? index[12] | 0xffffff00u : 0));
		}
		free(own.bytes);
		model_free(&f);
		unmake(&m);
	}
	for (unsigned number = 25; number <= 27; number++)
		CHECK(met[number] > 20);
	CHECK(met[0] > 20);
}

int main(int argc, char **argv)
{
	begin("index", argc, argv);
	test("worked", worked);
	test("versions", versions);
	test("first events", first_events);
	test("most frames", most_frames);
	test("sets of faults", sets);
	test("every cut", every_cut);
	test("games", games);
	test("damaged files", damaged_files);
	test("damaged indexes", damaged_indexes);
	return finish();
}
