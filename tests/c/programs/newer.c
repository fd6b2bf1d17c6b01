/* Files of a newer recorder: generated games of 3.18 made newer, with longer payloads and unknown events anywhere, read back to the same columns; each limit
 * by one small file; and damaged ones are answered as by the model. `--times=10` damages a million. */
#include <stdlib.h>
#include <string.h>

#include "against.h"
#include "check.h"
#include "made.h"
#include "model.h"
#include "open.h"
#include "pieces.h"
#include "same.h"
#include "space.h"

enum { START = 0x36, PRE_CODE = 0x37, POST_CODE = 0x38, END = 0x39, FRAME = 0x3a, ITEM_CODE = 0x3b, CLOSE = 0x3c, CODES = 0x3d, BLOCK = 0x10, TABLE = 0x35,
       FOD_CODE = 0x3f, WHISPY_CODE = 0x40, STADIUM_CODE = 0x41 };

/* How often each number was answered. */
static size_t met[32];

/* ---- a game of 3.18 as a newer recorder might have it */

enum { UNLISTED = 65536, LONGEST = 65535 };

/* Codes that 3.18 does not know: the first and the last one, the one between, one that is a tail's, and others. */
static const uint8_t UNKNOWN[] = { 0x00, 0x0f, 0x11, 0x34, 0x3e, 0x42, 0x7d, 0xff };
enum { UNKNOWN_LEN = sizeof UNKNOWN };

typedef struct {
	uint8_t code;
	const uint8_t *payload;   /* as 3.18 has it */
	size_t len;               /* 0 where there is none */
} part;

/* Events, the sizes of payloads by their codes, and the tail. */
typedef struct {
	slp_version version;
	size_t sizes[256];
	uint8_t order[256];       /* the codes of the table, in their order */
	size_t entries;
	part *parts;
	size_t n, room;
	const uint8_t *tail;
	size_t tail_len;
} newer;

static void list_code(newer *w, uint8_t code, size_t size)
{
	if (w->sizes[code] == UNLISTED)
		w->order[w->entries++] = code;
	w->sizes[code] = size;
}

static void add_part(newer *w, size_t at, part e)
{
	if (w->n == w->room) {
		w->room = 2 * w->room + 64;
		w->parts = realloc(w->parts, w->room * sizeof *w->parts);
		if (!w->parts)
			abort();
	}
	memmove(&w->parts[at + 1], &w->parts[at], (w->n - at) * sizeof *w->parts);
	w->parts[at] = e;
	w->n++;
}

static void drop_part(newer *w, size_t at)
{
	w->n--;
	memmove(&w->parts[at], &w->parts[at + 1], (w->n - at) * sizeof *w->parts);
}

/* The events of a file of 3.18, which is looked at until the newer one is put together. */
static newer newer_of(const model_file *f, slp_version v)
{
	newer w = { .version = v, .tail = f->bytes + f->data_end, .tail_len = f->len - f->data_end };
	size_t first = 16 + (size_t)f->bytes[16];
	for (size_t code = 0; code < 256; code++)
		w.sizes[code] = UNLISTED;
	for (size_t at = 17; at < first; at += 3)
		list_code(&w, f->bytes[at], (size_t)f->bytes[at + 1] << 8 | f->bytes[at + 2]);
	for (size_t k = 0; k < f->events; k++) {
		size_t at = k ? f->ends[k - 1] : first;
		add_part(&w, w.n, (part){ f->bytes[at], f->bytes + at + 1, f->ends[k] - at - 1 });
	}
	return w;
}

/* The payloads of a code get longer; 3D's entry is the codes' length, and stays. */
static void lengthen(newer *w, uint8_t code, size_t more)
{
	if (code != CODES && w->sizes[code] != UNLISTED)
		w->sizes[code] = w->sizes[code] + more < LONGEST ? w->sizes[code] + more : LONGEST;
}

static void lengthen_all(newer *w, size_t more)
{
	for (size_t k = 0; k < w->entries; k++)
		lengthen(w, w->order[k], more);
}

/* Unknown codes are listed, each with a size of its own; one has no payload. */
static void list_unknown(newer *w)
{
	static const size_t sizes[UNKNOWN_LEN] = { 3, 0, 516, 1, 64, 300, 6, 700 };
	for (size_t k = 0; k < UNKNOWN_LEN; k++)
		list_code(w, UNKNOWN[k], sizes[k]);
}

/* An unknown event behind one of `every` events, GameStart among them, and one at the very end. */
static void add_unknown(newer *w, size_t every)
{
	list_unknown(w);
	for (size_t at = 1; at <= w->n; at++)
		if (at == w->n || below(every) == 0) {
			add_part(w, at, (part){ .code = UNKNOWN[below(UNKNOWN_LEN)] });
			at++;
		}
}

static uint8_t *put_payload(uint8_t *to, const newer *w, const part *e)
{
	size_t size = w->sizes[e->code], had = e->len < size ? e->len : size;
	if (had)
		memcpy(to, e->payload, had);
	draw_bytes(to + had, size - had);
	if (e->code == START && size >= 3)
		memcpy(to, &w->version, 3);
	return to + size;
}

static uint8_t *put_size(uint8_t *to, size_t size)
{
	*to++ = (uint8_t)(size >> 8);
	*to++ = (uint8_t)size;
	return to;
}

/* Its file, with random bytes behind what 3.18 has of a payload; what it was made of is given back. */
static model_file put_newer(newer *w)
{
	static const uint8_t signature[11] = { 0x7b, 0x55, 0x03, 0x72, 0x61, 0x77, 0x5b, 0x24, 0x55, 0x23, 0x6c };
	size_t len = 17 + 3 * w->entries;
	for (size_t k = 0; k < w->n; k++)
		len += 1 + w->sizes[w->parts[k].code];
	model_file f = { .bytes = take(len + w->tail_len), .len = len + w->tail_len, .ends = take((w->n + 1) * sizeof *f.ends), .events = w->n, .data_end = len };
	uint8_t *to = f.bytes;
	memcpy(to, signature, sizeof signature);
	to = put_size(put_size(to + sizeof signature, (len - 15) >> 16), len - 15);
	*to++ = TABLE;
	*to++ = (uint8_t)(3 * w->entries + 1);
	for (size_t k = 0; k < w->entries; k++) {
		*to++ = w->order[k];
		to = put_size(to, w->sizes[w->order[k]]);
	}
	for (size_t k = 0; k < w->n; k++) {
		*to++ = w->parts[k].code;
		to = put_payload(to, w, &w->parts[k]);
		f.ends[k] = (size_t)(to - f.bytes);
	}
	memcpy(to, w->tail, w->tail_len);
	free(w->parts);
	return f;
}

/* ---- they read back to the same */

/* No call but the two takes the version; of the frames there are rows, if they say 3.18.0. */
static void check_others(const model_file *f, const opened_file *is)
{
	slp_opened o = is->o;
	slp_stores stores = slp_stores_in(&is->s);
	uint8_t *again = take(f->len);
	CHECK_EQ(slp_save(again, f->len, &o, &is->s, f->bytes).refused, 1);
	CHECK_EQ(slp_check(f->bytes, f->len).refused, 1);
	CHECK_EQ(slp_measure_repair(f->bytes, f->len).refused, 1);
	if (o.game.frames.counts.frames) {
		CHECK_EQ(slp_frame_row(o.game.frames, SLP_STORES(&stores), 0).refused, 1);
		o.game.frames.version = (slp_version){ 3, 18, 0 };
		CHECK_EQ(slp_frame_row(o.game.frames, SLP_STORES(&stores), 0).refused, 0);
	}
	free(again);
}

static void check_same_stores(const opened_file *a, const opened_file *b)
{
	size_t n[FILLED_STORES];
	CHECK(memcmp(&a->lengths, &b->lengths, sizeof a->lengths) == 0);
	each_length(&a->lengths, n);
	for (size_t k = 0; k < FILLED_STORES; k++)
		CHECK(n[k] == 0 || memcmp(store_bytes(&a->s, k), store_bytes(&b->s, k), n[k] * unit_of(k)) == 0);
}

/* The file of 3.18 and the newer one: one game but for the version, one tail, and the start block at its place. */
static void check_same_game(const model_file *old, const opened_file *was, const model_file *f, const opened_file *is, slp_version v)
{
	const slp_places *a = &was->o.places, *b = &is->o.places;
	slp_game game = is->o.game;
	CHECK_EQ(was->o.partly, 0);
	CHECK_EQ(is->o.partly, 1);
	CHECK(memcmp(&game.frames.version, &v, 3) == 0);
	game.frames.version = was->o.game.frames.version;
	CHECK(same_game(&game, &was->o.game));
	check_same_stores(was, is);
	CHECK_EQ(b->block_at, slp_first_place(f->bytes, f->len) + 1);
	CHECK(b->block_len >= a->block_len);
	CHECK(memcmp(f->bytes + b->block_at + 3, old->bytes + a->block_at + 3, a->block_len - 3) == 0);
	CHECK_EQ(b->tail, a->tail);
	CHECK_EQ(b->metadata_len, a->metadata_len);
	CHECK(a->metadata_len == 0 || memcmp(f->bytes + b->metadata_at, old->bytes + a->metadata_at, a->metadata_len) == 0);
}

/* A game of 3.18 that was made newer so. */
static void check_newer(const model_file *old, const opened_file *was, newer w)
{
	slp_version v = w.version;
	model_file f = put_newer(&w);
	opened_file is = check_opening(f.bytes, f.len);
	if (CHECK_EQ(is.o.refused, 0)) {
		check_same_game(old, was, &f, &is, v);
		check_others(&f, &is);
	}
	free_opened(&is);
	model_free(&f);
}

static const slp_version VERSIONS[] = { { 3, 19, 7 }, { 3, 18, 1 }, { 3, 255, 255 } };
static const size_t MORE[] = { 0, 1, 7, 300 };
enum { VERSIONS_LEN = sizeof VERSIONS / sizeof *VERSIONS, MORE_LEN = sizeof MORE / sizeof *MORE };

/* In each way: every payload longer by as much, or each code's by another number of bytes; no unknown events, one behind each, or some. */
static void check_ways(plan p)
{
	p.version = (slp_version){ 3, 18, 0 };
	made m = make_returning(p);
	model_file old = model_write(&m.in);
	opened_file was = check_opening(old.bytes, old.len);
	CHECK_EQ(was.o.refused, 0);
	for (size_t k = 0; k < MORE_LEN + 1; k++)
		for (size_t every = 0; every < 3; every++) {
			newer w = newer_of(&old, VERSIONS[below(VERSIONS_LEN)]);
			for (size_t e = 0; e < w.entries; e++)
				lengthen(&w, w.order[e], k < MORE_LEN ? MORE[k] : MORE[below(MORE_LEN)]);
			if (every)
				add_unknown(&w, every == 1 ? 1 : 4);
			check_newer(&old, &was, w);
		}
	free_opened(&was);
	model_free(&old);
	unmake(&m);
}

static void games_come_back(void)
{
	for (size_t n = rounds(300, 6); n; n--)
		check_ways(random_plan(n % 8 ? 12 : 40));
}

static void chosen_games_come_back(void)
{
	plan none = { .version = { 3, 18, 0 } }, codes = one_frame_plan();
	codes.codes = 1;
	for (uint32_t size = 511; size <= 514; size++) {
		codes.actual_size = size;
		check_ways(codes);
	}
	check_ways(none);
	check_ways(one_frame_plan());
	check_ways(rich_plan());
}

/* ---- each limit by one small file of 3.19.7 */

static pieces p;

static unsigned answer(void)
{
	size_t len;
	uint8_t *file = put_together(&p, &len);
	unsigned refused = check_file(file, len);
	free(file);
	return refused;
}

static void begin_newer(slp_version v)
{
	take_whole(&p, (slp_version){ 3, 18, 0 });
	memcpy(p.events[0].bytes, &v, 3);
	*listed(&p, 0x42) = 5;
	*listed(&p, 0x3e) = 0;
}

/* Payloads of one byte less than 3.18's are wrong where there is such an event, of 3.18's own length and longer ones never. */
static void sizes(void)
{
	static const uint8_t codes[] = { START, PRE_CODE, POST_CODE, END, FRAME, ITEM_CODE, CLOSE, BLOCK, FOD_CODE, WHISPY_CODE, STADIUM_CODE };
	static const size_t more[] = { 1, 7, 300 };
	for (size_t k = 0; k < sizeof codes; k++) {
		begin_newer((slp_version){ 3, 19, 7 });
		size_t size = *listed(&p, codes[k]);
		CHECK_EQ(answer(), 0);
		for (size_t n = 0; n < sizeof more / sizeof *more; n++) {
			resize(&p, codes[k], size + more[n]);
			CHECK_EQ(answer(), 0);
		}
		resize(&p, codes[k], size - 1);
		CHECK_EQ(answer(), 19);
		resize(&p, codes[k], 0);
		CHECK_EQ(answer(), 19);
	}
	/* of events that do not come, nobody asks */
	begin_newer((slp_version){ 3, 19, 7 });
	for (size_t i = p.n; i--;)
		if (p.events[i].code == ITEM_CODE || p.events[i].code == END)
			drop_piece(&p, i);
	*listed(&p, ITEM_CODE) = *listed(&p, END) = 0;
	CHECK_EQ(answer(), 0);
}

/* The version decides: to 3.18.0 nothing may be longer or unknown, and from 4.0.0 on all is refused 1. */
static void versions(void)
{
	static const uint8_t each[][4] = { { 3, 17, 255, 19 }, { 3, 18, 0, 19 }, { 3, 18, 1, 0 }, { 3, 18, 255, 0 }, { 3, 19, 0, 0 }, { 3, 19, 7, 0 },
	                                   { 3, 255, 255, 0 }, { 4, 0, 0, 1 }, { 4, 18, 0, 1 }, { 255, 255, 255, 1 } };
	for (size_t k = 0; k < sizeof each / sizeof *each; k++) {
		slp_version v = { each[k][0], each[k][1], each[k][2] };
		begin_newer(v);
		insert_piece(&p, 1, 0x42);
		CHECK_EQ(answer(), each[k][3]);
		begin_newer(v);
		resize(&p, PRE_CODE, *listed(&p, PRE_CODE) + 1);
		CHECK_EQ(answer(), each[k][3]);
	}
}

/* An unknown event may stand everywhere but before GameStart, a known one that is no event nowhere, and an unlisted one is 16. */
static void every_place(void)
{
	begin_newer((slp_version){ 3, 19, 7 });
	size_t events = p.n;
	for (size_t at = 0; at <= events; at++) {
		static const struct {
			uint8_t code;
			unsigned refused;
		} inserted[] = { { 0x42, 0 }, { 0x3e, 0 }, { CODES, 19 }, { TABLE, 19 }, { START, 19 } };
		for (size_t k = 0; k < sizeof inserted / sizeof *inserted; k++) {
			begin_newer((slp_version){ 3, 19, 7 });
			if (inserted[k].code == TABLE)
				*listed(&p, TABLE) = 4;
			insert_piece(&p, at, inserted[k].code);
			/* zeros before GameStart are one of version 0.0.0 */
			CHECK_EQ(answer(), at == 0 ? 19 : inserted[k].refused);
		}
		begin_newer((slp_version){ 3, 19, 7 });
		insert_piece(&p, at, 0x98);
		unlist(&p, 0x98);
		CHECK_EQ(answer(), 16);
	}
}

/* What is wrong stays wrong, with an unknown event in between. */
static void check_wrong(void (*change)(void), unsigned refused)
{
	for (int between = 0; between < 2; between++) {
		begin_newer((slp_version){ 3, 19, 7 });
		change();
		for (size_t at = 1; between && at <= p.n; at += 2)
			insert_piece(&p, at, at % 4 == 1 ? 0x42 : 0x3e);
		CHECK_EQ(answer(), refused);
	}
}

static void nothing(void) {}
static void no_close(void) { drop_piece(&p, find(&p, CLOSE, 1)); }
static void pre_alone(void) { drop_piece(&p, find(&p, POST_CODE, 1)); }
static void posts_turned(void) { move_piece(&p, find(&p, POST_CODE, 1), find(&p, POST_CODE, 0)); }
static void item_first(void) { move_piece(&p, find(&p, ITEM_CODE, 0), find(&p, PRE_CODE, 0)); }
static void other_id(void) { p.events[find(&p, ITEM_CODE, 2)].bytes[3] ^= 1; }
static void block_late(void) { move_piece(&p, find(&p, BLOCK, 1), find(&p, FRAME, 0)); }
static void block_of_other(void) { p.events[find(&p, BLOCK, 0)].bytes[514] = 0x42; }
static void block_unlisted(void) { unlist(&p, CODES); }
static void codes_longer(void) { ++*listed(&p, CODES); }
static void three_ends(void) { double_piece(&p, p.n - 1, p.n); }
static void frame_after_end(void) { move_piece(&p, find(&p, END, 0), find(&p, FRAME, 2)); }
static void unlike_ends(void) { resize(&p, END, 9); p.events[p.n - 1].bytes[5] ^= 1; }
static void like_ends(void) { resize(&p, END, 9); p.events[p.n - 1].bytes[6] ^= 1; p.events[p.n - 2].bytes[8] = 77; }
static void initiator_four(void) { p.events[p.n - 1].bytes[1] = p.events[p.n - 2].bytes[1] = 4; }
static void seat_four(void) { p.events[0].bytes[101] = 4; }

static void rules_stay(void)
{
	check_wrong(nothing, 0);
	check_wrong(no_close, 19);
	check_wrong(pre_alone, 19);
	check_wrong(posts_turned, 19);
	check_wrong(item_first, 19);
	check_wrong(other_id, 19);
	check_wrong(block_late, 19);
	check_wrong(block_of_other, 19);
	check_wrong(block_unlisted, 19);
	check_wrong(codes_longer, 19);
	check_wrong(three_ends, 19);
	check_wrong(frame_after_end, 19);
	check_wrong(unlike_ends, 19);
	check_wrong(like_ends, 0);
	check_wrong(initiator_four, 19);
	check_wrong(seat_four, 19);
}

/* ---- damage */

/* A small game made newer: two frames, a leader, a follower in one of them, a row of each family, codes sometimes, an end or two. */
static newer small_newer(model_file *old)
{
	plan q = { .version = { 3, 18, 0 }, .frames = 2, .items = 1, .fods = 1, .whispys = 1, .stadiums = 1, .ports = 2, .followers = 1, .presence = 1, .seats = 2,
	           .actual_size = 3, .metadata = 1, .metadata_len = 5, .end = 1 };
	q.codes = below(2) == 0;
	q.double_end = below(2) == 0;
	made m = make_returning(q);
	*old = model_write(&m.in);
	unmake(&m);
	newer w = newer_of(old, VERSIONS[below(VERSIONS_LEN)]);
	if (below(2))
		lengthen_all(&w, 1 + below(9));
	if (below(4))
		add_unknown(&w, 1 + below(4));
	return w;
}

static void check_met(void)
{
	static const unsigned numbers[] = { 0, 15, 16, 17, 19 };
	for (size_t k = 0; k < sizeof numbers / sizeof *numbers; k++)
		CHECK(light || met[numbers[k]] > 20);
}

static void damaged_bytes(void)
{
	memset(met, 0, sizeof met);
	for (size_t n = rounds(100, 10); n; n--) {
		model_file old;
		newer w = small_newer(&old);
		model_file f = put_newer(&w);
		slp_measured m = model_measure(f.bytes, f.len);
		size_t lens[FILLED_STORES];
		CHECK_EQ(m.refused, 0);
		each_length(&m.lengths, lens);
		lent_space l = lend_space(lens);
		for (int k = 0; k < (light ? 40 : 500); k++)
			met[check_damaged(&f, &l)]++;
		give_back_space(&l);
		model_free(&f);
		model_free(&old);
	}
	check_met();
	CHECK(light || (met[1] > 20 && met[14] > 20));
}

/* A code: known or not, and also one that is no event. */
static uint8_t some_code(const newer *w)
{
	static const uint8_t odd[] = { TABLE, CODES, START, END, BLOCK };
	switch (below(3)) {
	case 0: return odd[below(sizeof odd)];
	case 1: return UNKNOWN[below(UNKNOWN_LEN)];
	default: return w->order[below(w->entries)];
	}
}

static void damage_part(newer *w)
{
	size_t at = below(w->n), to = below(w->n);
	part moved = w->parts[at];
	uint8_t code = some_code(w);
	switch (below(7)) {
	case 0: drop_part(w, at); break;
	case 1: add_part(w, to, moved); break;
	case 2: w->parts[at] = w->parts[to]; w->parts[to] = moved; break;
	case 3: drop_part(w, at); add_part(w, below(w->n + 1), moved); break;
	case 4: add_part(w, to, (part){ .code = code }); break;
	case 5: w->parts[at].code = code; break;
	default: list_code(w, code, w->sizes[code] < 2000 ? w->sizes[code] + below(3) - (w->sizes[code] > 0) : below(8)); break;
	}
	if (w->n == 0)
		add_part(w, 0, (part){ .code = START });
	/* what stands there must have a size; an entry may go */
	for (size_t k = 0; k < w->n; k++)
		if (w->sizes[w->parts[k].code] == UNLISTED)
			list_code(w, w->parts[k].code, below(9));
}

/* Events that are dropped, doubled, moved, put in or become others, payloads a byte shorter or longer; then sometimes bytes, a cut, or another length. */
static void damaged_structure(void)
{
	memset(met, 0, sizeof met);
	for (size_t n = rounds(50000, 100); n; n--) {
		model_file old;
		newer w = small_newer(&old);
		for (size_t k = 1 + below(2); k; k--)
			damage_part(&w);
		model_file f = put_newer(&w);
		size_t len = below(8) ? f.len : below(f.len + 1);
		if (below(8) == 0)
			f.bytes[damaged_place(&f)] = damaged_byte(0);
		if (below(16) == 0)
			f.bytes[14] = (uint8_t)(f.bytes[14] + 1 - 2 * below(2));
		met[check_file(f.bytes, len)]++;
		model_free(&f);
		model_free(&old);
	}
	check_met();
}

/* Every cut of a newer file. */
static void every_cut(void)
{
	for (size_t n = rounds(2, 1); n; n--) {
		model_file old;
		newer w = small_newer(&old);
		model_file f = put_newer(&w);
		for (size_t cut = 0; cut <= f.len; cut += light ? 31 : 1) {
			unsigned refused = check_file(f.bytes, cut);
			CHECK_EQ(refused, cut < 15 ? 14 : cut < 16 + (size_t)f.bytes[16] ? 15 : cut < f.data_end ? 19 : 0);
		}
		model_free(&f);
		model_free(&old);
	}
}

int main(int argc, char **argv)
{
	begin("newer", argc, argv);
	test("chosen games come back", chosen_games_come_back);
	test("games come back", games_come_back);
	test("sizes", sizes);
	test("versions", versions);
	test("every place", every_place);
	test("rules stay", rules_stay);
	test("every cut", every_cut);
	test("damaged bytes", damaged_bytes);
	test("damaged structure", damaged_structure);
	return finish();
}
