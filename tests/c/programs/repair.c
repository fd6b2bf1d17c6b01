/* The repair of files: every cut of small games with every kind of length field, files with damaged structure, games that are repaired to themselves. All
 * against a search over the places behind events, the last first, in which slp_measure is asked. */
#include "check.h"

#include <stdlib.h>
#include <string.h>

#include "made.h"
#include "model.h"
#include "sound.h"
#include "sounds.h"
#include "space.h"

/* How often each number was answered, and each tail. */
static size_t met[32], tails[3];

static void set_length(uint8_t *file, size_t length)
{
	for (int i = 0; i < 4; i++)
		file[11 + i] = (uint8_t)(length >> (24 - 8 * i));
}

static uint32_t length_of(const uint8_t *file)
{
	return (uint32_t)file[11] << 24 | (uint32_t)file[12] << 16 | (uint32_t)file[13] << 8 | file[14];
}

/* ---- a second writing */

/* What should be answered, and the file that should be given. */
typedef struct {
	slp_repaired r;
	uint8_t *file;
} mended;

/* The places behind events, in memory to be freed, of a file whose length is zero. */
static size_t *places_from(const uint8_t *zeroed, size_t len, size_t at, size_t *n)
{
	size_t *places = take((len + 1) * sizeof *places);
	*n = 0;
	for (slp_step s; (s = model_step(zeroed, len, at)).kind == SLP_STEP_EVENT; at = s.next)
		places[(*n)++] = s.next;
	return places;
}

/* 14, 15, 19 for the first event, 1, or 0. */
static unsigned open_refusal(const uint8_t *zeroed, size_t len)
{
	slp_step s = model_step(zeroed, len, len < 17 ? 17 : 17 + 3u * (zeroed[16] / 3u));
	if (s.kind == SLP_STEP_REFUSED && s.refused <= SLP_BAD_TABLE)
		return s.refused;
	if (s.kind != SLP_STEP_EVENT || s.code != SLP_EVENT_GAME_START || s.len < 4)
		return SLP_BAD_EVENTS;
	return too_new((slp_version){ zeroed[s.payload], zeroed[s.payload + 1], zeroed[s.payload + 2] }) ? SLP_VERSION_TOO_NEW : 0;
}

/* The last place up to which the reader accepts the file, given a length that says so; its number among the places, or `n` for none. */
static size_t last_accepted(uint8_t *copy, size_t len, const size_t *places, size_t n)
{
	for (size_t k = n; k--;) {
		set_length(copy, places[k] - 15);
		if (slp_measure(copy, len).refused == 0)
			return k;
	}
	return n;
}

static mended kept_up_to(const uint8_t *file, size_t len, size_t first, size_t p, size_t events, size_t behind)
{
	int own = behind == 0 && model_proper_tail(file + p, len - p);
	mended m = { .file = take(len + 1) };
	memcpy(m.file, file, len);
	set_length(m.file, p - 15);
	if (!own)
		m.file[p] = 0x7d;
	m.r = (slp_repaired){ .tail = !own ? 2 : len - p > 1, .said = length_of(file), .length = (uint32_t)(p - 15), .bytes = own ? len : p + 1, .events = events,
	                      .event_bytes = p - first, .dropped_events = behind, .dropped_bytes = own ? 0 : len - p };
	return m;
}

static mended mend(const uint8_t *file, size_t len)
{
	mended m = { .file = NULL };
	uint8_t *copy = take(len + 1);
	size_t n, first, k;
	memcpy(copy, file, len);
	if (len >= 15)
		memset(copy + 11, 0, 4);
	m.r.refused = (uint8_t)open_refusal(copy, len);
	if (!m.r.refused) {
		first = 17 + 3u * (file[16] / 3u);
		size_t *places = places_from(copy, len, first, &n);
		k = last_accepted(copy, len, places, n);
		if (k < n)
			m = kept_up_to(file, len, first, places[k], k + 1, n - 1 - k);
		else
			m.r.refused = SLP_BAD_EVENTS;
		free(places);
	}
	free(copy);
	return m;
}

/* ---- the calls, over lent copies */

static void check_same(const slp_repaired *a, const slp_repaired *b)
{
	CHECK_EQ(a->refused, b->refused);
	CHECK_EQ(a->tail, b->tail);
	CHECK_EQ(a->said, b->said);
	CHECK_EQ(a->length, b->length);
	CHECK_EQ(a->bytes, b->bytes);
	CHECK_EQ(a->events, b->events);
	CHECK_EQ(a->event_bytes, b->event_bytes);
	CHECK_EQ(a->dropped_events, b->dropped_events);
	CHECK_EQ(a->dropped_bytes, b->dropped_bytes);
}

/* Into an output of so many bytes: the file and what stood behind it, or all as it was. */
static void check_repair(const uint8_t *file, size_t len, const mended *m, size_t room)
{
	static const slp_repaired too_short = { .refused = SLP_SHORT_OUTPUT };
	uint8_t *stood = take(room);
	draw_bytes(stood, room);
	loan f = lend(file, len, 1), out = lend(stood, room, 1);
	slp_repaired r = slp_repair(f.data, len, out.data, room);
	check_same(&r, m->r.refused || room >= m->r.bytes ? &m->r : &too_short);
	CHECK(kept(&f, 0));
	CHECK(kept(&out, r.refused ? 0 : m->r.bytes));
	CHECK(r.refused || memcmp(out.data, m->file, m->r.bytes) == 0);
	met[r.refused & 31]++;
	give_back(&f);
	give_back(&out);
	free(stood);
}

/* The reader accepts it, whole. */
static void check_reads(const mended *m)
{
	size_t lens[FILLED_STORES];
	slp_measured is = guarded_measure(m->file, m->r.bytes);
	CHECK_EQ(is.refused, 0);
	each_length(&is.lengths, lens);
	lent_space l = lend_space(lens);
	CHECK_EQ(guarded_read(m->file, m->r.bytes, &l, &is.lengths).refused, 0);
	give_back_space(&l);
	slp_walked w = guarded_walk(m->file, m->r.bytes);
	CHECK(w.whole && w.stray == 0 && w.events == m->r.events);
}

/* A file: measured; into no bytes, a byte too few, exactly its bytes, some more. What is given is read; with `again`, it is repaired to itself. */
static slp_repaired check_file(const uint8_t *file, size_t len, int again)
{
	mended m = mend(file, len);
	loan f = lend(file, len, 1);
	slp_repaired r = slp_measure_repair(f.data, len);
	check_same(&r, &m.r);
	CHECK(kept(&f, 0));
	give_back(&f);
	check_repair(file, len, &m, m.r.bytes + below(20));
	if (!m.r.refused) {
		tails[m.r.tail]++;
		check_repair(file, len, &m, m.r.bytes);
		check_repair(file, len, &m, m.r.bytes - 1);
		check_repair(file, len, &m, below(m.r.bytes));
		check_reads(&m);
		if (again && m.r.tail != 2)
			check_file(m.file, m.r.bytes, 0);
	}
	free(m.file);
	return r;
}

/* ---- games */

/* A small game that comes back; with no metadata, a map of one entry, or such a map with a byte too many, which is no proper tail. */
static model_file small_file(slp_version v, int metadata)
{
	static const uint8_t map[9] = { 'U', 1, 'a', 'l', 0, 0, 0, 7, 'U' };
	plan q = random_plan(3);
	q.version = v;
	q.metadata = metadata != 0;
	q.metadata_len = metadata == 1 ? 8 : 9;
	made g = make_returning(q);
	if (metadata)
		memcpy(g.metadata, map, q.metadata_len);
	model_file f = model_write(&g.in);
	unmake(&g);
	return f;
}

/* The k-th kind of a wrong length, or the right one. */
enum { LENGTHS = 7 };

static size_t some_length(const model_file *f, size_t k)
{
	size_t right = f->data_end - 15;
	switch (k) {
	case 0: return right;
	case 1: return 0;
	case 2: return right + 1;
	case 3: return right - 1;
	case 4: return 0xffffffff;
	case 5: return f->ends[below(f->events)] - 15;
	default: return (size_t)(draw() & 0xffffffff);
	}
}

static const slp_version VERSIONS[] = { { 0, 1, 0 }, { 1, 0, 0 }, { 2, 1, 0 }, { 2, 2, 0 }, { 3, 0, 0 }, { 3, 3, 0 }, { 3, 7, 0 }, { 3, 18, 0 } };
enum { VERSIONS_LEN = sizeof VERSIONS / sizeof *VERSIONS };

static void every_cut(void)
{
	for (size_t k = 0; k < VERSIONS_LEN; k += light ? 7 : 1) {
		model_file f = small_file(VERSIONS[k], (int)(k % 3));
		for (size_t cut = 0; cut <= f.len; cut += light ? 97 : 1)
			for (size_t i = 0; i < 2; i++) {
				set_length(f.bytes, some_length(&f, (cut + 3 * i) % LENGTHS));
				check_file(f.bytes, cut, 0);
			}
		model_free(&f);
	}
}

/* With every kind of length, and many more: the file as it was written. */
static void to_themselves(void)
{
	for (size_t i = rounds(3000, 12); i; i--) {
		model_file f = small_file(random_version(), (int)below(2));
		uint8_t *own = take(f.len), *out = take(f.len);
		memcpy(own, f.bytes, f.len);
		for (size_t k = 0; k < LENGTHS; k++) {
			set_length(f.bytes, some_length(&f, k));
			slp_repaired r = check_file(f.bytes, f.len, 1);
			CHECK(r.refused == 0 && r.tail < 2 && r.dropped_events == 0 && r.length == f.data_end - 15);
			slp_repair(f.bytes, f.len, out, f.len);
			CHECK(r.bytes == f.len && memcmp(out, own, f.len) == 0);
		}
		free(own);
		free(out);
		model_free(&f);
	}
}

/* ---- damage */

/* A byte anywhere, often in the head of an event. */
static void damaged_bytes(void)
{
	for (size_t i = rounds(6000, 20); i; i--) {
		model_file f = small_file(random_version(), (int)below(3));
		for (int k = 0; k < 8; k++) {
			size_t at = below(2) || f.events < 2 ? below(f.len) : f.ends[below(f.events - 1)] + below(7);
			uint8_t was = f.bytes[at];
			f.bytes[at] = (uint8_t)(below(2) ? was ^ 1u << below(8) : below(6));
			check_file(f.bytes, below(4) ? f.len : below(f.len + 1), 1);
			f.bytes[at] = was;
		}
		model_free(&f);
	}
}

static sound s;

/* Files of any writer, with changes to their structure. */
static void damaged_files(void)
{
	for (size_t i = rounds(10000, 30); i; i--) {
		size_t len;
		make_sound(&s, random_version());
		for (size_t k = below(4); k; k--)
			damage_sound(&s);
		uint8_t *file = join(&s, &len);
		if (below(2) && len >= 15)
			set_length(file, below(2) ? 0 : below(len));
		check_file(file, below(4) ? len : below(len + 1), 1);
		free(file);
	}
}

/* No byte between events is one: every place of a small file is tried, and the longest is the one that is given. */
static void every_place(void)
{
	for (size_t k = 0; k < VERSIONS_LEN; k += light ? 7 : 1) {
		model_file f = small_file(VERSIONS[k], 0);
		size_t cut = f.len - below(f.len / 4), longest = 0;
		for (size_t p = 15; p <= cut; p += light ? 5 : 1) {
			set_length(f.bytes, p - 15);
			if (slp_measure(f.bytes, cut).refused == 0)
				longest = p;
		}
		slp_repaired r = slp_measure_repair(f.bytes, cut);
		if (!light)
			CHECK_EQ(r.refused ? 0 : 15 + r.length, longest);
		CHECK(longest <= 15 + r.length);
		model_free(&f);
	}
}

/* With a byte changed, and cut. */
static unsigned refused_with(model_file *f, size_t at, uint8_t byte, size_t cut)
{
	uint8_t was = f->bytes[at];
	f->bytes[at] = byte;
	slp_repaired r = check_file(f->bytes, cut, 0);
	f->bytes[at] = was;
	return r.refused;
}

/* Each refusal, in the order in which they are judged: the version stands behind the code of the first event. */
static void refusals(void)
{
	model_file f = small_file((slp_version){ 3, 18, 0 }, 0);
	size_t first = slp_first_place(f.bytes, f.len), start = f.ends[0];
	CHECK_EQ(refused_with(&f, 0, f.bytes[0], f.len), 0);
	CHECK_EQ(refused_with(&f, 0, 0, f.len), 14);
	CHECK_EQ(refused_with(&f, 0, f.bytes[0], 14), 14);
	CHECK_EQ(refused_with(&f, 0, f.bytes[0], 15), 15);
	CHECK_EQ(refused_with(&f, 16, 32, f.len), 15);
	CHECK_EQ(refused_with(&f, 0, f.bytes[0], first - 1), 15);
	CHECK_EQ(refused_with(&f, 0, f.bytes[0], first), 19);
	CHECK_EQ(refused_with(&f, first, 0x37, f.len), 19);
	CHECK_EQ(refused_with(&f, first + 1, 4, start - 1), 19);
	CHECK_EQ(refused_with(&f, first + 1, 4, start), 1);
	CHECK_EQ(refused_with(&f, first + 3, 1, f.len), 1);
	/* a seat's type that there is none of */
	CHECK_EQ(refused_with(&f, first + 1 + 101, 9, f.len), 19);
	model_free(&f);
}

static void all_met(void)
{
	static const unsigned numbers[] = { 0, 1, 12, 14, 15, 19 };
	for (size_t k = 0; k < sizeof numbers / sizeof *numbers; k++)
		CHECK(met[numbers[k]] > 0);
	for (int tail = 0; tail < 3; tail++)
		CHECK(tails[tail] > 0);
}

int main(int argc, char **argv)
{
	begin("repair", argc, argv);
	test("refusals", refusals);
	test("every cut", every_cut);
	test("to themselves", to_themselves);
	test("every place", every_place);
	test("damaged bytes", damaged_bytes);
	test("damaged files", damaged_files);
	test("all met", all_met);
	return finish();
}
