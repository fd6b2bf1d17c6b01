/* Every refusal, and that the lowest number is given. Guards see that a refused call changes nothing. */
#include <stdlib.h>
#include <string.h>

#include "check.h"
#include "columns.h"
#include "damage.h"
#include "made.h"
#include "model.h"

enum { ROOM = 200000 };

static uint8_t out[ROOM];

/* The number that a game is answered with; what is accepted must be the file of the model. */
static unsigned answer(const made *m, size_t room)
{
	memset(out, 0xee, 64);
	slp_written w = guarded_write(&m->in, out, room);
	if (!w.refused) {
		model_file f = model_write(&m->in);
		CHECK_EQ(w.len, f.len);
		CHECK(memcmp(out, f.bytes, f.len) == 0);
		model_free(&f);
	}
	return w.refused;
}

static made rich(void)
{
	plan p = rich_plan();
	return make_game(&p);
}

/* ---- one fault for each number of the writer; none hides another */

static void fault(made *m, unsigned number, size_t *room)
{
	switch (number) {
	case 8: m->in.block.len = 759; break;
	case 9: m->in.game.start.seats[2].kind = 3; break;
	case 10: m->in.game.actual_size = 512; break;
	case 11: m->in.game.end.initiator = 4; break;
	case 12: *room = 0; break;
	default: fault_frames(m, number); break;
	}
}

/* The faults of a set, bit n - 1 for number n. */
static void check_set(unsigned set)
{
	made m = rich();
	size_t room = 20000;
	unsigned lowest = 0;
	for (unsigned n = 12; n >= 1; n--)
		if (set >> (n - 1) & 1) {
			fault(&m, n, &room);
			lowest = n;
		}
	CHECK_EQ(answer(&m, room), lowest);
	unmake(&m);
}

static void every_pair(void)
{
	check_set(0);
	for (unsigned a = 1; a <= 12; a++)
		for (unsigned b = a; b <= 12; b++)
			check_set(1u << (a - 1) | 1u << (b - 1));
}

static void every_set(void)
{
	for (unsigned set = 0; set < 4096; set += light ? 97 : 1)
		check_set(set);
}

/* ---- 1 and 2 */

static void check_version(slp_version v, unsigned number)
{
	made m = rich();
	m.in.game.frames.version = v;
	CHECK_EQ(answer(&m, ROOM), number);
	unmake(&m);
}

static void versions(void)
{
	check_version((slp_version){ 3, 18, 0 }, 0);
	check_version((slp_version){ 3, 18, 1 }, 1);
	check_version((slp_version){ 3, 18, 255 }, 1);
	check_version((slp_version){ 3, 19, 0 }, 1);
	check_version((slp_version){ 4, 0, 0 }, 1);
	check_version((slp_version){ 255, 255, 255 }, 1);
	check_version((slp_version){ 3, 17, 255 }, 3);
}

static void counts(void)
{
	static const size_t maxima[5] = { SLP_MAX_FRAMES, SLP_MAX_ITEMS, SLP_MAX_STAGE_ROWS, SLP_MAX_STAGE_ROWS, SLP_MAX_STAGE_ROWS };
	for (size_t k = 0; k < 5; k++) {
		made m = rich();
		slp_counts *c = &m.in.game.frames.counts;
		size_t *all[5] = { &c->frames, &c->items, &c->fods, &c->whispys, &c->stadiums };
		*all[k] = maxima[k];
		CHECK_EQ(answer(&m, ROOM), 3);
		const size_t above[] = { maxima[k] + 1, UINT32_MAX, (size_t)UINT32_MAX + 1, SIZE_MAX / 2 + 1, SIZE_MAX };
		for (size_t i = 0; i < sizeof above / sizeof *above; i++) {
			*all[k] = above[i];
			CHECK_EQ(answer(&m, ROOM), 2);
		}
		unmake(&m);
	}
}

static void metadata(void)
{
	plan p = rich_plan();
	p.metadata_len = SLP_MAX_METADATA;
	made m = make_game(&p);
	CHECK_EQ(answer(&m, ROOM), 0);
	m.in.metadata.len++;
	CHECK_EQ(answer(&m, ROOM), 2);
	m.in.game.metadata_given = 0;
	CHECK_EQ(answer(&m, ROOM), 0);
	unmake(&m);
}

/* ---- 3 and 4 */

static void store_lengths(void)
{
	for (size_t k = 0; k < 9; k++) {
		made m = rich();
		slp_cells *c = cell_store(&m.in.stores, k);
		c->len++;
		CHECK_EQ(answer(&m, ROOM), 3);
		c->len -= 2;
		CHECK_EQ(answer(&m, ROOM), 3);
		c->len = 0;
		CHECK_EQ(answer(&m, ROOM), 3);
		unmake(&m);
	}
}

/* Each cell of a store that does not have four bytes: its largest number is accepted, one more is not. */
static void check_widths(slp_version v, family f, size_t store)
{
	plan p = rich_plan();
	uint8_t widths[MOST_COLUMNS];
	size_t columns = widths_of(f, v, widths);
	p.version = v;
	p.frames = 3;
	made m = make_game(&p);
	size_t len = cell_store(&m.in.stores, store)->len;
	const size_t all[FAMILIES] = { 3, 3, 3, m.in.game.frames.counts.items, 3, 2, 2, 2 };
	for (size_t i = 0; i < len; i += light ? 1 + below(120) : 1) {
		uint8_t width = widths[i / all[f] % columns];
		uint32_t was = m.cells[store][i];
		m.cells[store][i] = most(width);
		CHECK_EQ(answer(&m, ROOM), 0);
		m.cells[store][i]++;
		CHECK_EQ(answer(&m, ROOM), width == 4 ? 0 : 4);
		m.cells[store][i] = was;
	}
	unmake(&m);
}

static void widths(void)
{
	static const family families[8] = { FRAME_START, PRE, POST, FRAME_END, ITEM, FOD, WHISPY, STADIUM };
	for (size_t k = 0; k < 8; k++) {
		check_widths((slp_version){ 3, 18, 0 }, families[k], k + 1);
		if (!light) {
			check_widths((slp_version){ 3, 6, 0 }, families[k], k + 1);
			check_widths((slp_version){ 1, 4, 0 }, families[k], k + 1);
		}
	}
}

static void absent_players(void)
{
	plan p = { .version = { 3, 18, 0 }, .frames = 8, .ports = 1 };
	made m = make_game(&p);
	m.in.game.frames.ports[0].leader_presence = 1;
	m.in.stores.presence.len = 1;
	m.presence[0] = 0xfe;
	CHECK_EQ(answer(&m, ROOM), 0);
	m.cells[3][0] = 256;
	CHECK_EQ(answer(&m, ROOM), 4);
	unmake(&m);
}

/* ---- 5 */

static void offsets(void)
{
	for (size_t k = 9; k < CELL_STORES; k++) {
		made m = rich();
		slp_cells *c = cell_store(&m.in.stores, k);
		size_t last = c->len - 1;
		uint32_t rows = m.cells[k][last];
		CHECK_EQ(answer(&m, ROOM), 0);
		c->len++;
		CHECK_EQ(answer(&m, ROOM), 5);
		c->len = last;
		CHECK_EQ(answer(&m, ROOM), 5);
		c->len = 0;
		CHECK_EQ(answer(&m, ROOM), 5);
		c->len = last + 1;
		m.cells[k][last] = rows + 1;
		CHECK_EQ(answer(&m, ROOM), 5);
		m.cells[k][last] = rows - 1;
		CHECK_EQ(answer(&m, ROOM), 5);
		m.cells[k][last] = rows;
		m.cells[k][last - 1] = rows + 1;
		CHECK_EQ(answer(&m, ROOM), 5);
		m.cells[k][last - 1] = UINT32_MAX;
		CHECK_EQ(answer(&m, ROOM), 5);
		unmake(&m);
	}
}

/* Offsets or rows of a family that the version lacks. */
static void lacking_families(void)
{
	static const slp_version before[4] = { { 2, 255, 255 }, { 3, 17, 0 }, { 3, 17, 0 }, { 3, 17, 255 } };
	for (size_t k = 0; k < 4; k++) {
		plan p = { .version = before[k], .frames = 2 };
		made m = make_game(&p);
		slp_counts *c = &m.in.game.frames.counts;
		size_t *rows[4] = { &c->items, &c->fods, &c->whispys, &c->stadiums };
		CHECK_EQ(answer(&m, ROOM), 0);
		*rows[k] = 1;
		CHECK_EQ(answer(&m, ROOM), 5);
		*rows[k] = 0;
		cell_store(&m.in.stores, 9 + k)->len = 3;
		CHECK_EQ(answer(&m, ROOM), 5);
		unmake(&m);
	}
}

/* ---- 6 and 7 */

static void check_presence(size_t leader, size_t follower, int follows, size_t bytes, unsigned number)
{
	plan p = { .version = { 3, 18, 0 }, .frames = 9, .ports = 1, .followers = follows ? 1 : 0 };
	made m = make_game(&p);
	m.in.game.frames.ports[0].leader_presence = leader;
	m.in.game.frames.ports[0].follower_presence = follower;
	m.in.stores.presence.len = bytes;
	CHECK_EQ(answer(&m, ROOM), number);
	unmake(&m);
}

static void presence(void)
{
	check_presence(0, 0, 0, 0, 0);
	check_presence(2, 0, 0, 2, 0);
	check_presence(2, 2, 1, 4, 0);
	check_presence(0, 2, 1, 2, 0);
	check_presence(1, 0, 0, 1, 6);
	check_presence(3, 0, 0, 3, 6);
	check_presence(2, 2, 0, 4, 6);
	check_presence(2, 0, 0, 1, 6);
	check_presence(2, 0, 0, 3, 6);
	check_presence(2, 1, 1, 3, 6);
	check_presence(SIZE_MAX, 0, 0, 0, 6);
	check_presence(SIZE_MAX, 1, 1, 0, 6);
	check_presence(SIZE_MAX / 2 + 1, SIZE_MAX / 2 + 1, 1, 0, 6);
	check_presence(0, SIZE_MAX, 1, SPARE_BYTES, 6);
}

static void ports(void)
{
	plan p = { .version = { 3, 18, 0 }, .frames = 1, .ports = 4 };
	made m = make_game(&p);
	slp_frames *f = &m.in.game.frames;
	uint8_t was = f->ports[3].port;
	CHECK_EQ(answer(&m, ROOM), 0);
	static const size_t above[] = { 5, 6, 256, (size_t)UINT32_MAX + 1, SIZE_MAX / 2 + 1, SIZE_MAX };
	for (size_t i = 0; i < sizeof above / sizeof *above; i++) {
		f->port_count = above[i];
		CHECK_EQ(answer(&m, ROOM), 7);
	}
	f->port_count = 4;
	for (unsigned port = 0; port < 256; port += light ? 13 : 1) {
		f->ports[3].port = (uint8_t)port;
		CHECK_EQ(answer(&m, ROOM), port == was ? 0 : 7);
	}
	unmake(&m);
}

/* ---- 8 and 9 */

static void check_block(slp_version v)
{
	plan p = { .version = v, .block_more = 65535 - block_length(v) };
	made m = make_game(&p);
	CHECK_EQ(answer(&m, ROOM), 0);
	m.in.block.len = 65536;
	CHECK_EQ(answer(&m, ROOM), 8);
	m.in.block.len = block_length(v);
	CHECK_EQ(answer(&m, ROOM), 0);
	m.in.block.len--;
	CHECK_EQ(answer(&m, ROOM), 8);
	m.in.block.len = 0;
	CHECK_EQ(answer(&m, ROOM), 8);
	unmake(&m);
}

static void blocks(void)
{
	for (uint8_t minor = 0; minor <= 18; minor = (uint8_t)(minor + (light ? 6 : 1))) {
		check_block((slp_version){ 3, minor, 0 });
		if (!light && minor < 6)
			for (uint8_t major = 0; major < 3; major++)
				check_block((slp_version){ major, minor, 255 });
	}
}

/* Clears a mark, at the version that first needs it and at the one before. */
static void check_mark(slp_version since, slp_version before, size_t mark)
{
	const slp_version at[2] = { before, since };
	for (unsigned i = 0; i < 2; i++) {
		plan p = { .version = at[i], .seats = 4 };
		made m = make_game(&p);
		slp_start *s = &m.in.game.start;
		slp_seat *q = &s->seats[below(4)];
		uint8_t *marks[] = {
			&s->is_pal.given, &s->is_frozen_ps.given, &s->scene.given, &s->language.given, &s->match_info.given,
			&q->ucf.given, &q->name_tag_given, &q->netplay.given, &q->netplay.suid_given,
		};
		CHECK_EQ(answer(&m, ROOM), 0);
		*marks[mark] = 0;
		CHECK_EQ(answer(&m, ROOM), i ? 9 : 0);
		unmake(&m);
	}
}

static void marks(void)
{
	static const uint8_t since[9][4] = {
		{ 1, 5, 1, 4 }, { 2, 0, 1, 255 }, { 3, 7, 3, 6 }, { 3, 12, 3, 11 }, { 3, 14, 3, 13 },
		{ 1, 0, 0, 255 }, { 1, 3, 1, 2 }, { 3, 9, 3, 8 }, { 3, 11, 3, 10 },
	};
	for (size_t k = 0; k < 9; k++)
		check_mark((slp_version){ since[k][0], since[k][1], 0 }, (slp_version){ since[k][2], since[k][3], 0 }, k);
}

static slp_text *text_of(slp_start *s, size_t k)
{
	slp_seat *q = &s->seats[1];
	slp_text *all[5] = { &s->match_info.id, &q->name_tag, &q->netplay.name, &q->netplay.code, &q->netplay.suid };
	return all[k];
}

/* Their limits, and the last versions that do not write them. */
static const size_t text_limits[5] = { 50, 16, 30, 9, 28 };
static const slp_version text_before[5] = { { 3, 13, 0 }, { 1, 2, 0 }, { 3, 8, 0 }, { 3, 8, 0 }, { 3, 10, 0 } };

static void texts(void)
{
	static const size_t too_long[] = { 1, 100, (size_t)UINT32_MAX, SIZE_MAX / 2 };
	for (size_t k = 0; k < 5; k++) {
		plan p = { .version = { 3, 18, 0 }, .seats = 4 };
		made m = make_game(&p);
		slp_text *t = text_of(&m.in.game.start, k);
		t->len = text_limits[k];
		CHECK_EQ(answer(&m, ROOM), 0);
		for (size_t i = 0; i < sizeof too_long / sizeof *too_long; i++) {
			t->len = text_limits[k] + too_long[i];
			CHECK_EQ(answer(&m, ROOM), 9);
		}
		unmake(&m);
		p.version = text_before[k];
		m = make_game(&p);
		text_of(&m.in.game.start, k)->len = SIZE_MAX;
		CHECK_EQ(answer(&m, ROOM), 0);
		unmake(&m);
	}
}

/* A zero at every byte of a text: refused among the counted ones, and nowhere after them. */
static void check_zeros(made *m, slp_text *t, size_t len)
{
	t->len = len;
	for (size_t at = 0; at < sizeof t->bytes; at++) {
		uint8_t was = t->bytes[at];
		t->bytes[at] = 0;
		CHECK_EQ(answer(m, ROOM), at < len ? 9 : 0);
		t->bytes[at] = was;
	}
}

static void zeros_inside(void)
{
	for (size_t k = 0; k < 5; k++) {
		plan p = { .version = { 3, 18, 0 }, .seats = 4 };
		made m = make_game(&p);
		slp_text *t = text_of(&m.in.game.start, k);
		static const size_t lens[] = { 0, 1, 2 };
		for (size_t i = 0; i < sizeof lens / sizeof *lens; i++)
			check_zeros(&m, t, lens[i]);
		check_zeros(&m, t, text_limits[k] / 2);
		check_zeros(&m, t, text_limits[k]);
		t->bytes[0] = 0;
		CHECK_EQ(answer(&m, ROOM), 9);
		m.in.game.start.seats[1].given = 0;
		CHECK_EQ(answer(&m, ROOM), k ? 0 : 9);
		unmake(&m);
		p.version = text_before[k];
		m = make_game(&p);
		memset(text_of(&m.in.game.start, k)->bytes, 0, sizeof t->bytes);
		CHECK_EQ(answer(&m, ROOM), 0);
		unmake(&m);
	}
}

static void players(void)
{
	plan p = { .version = { 3, 18, 0 }, .seats = 4 };
	made m = make_game(&p);
	slp_seat *s = &m.in.game.start.seats[3];
	for (unsigned kind = 0; kind < 256; kind += light && kind > 3 ? 31 : 1) {
		s->kind = (uint8_t)kind;
		s->cpu_level.given = 0;
		CHECK_EQ(answer(&m, ROOM), kind == SLP_CPU || kind > 2 ? 9 : 0);
		s->cpu_level.given = 2;
		CHECK_EQ(answer(&m, ROOM), kind > 2 ? 9 : 0);
	}
	s->given = 0;
	CHECK_EQ(answer(&m, ROOM), 0);
	unmake(&m);
}

/* ---- 10 to 12 */

static void check_codes(slp_version v, uint32_t actual, size_t len, unsigned number)
{
	static uint8_t codes[2048];
	plan p = { .version = v };
	made m = make_game(&p);
	m.in.game.codes_given = 1;
	m.in.game.actual_size = actual;
	m.in.codes = (slp_bytes){ codes, len };
	CHECK_EQ(answer(&m, ROOM), number);
	m.in.game.codes_given = 0;
	CHECK_EQ(answer(&m, ROOM), 0);
	unmake(&m);
}

static void codes(void)
{
	const slp_version v = { 3, 3, 0 };
	check_codes(v, 0, 0, 0);
	check_codes(v, 1, 512, 0);
	check_codes(v, 512, 512, 0);
	check_codes(v, 513, 1024, 0);
	check_codes(v, 512, 1024, 10);
	check_codes(v, 0, 512, 10);
	check_codes(v, 513, 512, 10);
	check_codes(v, 513, 513, 10);
	check_codes(v, UINT32_MAX, 0, 10);
	check_codes(v, UINT32_MAX - 510, 0, 10);
	check_codes((slp_version){ 3, 2, 255 }, 0, 0, 10);
	check_codes((slp_version){ 0, 1, 0 }, 512, 512, 10);
}

static void ends(void)
{
	plan p = { .version = { 2, 0, 0 }, .end = 1 };
	made m = make_game(&p);
	slp_game *g = &m.in.game;
	for (unsigned i = 0; i < 256; i += light && i > 5 ? 31 : 1) {
		g->end.initiator = (uint8_t)i;
		g->frames.version = (slp_version){ 2, 0, 0 };
		CHECK_EQ(answer(&m, ROOM), i <= 3 || i == 255 ? 0 : 11);
		g->frames.version = (slp_version){ 1, 5, 0 };
		CHECK_EQ(answer(&m, ROOM), 0);
	}
	g->double_end = 1;
	CHECK_EQ(answer(&m, ROOM), 0);
	g->end.given = 0;
	CHECK_EQ(answer(&m, ROOM), 11);
	unmake(&m);
}

static void short_outputs(void)
{
	plan p = { .version = { 0, 1, 0 } };
	made m = make_game(&p);
	for (size_t room = 0; room < 351; room += light ? 25 : 1)
		CHECK_EQ(answer(&m, room), 12);
	CHECK_EQ(answer(&m, 351), 0);
	unmake(&m);
}

/* ---- 13, and the order of the masks' refusals */

static unsigned mask_answer(const uint32_t *ids, size_t n, size_t mask_len, size_t scratch_len)
{
	static uint8_t mask[64], scratch[1048576];
	return guarded_rollbacks(ids, n, SLP_EXCEPT_LAST, mask, mask_len, scratch, scratch_len);
}

static void masks(void)
{
	static const uint32_t outside[] = { (uint32_t)-124, (uint32_t)-125, 1048453, 0x7fffffff, 0x80000000 };
	uint32_t ids[3] = { 0, (uint32_t)-123, 5 };
	CHECK_EQ(mask_answer(NULL, 0, 0, 0), 0);
	CHECK_EQ(mask_answer(ids, 3, 3, 129), 0);
	CHECK_EQ(mask_answer(ids, 3, 2, 129), 12);
	CHECK_EQ(mask_answer(ids, 3, 3, 128), 12);
	CHECK_EQ(mask_answer(ids, 3, 3, 0), 12);
	for (size_t i = 0; i < sizeof outside / sizeof *outside; i++) {
		ids[1] = outside[i];
		CHECK_EQ(mask_answer(ids, 3, 3, 129), 13);
		CHECK_EQ(mask_answer(ids, 3, 3, 0), 13);
		CHECK_EQ(mask_answer(ids, 3, 2, 129), 12);
	}
	ids[1] = 1048452;
	CHECK_EQ(mask_answer(ids, 3, 3, 1048576), 0);
	CHECK_EQ(mask_answer(ids, 3, 3, 1048575), 12);
}

/* ---- 14 to 17 */

static void check_walk(const uint8_t *file, size_t len, unsigned number, size_t offset)
{
	slp_walked w = guarded_walk(file, len);
	CHECK_EQ(w.refused, number);
	CHECK_EQ(w.offset, offset);
	CHECK(!number || (w.whole | w.events | w.stray | w.place) == 0);
}

static void check_step(const uint8_t *file, size_t len, size_t place, unsigned number, size_t offset)
{
	slp_step s = guarded_step(file, len, place);
	CHECK_EQ(s.kind, SLP_STEP_REFUSED);
	CHECK_EQ(s.refused, number);
	CHECK_EQ(s.offset, offset);
	CHECK((s.code | s.at | s.payload | s.len | s.next) == 0);
}

static void check_refused(const uint8_t *file, size_t len, unsigned number, size_t offset)
{
	check_walk(file, len, number, offset);
	check_step(file, len, 26, number, offset);
}

/* A table of two codes, then events at 23 and 26; declared to 26 bytes in all. */
static const uint8_t SMALL[28] = { 0x7b, 0x55, 0x03, 0x72, 0x61, 0x77, 0x5b, 0x24, 0x55, 0x23, 0x6c, 0, 0, 0, 13,
                                   0x35, 7, 0x36, 0, 2, 0x39, 0, 1, 0x36, 1, 1, 0x39, 7 };

static void change(uint8_t file[28], size_t at, uint8_t to)
{
	memcpy(file, SMALL, 28);
	file[at] = to;
}

static void heads(void)
{
	uint8_t f[28];
	check_walk(SMALL, 28, 0, 0);
	for (size_t len = 0; len < 28; len++)
		check_walk(SMALL, len, len < 15 ? 14 : len < 23 ? 15 : 0, len >= 15 && len < 23 ? 15 : 0);
	for (size_t at = 0; at < 11; at++)
		check_refused((change(f, at, 0), f), 28, 14, 0);
	check_refused(NULL, 0, 14, 0);
	check_refused((change(f, 15, 0x36), f), 28, 15, 15);
	for (unsigned size = 0; size < 256; size++)
		check_walk((change(f, 16, (uint8_t)size), f), 28, size == 7 ? 0 : size == 1 || size == 4 ? 16 : 15,
		           size == 7 ? 0 : size == 1 || size == 4 ? 16 + size : 15);
	check_refused((change(f, 20, 0x36), f), 28, 15, 15);
	for (uint8_t declared = 1; declared < 8; declared++)
		check_refused((change(f, 14, declared), f), 28, 15, 15);
}

static void check_unfilled(const uint8_t *file, size_t len, size_t events, size_t place)
{
	slp_walked w = guarded_walk(file, len);
	CHECK_EQ(w.refused, 0);
	CHECK_EQ(w.whole, 0);
	CHECK_EQ(w.events, events);
	CHECK_EQ(w.place, place);
	CHECK_EQ(w.stray, len - place);
	slp_step s = guarded_step(file, len, place);
	CHECK_EQ(s.kind, SLP_STEP_CUT);
	check_step(file, len, len + 1, 17, len + 1);
	check_step(file, len, 22, 17, 22);
}

/* A length of zero: events to the file's end, never whole; a table that is cut or damaged, and a code that it lacks, are refused as ever. */
static void unfilled(void)
{
	uint8_t f[28];
	change(f, 14, 0);
	for (size_t len = 0; len < 23; len++)
		check_refused(f, len, len < 15 ? 14 : 15, len < 15 ? 0 : 15);
	for (size_t len = 23; len <= 28; len++)
		check_unfilled(f, len, len >= 28 ? 2 : len >= 26 ? 1 : 0, len >= 28 ? 28 : len >= 26 ? 26 : 23);
	f[22] = 2;
	check_unfilled(f, 28, 1, 26);
	f[26] = 0x40;
	check_walk(f, 28, 16, 26);
	check_walk(f, 27, 16, 26);
	check_unfilled(f, 26, 1, 26);
	f[20] = 0x36;
	check_refused(f, 28, 15, 15);
	for (size_t at = 11; at < 15; at++) {
		change(f, 14, 0);
		f[at] = 1;
		if (at == 14)
			check_refused(f, 28, 15, 15);
		else
			check_unfilled(f, 28, 2, 28);
	}
}

static void events(void)
{
	uint8_t f[28];
	check_walk((change(f, 23, 0x40), f), 28, 16, 23);
	check_walk((change(f, 23, 0x40), f), 24, 16, 23);
	check_walk((change(f, 26, 0x40), f), 28, 16, 26);
	check_step(f, 28, 26, 16, 26);
	check_walk((change(f, 14, 12), f), 28, 17, 26);
	check_step(f, 28, 26, 17, 26);
	check_walk((change(f, 22, 2), f), 28, 17, 26);
	check_walk((change(f, 14, 100), f), 28, 0, 0);
	f[26] = 0x40;
	for (size_t place = 0; place < 23; place++)
		check_step(f, 28, place, 17, place);
	check_step(f, 28, 29, 17, 29);
	check_step(f, 28, SIZE_MAX, 17, SIZE_MAX);
	check_step(SMALL, 0, SIZE_MAX, 14, 0);
	check_step(SMALL, 20, SIZE_MAX, 15, 15);
}

/* Two faults of a file: the lower number is given. */
static void reader_order(void)
{
	uint8_t f[28];
	change(f, 0, 0);
	f[15] = f[23] = 0;
	check_refused(f, 28, 14, 0);
	change(f, 15, 0);
	f[23] = 0;
	check_refused(f, 28, 15, 15);
	change(f, 23, 0x40);
	f[14] = 9;
	check_walk(f, 28, 16, 23);
}

int main(int argc, char **argv)
{
	begin("refusals", argc, argv);
	test("every pair of faults", every_pair);
	test("every set of faults", every_set);
	test("1: versions", versions);
	test("2: counts", counts);
	test("2: metadata", metadata);
	test("3: store lengths", store_lengths);
	test("4: widths", widths);
	test("4: absent players", absent_players);
	test("5: offsets", offsets);
	test("5: families that the version lacks", lacking_families);
	test("6: presence", presence);
	test("7: ports", ports);
	test("8: blocks", blocks);
	test("9: marks", marks);
	test("9: texts", texts);
	test("9: zeros inside a text", zeros_inside);
	test("9: players", players);
	test("10: codes", codes);
	test("11: ends", ends);
	test("12: short outputs", short_outputs);
	test("12 and 13: masks", masks);
	test("14 and 15: heads", heads);
	test("15: a length never filled in", unfilled);
	test("16 and 17: events", events);
	test("14 to 17: the lowest", reader_order);
	return finish();
}
