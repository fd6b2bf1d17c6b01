/* Rows: every row of many games, refusals and their order, and floats that are no numbers. */
#include <stdlib.h>
#include <string.h>

#include "check.h"
#include "columns.h"
#include "damage.h"
#include "made.h"
#include "model.h"

static size_t met[16];

/* A call's answer is the model's, whatever the input. */
static void check_row(const input *in, row_kind kind, size_t slot, size_t index)
{
	unsigned want = model_row_refusal(in, kind, slot, index);
	flat f = guarded_row(in, kind, slot, index);
	met[want]++;
	CHECK_EQ(f.refused, want);
	if (want) {
		CHECK(flat_is_zero(&f));
		return;
	}
	values v = model_row(in, kind, slot, index);
	CHECK(flat_is(&f, v.values, v.n));
	CHECK(flat_marked(&f, v.marks, v.n_marks));
}

/* All rows that there are, and one more. */
static void check_rows(const input *in, row_kind kind)
{
	const slp_frames *f = &in->game.frames;
	size_t slots = kind == PRE_ROW || kind == POST_ROW ? slots_of(f) : 0;
	for (size_t slot = 0; slot <= slots; slot++)
		for (size_t index = 0; index <= row_count(f, kind); index++)
			check_row(in, kind, slot, index);
}

static void check_all(const input *in)
{
	for (row_kind kind = FRAME_ROW; kind < ROW_KINDS; kind++)
		check_rows(in, kind);
}

static void games(void)
{
	for (size_t n = rounds(200, 3); n; n--) {
		plan p = random_plan(12);
		made m = make_game(&p);
		check_all(&m.in);
		unmake(&m);
	}
}

/* One game at every version that there is. */
static void versions(void)
{
	static const uint8_t minors[4] = { 3, 6, 3, 19 };
	for (uint8_t major = 0; major < 4; major++)
		for (uint8_t minor = 0; minor < minors[major]; minor++) {
			plan p = rich_plan();
			p.version = (slp_version){ major, minor, 0 };
			p.frames = light ? 1 : 3;
			made m = make_game(&p);
			check_all(&m.in);
			unmake(&m);
		}
}

/* The sizes that the answers should have, told by columns. */
static void sizes(void)
{
	static const size_t columns[ROW_KINDS] = { 0, 19, 32, 16, 2, 1, 2 };
	plan p = rich_plan();
	made m = make_game(&p);
	for (row_kind kind = PRE_ROW; kind < ROW_KINDS; kind++) {
		flat f = guarded_row(&m.in, kind, 0, 0);
		CHECK_EQ(f.refused, 0);
		CHECK_EQ(f.n, columns[kind]);
	}
	flat f = guarded_row(&m.in, FRAME_ROW, 0, 0);
	CHECK_EQ(f.n, 2 + 3 * 2 + 5 * (19 + 32) + 3 + 8);
	unmake(&m);
}

/* ---- refusals */

static void fault(made *m, unsigned number, size_t *index)
{
	if (number <= 7)
		fault_frames(m, number);
	else
		*index = SIZE_MAX;
}

/* The faults of a set, bit n - 1 for number n and bit 7 for 13. */
static void check_set(unsigned set)
{
	plan p = rich_plan();
	made m = make_game(&p);
	size_t index = 0;
	unsigned lowest = 0;
	for (unsigned n = 8; n >= 1; n--)
		if (set >> (n - 1) & 1) {
			fault(&m, n, &index);
			lowest = n == 8 ? 13 : n;
		}
	for (row_kind kind = FRAME_ROW; kind < ROW_KINDS; kind++) {
		flat f = guarded_row(&m.in, kind, 0, index);
		CHECK_EQ(f.refused, lowest);
		CHECK(!lowest || flat_is_zero(&f));
	}
	unmake(&m);
}

static void every_set(void)
{
	for (unsigned set = 0; set < 256; set += light ? 11 : 1)
		check_set(set);
}

/* Places that are far away. */
static void far_places(void)
{
	plan p = rich_plan();
	made m = make_game(&p);
	for (row_kind kind = FRAME_ROW; kind < ROW_KINDS; kind++)
		for (size_t i = 0; i < FAR_NUMBERS; i++) {
			check_row(&m.in, kind, 0, far_numbers[i]);
			check_row(&m.in, kind, far_numbers[i], 0);
			check_row(&m.in, kind, far_numbers[i], far_numbers[i]);
		}
	m.in.game.frames.port_count = SIZE_MAX;
	check_row(&m.in, FRAME_ROW, 0, 0);
	unmake(&m);
}

/* No codes, metadata, start or end matter. */
static void only_frames(void)
{
	plan p = rich_plan();
	made m = make_game(&p);
	m.in.game.start.seats[0].kind = 9;
	m.in.game.end.initiator = 77;
	m.in.game.actual_size = 1;
	m.in.block.len = 0;
	check_all(&m.in);
	unmake(&m);
}

static void damaged(void)
{
	memset(met, 0, sizeof met);
	for (size_t n = rounds(8000, 60); n; n--) {
		plan p = random_plan(9);
		made m = make_game(&p);
		for (size_t k = 1 + below(2); k; k--)
			damage(&m);
		row_kind kind = (row_kind)below(ROW_KINDS);
		check_row(&m.in, kind, below(5) ? below(9) : odd_number(8), below(5) ? below(10) : odd_number(9));
		unmake(&m);
	}
	for (unsigned n = 0; n <= 7; n++)
		CHECK(light || met[n] > 20);
	CHECK(light || met[13] > 20);
}

/* ---- what a cell can be */

/* Players who are absent have the same values, and say that they are absent. */
static void absent_players(void)
{
	plan p = rich_plan();
	p.presence = 0;
	made m = make_game(&p);
	slp_frames *f = &m.in.game.frames;
	flat before = guarded_row(&m.in, FRAME_ROW, 0, 4);
	f->ports[0].leader_presence = 2;
	m.in.stores.presence.len = 2;
	memset(m.presence, 0, 2);
	flat after = guarded_row(&m.in, FRAME_ROW, 0, 4);
	CHECK_EQ(after.refused, 0);
	CHECK(flat_is(&after, before.cells, before.n));
	CHECK(before.marks[0] == 1 && after.marks[0] == 0);
	CHECK(after.n_marks == before.n_marks && memcmp(after.marks + 1, before.marks + 1, before.n_marks - 1) == 0);
	m.presence[0] = 1u << 4;
	CHECK_EQ(guarded_row(&m.in, FRAME_ROW, 0, 4).marks[0], 1);
	CHECK_EQ(guarded_row(&m.in, PRE_ROW, 0, 4).marks[0], 1);
	CHECK_EQ(guarded_row(&m.in, PRE_ROW, 0, 5).marks[0], 0);
	check_all(&m.in);
	unmake(&m);
}

/* Floats that are no numbers, infinite, denormal and negative zero. */
static void odd_floats(void)
{
	static const uint32_t odd[] = { 0x7fc00000, 0x7fc00001, 0x7f800001, 0xffc00000, 0xff800001, 0xffffffff, 0x7f800000,
	                                0xff800000, 0x80000000, 0x00000001, 0x807fffff, 0x7f7fffff };
	plan p = rich_plan();
	p.frames = 2;
	made m = make_game(&p);
	for (size_t i = 0; i < sizeof odd / sizeof *odd; i++) {
		for (size_t k = 1; k < 9; k++)
			for (size_t c = 0; c < cell_store(&m.in.stores, k)->len; c++)
				if (m.cells[k][c] > 0xffff)
					m.cells[k][c] = odd[i];
		check_all(&m.in);
		flat f = guarded_row(&m.in, PRE_ROW, 0, 0);
		CHECK_EQ(f.cells[2], m.cells[2][4]);
		/* in the field every NaN is the one pattern, and every other number is its cell */
		uint32_t bits;
		m.cells[2][SLP_PRE_POSITION_X * 2] = odd[i];
		slp_pre_answer a = slp_pre_row(m.in.game.frames, SLP_STORES(&m.in.stores), 0, 0);
		memcpy(&bits, &a.row.position.x, sizeof bits);
		CHECK_EQ(bits, odd[i] % 0x80000000 > 0x7f800000 ? 0x7fc00000 : odd[i]);
		CHECK_EQ(a.row.bits[SLP_PRE_POSITION_X], odd[i]);
	}
	unmake(&m);
}

/* Signed fields of one and four bytes. */
static void signed_fields(void)
{
	plan p = rich_plan();
	made m = make_game(&p);
	const slp_frames *f = &m.in.game.frames;
	const slp_stores *s = &m.in.stores;
	m.cells[2][14 * 9] = 0x80;
	m.cells[5][14 * 5] = 0xff;
	m.cells[4][0] = (uint32_t)-123;
	m.cells[0][0] = 0x80000000;
	slp_pre_answer pre = slp_pre_row(*f, SLP_STORES(s), 0, 0);
	slp_item_answer item = slp_item_row(*f, SLP_STORES(s), 0);
	slp_frame_answer frame = slp_frame_row(*f, SLP_STORES(s), 0);
	CHECK(pre.row.raw_analog_x == -128);
	CHECK(item.row.owner == -1);
	CHECK(frame.row.end.latest_finalized_frame == -123);
	CHECK(frame.row.id == INT32_MIN);
	CHECK(frame.row.ports[0].leader.pre.raw_analog_x == -128);
	unmake(&m);
}

int main(int argc, char **argv)
{
	begin("rows", argc, argv);
	test("games", games);
	test("versions", versions);
	test("sizes", sizes);
	test("every set of faults", every_set);
	test("far places", far_places);
	test("only frames", only_frames);
	test("damaged games", damaged);
	test("absent players", absent_players);
	test("odd floats", odd_floats);
	test("signed fields", signed_fields);
	return finish();
}
