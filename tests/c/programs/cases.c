/* The twelve numbers to hold, and worked tails of match ids, through the library. */
#include <stdlib.h>
#include <string.h>

#include "check.h"
#include "made.h"

enum { ROOM = 100000 };

static uint8_t out[ROOM];

static slp_written write_plan(plan p)
{
	made m = make_game(&p);
	memset(out, 0xee, sizeof out);
	slp_written w = guarded_write(&m.in, out, sizeof out);
	unmake(&m);
	return w;
}

static plan smallest(void)
{
	return (plan){ .version = { 0, 1, 0 } };
}

static size_t length_field(void)
{
	return (size_t)out[11] << 24 | (size_t)out[12] << 16 | (size_t)out[13] << 8 | out[14];
}

static void check_cut(size_t at, size_t events, size_t stray, int whole)
{
	CHECK_EQ(write_plan(smallest()).len, 351);
	slp_walked w = guarded_walk(out, at);
	CHECK_EQ(w.refused, 0);
	CHECK_EQ(w.offset, 0);
	CHECK_EQ(w.events, events);
	CHECK_EQ(w.stray, stray);
	CHECK_EQ(w.whole, whole);
}

static void case_1(void)
{
	slp_written w = write_plan(smallest());
	CHECK_EQ(w.refused, 0);
	CHECK_EQ(w.len, 351);
	CHECK_EQ(length_field(), 335);
	CHECK_EQ(out[350], 0x7d);
}

static void case_2(void)
{
	write_plan(smallest());
	slp_walked w = guarded_walk(out, 28);
	CHECK_EQ(w.refused, 15);
	CHECK_EQ(w.offset, 15);
}

static void case_3(void)
{
	check_cut(29, 0, 0, 0);
}

static void case_4(void)
{
	check_cut(349, 0, 320, 0);
}

static void case_5(void)
{
	check_cut(350, 1, 0, 1);
}

static void check_zeroed(size_t at, unsigned refused, size_t offset, size_t events, size_t stray)
{
	CHECK_EQ(write_plan(smallest()).len, 351);
	memset(out + 11, 0, 4);
	slp_walked w = guarded_walk(out, at);
	CHECK_EQ(w.refused, refused);
	CHECK_EQ(w.offset, offset);
	CHECK_EQ(w.events, events);
	CHECK_EQ(w.stray, stray);
	CHECK_EQ(w.whole, 0);
}

/* Case 1's file with a length that was never filled in: cases 2 to 5 again, always cut, and its tail's byte judged as an event. */
static void unfilled(void)
{
	check_zeroed(28, 15, 15, 0, 0);
	check_zeroed(29, 0, 0, 0, 0);
	check_zeroed(349, 0, 0, 0, 320);
	check_zeroed(350, 0, 0, 1, 0);
	check_zeroed(351, 16, 350, 0, 0);
}

static void check_coded(int codes, uint32_t actual, size_t len)
{
	plan p = one_frame_plan();
	p.codes = codes;
	p.actual_size = actual;
	slp_written w = write_plan(p);
	CHECK_EQ(w.refused, 0);
	CHECK_EQ(w.len, len + 16);
	CHECK_EQ(length_field(), len);
}

static void case_6(void)
{
	check_coded(0, 0, 974);
	CHECK_EQ(out[16], 31);
}

/* Where the b-th code block stands: after head, table and GameStart. */
static const uint8_t *code_block(size_t b)
{
	return out + 15 + 38 + 761 + 517 * b;
}

static void check_block(size_t b, size_t used, int last)
{
	const uint8_t *p = code_block(b);
	CHECK_EQ(p[0], SLP_EVENT_MESSAGE_SPLITTER);
	CHECK_EQ(p[513] * 256 + p[514], used);
	CHECK_EQ(p[515], SLP_EVENT_GECKO_CODES);
	CHECK_EQ(p[516], last);
}

static void case_7(void)
{
	check_coded(1, 513, 2014);
	check_block(0, 512, 0);
	check_block(1, 1, 1);
	CHECK_EQ(code_block(2)[0], SLP_EVENT_FRAME_START);
}

static void case_8(void)
{
	check_coded(1, 512, 974 + 6 + 517);
	check_block(0, 512, 1);
	CHECK_EQ(code_block(1)[0], SLP_EVENT_FRAME_START);
}

/* The declared size of the cheat codes stands in the table's eighth entry. */
static void case_9(void)
{
	check_coded(1, 65536, 974 + 6 + 128 * 517);
	CHECK_EQ(out[17 + 3 * 7], SLP_EVENT_GECKO_CODES);
	CHECK_EQ(out[18 + 3 * 7] * 256 + out[19 + 3 * 7], 0);
	for (size_t b = 0; b < 128; b++)
		check_block(b, 512, b == 127);
	CHECK_EQ(code_block(128)[0], SLP_EVENT_FRAME_START);
}

static void case_10(void)
{
	const uint32_t ids[4] = { (uint32_t)-123, (uint32_t)-122, (uint32_t)-122, (uint32_t)-121 };
	uint8_t mask[4] = { 9, 9, 9, 9 }, scratch[4] = { 9, 9, 9, 9 };
	CHECK_EQ(guarded_rollbacks(ids, 4, SLP_EXCEPT_FIRST, mask, 4, scratch, 4), 0);
	CHECK(memcmp(mask, (uint8_t[]){ 0, 0, 1, 0 }, 4) == 0);
	CHECK(memcmp(scratch, (uint8_t[]){ 1, 1, 1, 9 }, 4) == 0);
	CHECK_EQ(guarded_rollbacks(ids, 4, SLP_EXCEPT_LAST, mask, 4, scratch, 4), 0);
	CHECK(memcmp(mask, (uint8_t[]){ 0, 1, 0, 0 }, 4) == 0);
}

static void case_11(void)
{
	plan p = one_frame_plan();
	CHECK_EQ(write_plan(p).refused, 0);
	p.version.patch = 1;
	CHECK_EQ(write_plan(p).refused, 1);
	p.version = (slp_version){ 2, 255, 255 };
	CHECK_EQ(write_plan(p).refused, 0);
}

static void case_12(void)
{
	plan p = smallest();
	made m = make_game(&p);
	m.in.block.len = 319;
	CHECK_EQ(guarded_write(&m.in, out, sizeof out).refused, 8);
	unmake(&m);
}

/* The 51 bytes of the match id, for an id of so many bytes in a block of 0xaa. */
static void check_tail(uint8_t tail, size_t len)
{
	plan p = one_frame_plan();
	made m = make_game(&p);
	slp_match *match = &m.in.game.start.match_info;
	memset(m.block, 0xaa, m.in.block.len);
	memset(match->id.bytes, 'a', sizeof match->id.bytes);
	match->id.len = len;
	match->tail = tail;
	memset(out, 0xee, sizeof out);
	slp_written w = guarded_write(&m.in, out, sizeof out);
	CHECK_EQ(w.refused, 0);
	CHECK_EQ(w.len, 990);
	const uint8_t *block = out + slp_first_place(out, w.len) + 1;
	for (size_t i = 0; i < 51; i++)
		CHECK_EQ(block[701 + i], i < len ? 'a' : i == len || tail == SLP_TAIL_CLEARED ? 0 : 0xaa);
	CHECK_EQ(block[700], m.in.game.start.language.value);
	CHECK_EQ(block[752], match->game >> 24);
	unmake(&m);
}

static void tails(void)
{
	static const size_t lens[] = { 0, 1, 2, 25, 48, 49, 50 };
	for (size_t i = 0; i < sizeof lens / sizeof *lens; i++) {
		check_tail(SLP_TAIL_CLEARED, lens[i]);
		check_tail(SLP_TAIL_KEPT, lens[i]);
		check_tail(2, lens[i]);
		check_tail(255, lens[i]);
	}
}

int main(int argc, char **argv)
{
	begin("cases", argc, argv);
	test("case 1", case_1);
	test("case 2", case_2);
	test("case 3", case_3);
	test("case 4", case_4);
	test("case 5", case_5);
	test("case 6", case_6);
	test("case 7", case_7);
	test("case 8", case_8);
	test("case 9", case_9);
	test("case 10", case_10);
	test("case 11", case_11);
	test("case 12", case_12);
	test("case 1, unfilled", unfilled);
	test("match id tails", tails);
	return finish();
}
