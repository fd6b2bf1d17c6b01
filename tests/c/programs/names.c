/* What the library says of each column, against the columns of the format and the rows of slp.h; and the words of refusals. */
#include <stdlib.h>
#include <string.h>

#include "check.h"
#include "columns.h"
#include "flat.h"

/* The families in the order of the header's numbers. */
static const family IN_ORDER[8] = { FRAME_START, PRE, POST, FRAME_END, ITEM, FOD, WHISPY, STADIUM };
static const slp_version NEWEST = { 3, 18, 0 };

/* A text of these characters, and zeros behind it up to the end of its field. */
static int is_text(const char *field, size_t room, const char *characters)
{
	size_t len = strnlen(field, room);
	for (size_t i = len; i < room; i++)
		if (field[i])
			return 0;
	return len > 0 && len < room && strspn(field, characters) == len;
}

static int is_nothing(const slp_column_answer *c)
{
	slp_column_answer none;
	memset(&none, 0, sizeof none);
	none.refused = SLP_OUT_OF_RANGE;
	return memcmp(c, &none, sizeof none) == 0;
}

/* A column has come with a version exactly where the columns of that version reach it. */
static int came_with(family f, size_t n, const slp_column_answer *c)
{
	for (int major = 0; major <= 3; major++)
		for (int minor = 0; minor <= 18; minor++) {
			slp_version v = { (uint8_t)major, (uint8_t)minor, 0 };
			if ((n < columns_of(f, v)) != reaches(v, c->major, c->minor))
				return 0;
		}
	return 1;
}

static void columns(void)
{
	for (uint8_t number = 0; number < 8; number++) {
		uint8_t widths[MOST_COLUMNS];
		size_t count = widths_of(IN_ORDER[number], NEWEST, widths);
		for (size_t n = 0; n < count; n++) {
			slp_column_answer c = slp_column(number, n);
			CHECK_EQ(c.refused, 0);
			CHECK_EQ(c.width, widths[n]);
			CHECK(came_with(IN_ORDER[number], n, &c));
			CHECK(is_text(c.name, sizeof c.name, "abcdefghijklmnopqrstuvwxyz_0123456789"));
		}
	}
}

/* What is a float in the row's struct, and what has a sign there. */
static void kinds(void)
{
	for (uint8_t number = 0; number < 8; number++) {
		uint32_t cells[MOST_COLUMNS] = { 0 };
		flat row = given_row(number, cells, MOST_COLUMNS, NEWEST, 1);
		for (size_t n = 0; n < columns_of(IN_ORDER[number], NEWEST); n++) {
			slp_column_answer c = slp_column(number, n);
			CHECK_EQ(c.kind == SLP_FLOAT, row.is_float[n]);
			CHECK(c.kind == SLP_FLOAT || c.kind == SLP_UNSIGNED || c.kind == SLP_SIGNED);
		}
	}
	slp_pre pre = { .raw_analog_x = -1, .raw_analog_y = -1, .raw_analog_cstick_x = -1, .raw_analog_cstick_y = -1 };
	CHECK(pre.raw_analog_x < 0 && slp_column(SLP_FAMILY_PRE, SLP_PRE_RAW_ANALOG_X).kind == SLP_SIGNED);
	CHECK(pre.raw_analog_y < 0 && slp_column(SLP_FAMILY_PRE, SLP_PRE_RAW_ANALOG_Y).kind == SLP_SIGNED);
	CHECK(pre.raw_analog_cstick_x < 0 && slp_column(SLP_FAMILY_PRE, SLP_PRE_RAW_ANALOG_CSTICK_X).kind == SLP_SIGNED);
	CHECK(pre.raw_analog_cstick_y < 0 && slp_column(SLP_FAMILY_PRE, SLP_PRE_RAW_ANALOG_CSTICK_Y).kind == SLP_SIGNED);
	CHECK_EQ(slp_column(SLP_FAMILY_ITEM, SLP_ITEM_OWNER).kind, SLP_SIGNED);
	CHECK_EQ(slp_column(SLP_FAMILY_FRAME_END, SLP_FRAME_END_LATEST_FINALIZED_FRAME).kind, SLP_SIGNED);
	CHECK_EQ(slp_column(SLP_FAMILY_PRE, SLP_PRE_BUTTONS).kind, SLP_UNSIGNED);
}

/* Two columns of a family have two names. */
static void different(void)
{
	for (uint8_t number = 0; number < 8; number++)
		for (size_t n = 0; n < columns_of(IN_ORDER[number], NEWEST); n++)
			for (size_t m = 0; m < n; m++)
				CHECK(strcmp(slp_column(number, n).name, slp_column(number, m).name) != 0);
}

/* No other number has a column. */
static void none(void)
{
	for (unsigned number = 0; number < 256; number++) {
		size_t count = number < 8 ? columns_of(IN_ORDER[number], NEWEST) : 0;
		for (size_t n = count; n < count + 300; n++) {
			slp_column_answer c = slp_column((uint8_t)number, n);
			CHECK(is_nothing(&c));
		}
		for (int bit = 6; bit < 64; bit++) {
			slp_column_answer c = slp_column((uint8_t)number, ((size_t)1 << bit) | below(2));
			CHECK(is_nothing(&c));
		}
	}
}

/* Every number has words; those of the refusals are its own. */
static void words(void)
{
	const slp_words unknown = slp_refusal_words(255);
	for (unsigned n = 0; n < 256; n++) {
		slp_words w = slp_refusal_words((uint8_t)n);
		CHECK(is_text(w.text, sizeof w.text, " ',.:-0123456789ABCDEFGHIJKLMNOPQRSTUVWXYZabcdefghijklmnopqrstuvwxyz"));
		CHECK_EQ(strcmp(w.text, unknown.text) == 0, n > SLP_NO_SUCH_ID);
		for (unsigned m = 0; m < n && n <= SLP_NO_SUCH_ID; m++)
			CHECK(strcmp(w.text, slp_refusal_words((uint8_t)m).text) != 0);
	}
	CHECK(strcmp(slp_refusal_words(SLP_NOT_A_REPLAY).text, "not a replay: under 15 bytes, or a wrong signature") == 0);
}

int main(int argc, char **argv)
{
	begin("names", argc, argv);
	test("columns", columns);
	test("kinds", kinds);
	test("different names", different);
	test("no column", none);
	test("words", words);
	return finish();
}
