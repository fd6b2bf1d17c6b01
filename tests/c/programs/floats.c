/* Floats as the tool shows them: of a million bit patterns, from all over the numbers, each text reads back as the same float, and no shorter
 * decimal does. */
#include <ctype.h>
#include <stdio.h>
#include <stdlib.h>
#include <string.h>

#include "../../../tools/shortest.h"
#include "check.h"

static float float_of(uint32_t bits)
{
	float value;
	memcpy(&value, &bits, sizeof value);
	return value;
}

static uint32_t read_back(const char *text)
{
	float value = strtof(text, NULL);
	uint32_t bits;
	memcpy(&bits, &value, sizeof bits);
	return bits;
}

/* How many digits count: without zeros before and behind them, and without the exponent. */
static int digits_of(const char *text)
{
	int count = 0, zeros = 0;
	for (; *text && *text != 'e'; text++)
		if (isdigit((unsigned char)*text)) {
			zeros = *text == '0' ? zeros + 1 : 0;
			count += count > 0 || *text != '0';
		}
	return count > zeros ? count - zeros : count;
}

/* With a digit less it is another float; or, of a whole number, which has all its digits, a longer text. */
static int is_shortest(uint32_t bits, const char *text)
{
	char less[64];
	int digits = digits_of(text);
	if (digits < 2)
		return 1;
	snprintf(less, sizeof less, "%.*e", digits - 2, (double)float_of(bits));
	return read_back(less) != bits || (!strpbrk(text, ".e") && strlen(less) >= strlen(text));
}

static void check_float(uint32_t bits)
{
	char text[SHORTEST_ROOM + 1];
	size_t len = shortest(bits, text);
	CHECK(len < SHORTEST_ROOM);
	text[len] = 0;
	if ((bits & 0x7fffffff) > 0x7f800000) {
		CHECK(strcmp(text, "nan") == 0);
		return;
	}
	CHECK_EQ(read_back(text), bits);
	CHECK(is_shortest(bits, text));
}

static void known_texts(void)
{
	static const struct {
		uint32_t bits;
		const char *text;
	} known[] = {
		{ 0x00000000, "0" }, { 0x80000000, "-0" }, { 0x00000001, "1e-45" }, { 0x00000002, "3e-45" }, { 0x007fffff, "1.1754942e-38" },
		{ 0x00800000, "1.1754944e-38" }, { 0x3dcccccd, "0.1" }, { 0x3f800000, "1" }, { 0xc2200000, "-40" }, { 0x4b800000, "16777216" },
		{ 0x7f7fffff, "3.4028235e+38" }, { 0x7f800000, "inf" }, { 0xff800000, "-inf" }, { 0x7fc00000, "nan" }, { 0xffc00000, "nan" },
	};
	for (size_t i = 0; i < sizeof known / sizeof *known; i++) {
		char text[SHORTEST_ROOM];
		size_t len = shortest(known[i].bits, text);
		CHECK(len == strlen(known[i].text) && memcmp(text, known[i].text, len) == 0);
	}
}

/* Evenly over all patterns; and those round each power of two, the subnormals' ends among them. */
static void patterns(void)
{
	uint32_t count = (uint32_t)rounds(1000000, 10000), step = UINT32_MAX / count | 1;
	for (uint32_t i = 0; i < count; i++)
		check_float(i * step);
	for (uint32_t bit = 0; bit < 32; bit++)
		for (uint32_t d = 0; d < 3; d++)
			check_float((1u << bit) + d - 1);
}

int main(int argc, char **argv)
{
	begin("floats", argc, argv);
	test("known texts", known_texts);
	test("patterns", patterns);
	return finish();
}
