#include "columns.h"

/* A run of columns of one width that came with one version. */
typedef struct {
	family of;
	uint8_t count, width, major, minor;
} run;

static const run RUNS[] = {
	{ PRE, 1, 4, 0, 0 }, { PRE, 1, 2, 0, 0 }, { PRE, 9, 4, 0, 0 }, { PRE, 1, 2, 0, 0 }, { PRE, 2, 4, 0, 0 }, { PRE, 1, 1, 1, 2 },
	{ PRE, 1, 4, 1, 4 }, { PRE, 1, 1, 3, 15 }, { PRE, 2, 1, 3, 17 },
	{ POST, 1, 1, 0, 0 }, { POST, 1, 2, 0, 0 }, { POST, 5, 4, 0, 0 }, { POST, 4, 1, 0, 0 }, { POST, 1, 4, 0, 2 }, { POST, 5, 1, 2, 0 },
	{ POST, 1, 4, 2, 0 }, { POST, 1, 1, 2, 0 }, { POST, 1, 2, 2, 0 }, { POST, 2, 1, 2, 0 }, { POST, 1, 1, 2, 1 }, { POST, 5, 4, 3, 5 },
	{ POST, 1, 4, 3, 8 }, { POST, 1, 4, 3, 11 }, { POST, 2, 2, 3, 16 },
	{ FRAME_START, 1, 4, 2, 2 }, { FRAME_START, 1, 4, 3, 10 },
	{ ITEM, 1, 2, 3, 0 }, { ITEM, 1, 1, 3, 0 }, { ITEM, 5, 4, 3, 0 }, { ITEM, 1, 2, 3, 0 }, { ITEM, 2, 4, 3, 0 }, { ITEM, 4, 1, 3, 2 },
	{ ITEM, 1, 1, 3, 6 }, { ITEM, 1, 2, 3, 16 },
	{ FRAME_END, 1, 4, 3, 7 },
	{ FOD, 1, 1, 3, 18 }, { FOD, 1, 4, 3, 18 },
	{ WHISPY, 1, 1, 3, 18 },
	{ STADIUM, 2, 2, 3, 18 },
};

int reaches(slp_version v, int major, int minor)
{
	return v.major > major || (v.major == major && v.minor >= minor);
}

int has_family(family f, slp_version v)
{
	static const uint8_t first[FAMILIES][2] = { { 0, 0 }, { 0, 0 }, { 2, 2 }, { 3, 0 }, { 3, 0 }, { 3, 18 }, { 3, 18 }, { 3, 18 } };
	return reaches(v, first[f][0], first[f][1]);
}

size_t widths_of(family f, slp_version v, uint8_t widths[MOST_COLUMNS])
{
	size_t n = 0;
	for (size_t r = 0; r < sizeof RUNS / sizeof *RUNS; r++)
		if (RUNS[r].of == f && reaches(v, RUNS[r].major, RUNS[r].minor))
			for (size_t i = 0; i < RUNS[r].count; i++)
				widths[n++] = RUNS[r].width;
	return n;
}

size_t columns_of(family f, slp_version v)
{
	uint8_t widths[MOST_COLUMNS];
	return widths_of(f, v, widths);
}

size_t bytes_of(family f, slp_version v)
{
	uint8_t widths[MOST_COLUMNS];
	size_t n = widths_of(f, v, widths), sum = 0;
	for (size_t i = 0; i < n; i++)
		sum += widths[i];
	return sum;
}

size_t block_length(slp_version v)
{
	static const uint16_t since[][3] = {
		{ 3, 14, 760 }, { 3, 12, 701 }, { 3, 11, 700 }, { 3, 9, 584 }, { 3, 7, 420 },
		{ 2, 0, 418 }, { 1, 5, 417 }, { 1, 3, 416 }, { 1, 0, 352 },
	};
	for (size_t i = 0; i < sizeof since / sizeof *since; i++)
		if (reaches(v, since[i][0], since[i][1]))
			return since[i][2];
	return 320;
}

uint32_t most(uint8_t width)
{
	return width == 1 ? 0xff : width == 2 ? 0xffff : 0xffffffff;
}
