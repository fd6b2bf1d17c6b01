/* What one would write in C without any check but those for the file's end: a walk by an index of sizes, a mask, and cells of records. */
#include <stddef.h>
#include <stdint.h>
#include <string.h>

/* How many events stand in the event data of a whole file. */
size_t plain_walk(const uint8_t *file, size_t len)
{
	uint32_t span[256] = { 0 };
	size_t entries = (size_t)file[16] / 3, place = 17 + 3 * entries, events = 0;
	size_t stop = 15 + ((size_t)file[11] << 24 | (size_t)file[12] << 16 | (size_t)file[13] << 8 | file[14]);

	for (size_t i = 0; i < entries; i++)
		span[file[17 + 3 * i]] = 1 + (file[18 + 3 * i] << 8 | file[19 + 3 * i]);
	if (len < stop)
		stop = len;
	while (place < stop && span[file[place]] != 0 && span[file[place]] <= stop - place) {
		place += span[file[place]];
		events++;
	}
	return events;
}

/* 0 at an id's first frame. */
void plain_mask(const uint32_t *ids, size_t frames, uint8_t *mask, uint8_t *scratch, size_t scratch_len)
{
	memset(scratch, 0, scratch_len);
	for (size_t i = 0; i < frames; i++) {
		uint32_t place = ids[i] + 123;
		mask[i] = scratch[place];
		scratch[place] = 1;
	}
}

/* A family's cells as they are filled: widths of its columns, rows, where its first cell stands behind the code byte, and the row that comes next. */
typedef struct {
	const uint8_t *widths;
	size_t columns, rows, at;
	uint32_t *cells;
	size_t next;
} family;

static void put(const family *f, const uint8_t *record, size_t block, size_t row)
{
	const uint8_t *at = record + f->at;
	uint32_t *cell = f->cells + block * f->columns * f->rows + row;

	for (size_t c = 0; c < f->columns; c++, cell += f->rows) {
		switch (f->widths[c]) {
		case 1: *cell = at[0]; break;
		case 2: *cell = (uint32_t)at[0] << 8 | at[1]; break;
		default: *cell = (uint32_t)at[0] << 24 | (uint32_t)at[1] << 16 | (uint32_t)at[2] << 8 | at[3];
		}
		at += f->widths[c];
	}
}

/* The cells of a whole file whose players are ports 0 and up, always there: records by their codes less 0x37 (Pre, Post, none, start, item, end).
 * A frame begins with its start, or, where there is none, with a Pre of port 0. Answers the frames. */
size_t plain_read(const uint8_t *file, size_t len, family *families, uint32_t *ids)
{
	uint32_t span[256] = { 0 };
	size_t entries = (size_t)file[16] / 3, place = 17 + 3 * entries, frames = 0;
	size_t stop = 15 + ((size_t)file[11] << 24 | (size_t)file[12] << 16 | (size_t)file[13] << 8 | file[14]);

	for (size_t i = 0; i < entries; i++)
		span[file[17 + 3 * i]] = 1 + (file[18 + 3 * i] << 8 | file[19 + 3 * i]);
	if (len < stop)
		stop = len;
	while (place < stop && span[file[place]] != 0 && span[file[place]] <= stop - place) {
		const uint8_t *record = file + place;
		unsigned kind = record[0] - 0x37u;
		if (kind == 3 || (span[0x3a] == 0 && kind == 0 && record[5] == 0))
			ids[frames++] = (uint32_t)record[1] << 24 | (uint32_t)record[2] << 16 | (uint32_t)record[3] << 8 | record[4];
		if (kind <= 1)
			put(&families[kind], record, record[5], frames - 1);
		else if (kind == 4)
			put(&families[kind], record, 0, families[kind].next++);
		else if (kind == 3 || kind == 5)
			put(&families[kind], record, 0, frames - 1);
		place += span[record[0]];
	}
	return frames;
}
