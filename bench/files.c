/* Replays on the disk, walked and read as a C program does it: opened, loaded, and given to the library.
 *
 *     files make FRAMES FILE     writes a replay of so many frames, two players and an item in one frame of thirty, random where a replay is free
 *     files walk TIMES FILE..    walks each of them so many times, and says the shortest and the mean time of all of them, in milliseconds
 *     files read TIMES FILE..    the same, read into columns
 */
#include <slp.h>
#include <stdio.h>
#include <stdlib.h>
#include <string.h>
#include <time.h>

#include "check.h"
#include "made.h"

static int fail(const char *path, const char *what)
{
	fprintf(stderr, "files: %s: %s\n", path, what);
	exit(1);
}

static int make(size_t frames, const char *path)
{
	plan p = one_frame_plan();
	p.frames = frames;
	p.items = frames / 30;
	p.ports = 2;
	p.seats = 2;
	made m = make_returning(p);
	size_t room = slp_room(slp_plan_of(&m.in.game, m.in.block.len, m.in.codes.len, m.in.metadata.len)).bytes;
	uint8_t *out = take(room);
	slp_written w = slp_write_game(out, room, &m.in.game, &m.in.stores, m.in.block, m.in.codes, m.in.metadata);
	FILE *file = fopen(path, "wb");
	if (w.refused || !file || fwrite(out, 1, w.len, file) != w.len || fclose(file) != 0)
		return fail(path, "not written");
	free(out);
	unmake(&m);
	return 0;
}

static uint8_t *load(const char *path, size_t *len)
{
	FILE *file = fopen(path, "rb");
	if (!file || fseek(file, 0, SEEK_END) != 0)
		fail(path, "not read");
	*len = (size_t)ftell(file);
	rewind(file);
	uint8_t *bytes = take(*len);
	if (fread(bytes, 1, *len, file) != *len)
		fail(path, "not read");
	fclose(file);
	return bytes;
}

static void walk_one(const char *path)
{
	size_t len;
	uint8_t *file = load(path, &len);
	if (slp_walk(file, len).refused)
		fail(path, "refused");
	free(file);
}

static void read_one(const char *path)
{
	size_t len;
	uint8_t *file = load(path, &len);
	slp_measured m = slp_measure(file, len);
	uint32_t *cells = take(4 * slp_space_cells(&m.lengths) + 1);
	uint8_t *bytes = take(slp_space_bytes(&m.lengths) + 1);
	slp_space space = slp_space_in(&m.lengths, cells, bytes);
	if (m.refused || slp_read_game(file, len, &space).refused)
		fail(path, "refused");
	free(bytes);
	free(cells);
	free(file);
}

static double now(void)
{
	struct timespec t;
	clock_gettime(CLOCK_MONOTONIC, &t);
	return 1e3 * (double)t.tv_sec + 1e-6 * (double)t.tv_nsec;
}

static int each(void (*one)(const char *path), size_t times, char **paths)
{
	double least = 0, sum = 0;
	for (size_t n = 0; n < times; n++) {
		double from = now();
		for (char **path = paths; *path; path++)
			one(*path);
		double took = now() - from;
		least = n == 0 || took < least ? took : least;
		sum += took;
	}
	printf("%.3f %.3f\n", least, sum / (double)times);
	return 0;
}

int main(int argc, char **argv)
{
	if (argc == 4 && strcmp(argv[1], "make") == 0)
		return make(strtoul(argv[2], NULL, 10), argv[3]);
	if (argc > 3 && strcmp(argv[1], "walk") == 0)
		return each(walk_one, strtoul(argv[2], NULL, 10), argv + 3);
	if (argc > 3 && strcmp(argv[1], "read") == 0)
		return each(read_one, strtoul(argv[2], NULL, 10), argv + 3);
	fputs("usage: files make FRAMES FILE | walk TIMES FILE.. | read TIMES FILE..\n", stderr);
	return 2;
}
