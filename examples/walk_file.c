/* Walks a replay: its events one by one, then all of it at once.
 *
 *     cc -std=c11 walk_file.c $(pkg-config --cflags --libs slp) -o walk_file && ./walk_file game.slp
 */
#include <slp.h>
#include <stdio.h>
#include <stdlib.h>

/* All of a file, in memory that the caller frees; NULL if it cannot be read. */
static uint8_t *contents(const char *path, size_t *len)
{
	FILE *f = fopen(path, "rb");
	uint8_t *all = NULL;
	long size = 0;
	if (f && fseek(f, 0, SEEK_END) == 0 && (size = ftell(f)) >= 0 && fseek(f, 0, SEEK_SET) == 0)
		all = malloc((size_t)size + 1);
	if (all)
		*len = fread(all, 1, (size_t)size, f);
	if (f)
		fclose(f);
	return all;
}

int main(int argc, char **argv)
{
	size_t len = 0;
	uint8_t *file = argc == 2 ? contents(argv[1], &len) : NULL;
	if (!file) {
		fprintf(stderr, "usage: walk_file REPLAY\n");
		return 2;
	}
	size_t place = slp_first_place(file, len);
	slp_step s;
	while ((s = slp_step_at(file, len, place)).kind == SLP_STEP_EVENT) {
		printf("%02x at %zu, %zu bytes\n", s.code, s.at, s.len);
		place = s.next;
	}
	slp_walked w = slp_walk(file, len);
	if (w.refused)
		printf("refused %u at %zu\n", w.refused, w.offset);
	else
		printf("%zu events, %zu stray bytes, %s\n", w.events, w.stray, w.whole ? "whole" : "cut");
	free(file);
	return w.refused != 0;
}
