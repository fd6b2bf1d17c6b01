/* Jumps to a frame of a replay through an index, and steps through its events.
 *
 *     cc -std=c11 jump.c $(pkg-config --cflags --libs slp) -o jump && ./jump game.slp 100
 */
#include <slp.h>
#include <stdio.h>
#include <stdlib.h>

/* All of a file, in memory that the caller frees; NULL if it cannot be read. */
static uint8_t *contents(const char *path, size_t *len)
{
	FILE *f = fopen(path, "rb");
	uint8_t *all = NULL;
	long size = 0;
	if (f && fseek(f, 0, SEEK_END) == 0 && (size = ftell(f)) >= 0 && fseek(f, 0, SEEK_SET) == 0)
		all = malloc((size_t)size + 1);
	if (all)
		*len = fread(all, 1, (size_t)size, f);
	if (f)
		fclose(f);
	return all;
}

/* The events of the frame whose FrameStart stands at a place, up to the next one's. */
static void show_frame(const uint8_t *file, size_t len, size_t place)
{
	slp_step s = slp_step_at(file, len, place);
	do {
		printf("%02x at %zu\n", s.code, s.at);
		s = slp_step_at(file, len, s.next);
	} while (s.kind == SLP_STEP_EVENT && s.code != SLP_EVENT_FRAME_START && s.code != SLP_EVENT_GAME_END);
}

int main(int argc, char **argv)
{
	size_t len = 0;
	uint8_t *file = argc == 3 ? contents(argv[1], &len) : NULL;
	if (!file) {
		fprintf(stderr, "usage: jump REPLAY ID\n");
		return 2;
	}
	/* an output of no bytes measures; a program that keeps the index beside the replay does this once */
	size_t need = slp_write_index(file, len, NULL, 0).len;
	uint8_t *index = malloc(need + 1);
	slp_index_written w = slp_write_index(file, len, index, need);
	if (w.refused) {
		printf("refused %u at %zu\n", w.refused, w.offset);
	} else {
		printf("an index of %zu bytes\n", w.len);
		slp_moment m = slp_find_frame(index, w.len, (int32_t)atol(argv[2]));
		if (m.refused) {
			printf("refused %u\n", m.refused);
		} else {
			printf("frame %ld: row %zu\n", (long)m.id, m.row);
			show_frame(file, len, m.offset);
		}
	}
	free(index);
	free(file);
	return w.refused != 0;
}
