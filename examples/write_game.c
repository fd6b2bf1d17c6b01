/* Writes two games: the smallest that there is, and one of the newest version with a frame and a player.
 *
 *     cc -std=c11 write_game.c $(pkg-config --cflags --libs slp) -o write_game && ./write_game game.slp
 */
#include <slp.h>
#include <stdio.h>

/* No frames, no end, at version 0.1.0. */
static slp_written smallest(uint8_t *out, size_t room)
{
	slp_game game = { .frames = { .version = { 0, 1, 0 } } };
	slp_stores stores = { 0 };
	uint8_t block[320] = { 0 };
	slp_bytes none = { NULL, 0 }, start = { block, sizeof block };
	return slp_write_game(out, room, &game, &stores, start, none, none);
}

/* One frame of one player at 3.18.0, and an end. All cells are zero; a real game fills them column by column. */
static slp_written one_frame(uint8_t *out, size_t room)
{
	static const uint32_t cells[SLP_POST_COLUMNS];
	static const uint8_t block[760];
	const uint32_t ids[1] = { (uint32_t)SLP_FIRST_FRAME_ID }, offsets[2] = { 0, 0 };
	slp_game game = {
		.frames = { .version = { 3, 18, 0 }, .counts = { .frames = 1 }, .ports = { { .port = 0 } }, .port_count = 1 },
		.start = { .is_pal = { 1, 0 }, .is_frozen_ps = { 1, 0 }, .scene = { .given = 1 }, .language = { 1, 0 }, .match_info = { .given = 1 } },
		.end = { .given = 1, .method = 2, .initiator = 255 },
	};
	slp_stores stores = {
		.ids = { ids, 1 }, .starts = { cells, SLP_FRAME_START_COLUMNS }, .pres = { cells, SLP_PRE_COLUMNS },
		.posts = { cells, SLP_POST_COLUMNS }, .ends = { cells, SLP_FRAME_END_COLUMNS },
		.item_offsets = { offsets, 2 }, .fod_offsets = { offsets, 2 }, .whispy_offsets = { offsets, 2 }, .stadium_offsets = { offsets, 2 },
	};
	slp_bytes none = { NULL, 0 }, start = { block, sizeof block };
	return slp_write_game(out, room, &game, &stores, start, none, none);
}

int main(int argc, char **argv)
{
	static uint8_t out[1000];
	slp_written w = smallest(out, sizeof out);
	printf("0.1.0: refused %u, %zu bytes\n", w.refused, w.len);
	w = one_frame(out, sizeof out);
	printf("3.18.0: refused %u, %zu bytes\n", w.refused, w.len);
	if (argc < 2)
		return w.refused != 0;
	FILE *f = fopen(argv[1], "wb");
	if (!f || fwrite(out, 1, w.len, f) != w.len || fclose(f) != 0) {
		perror(argv[1]);
		return 1;
	}
	return 0;
}
