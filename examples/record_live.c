/* Records a match live, to a file: the head before its first frame, runs of frames as they are finished, the end, and the length last. Each step is on the
 * disk before the next one begins, so that a recorder that dies leaves a replay which can be read as far as it got.
 *
 *     cc -std=c11 record_live.c $(pkg-config --cflags --libs slp) -o record_live && ./record_live match.slp
 */
#define _XOPEN_SOURCE 700
#include <fcntl.h>
#include <slp.h>
#include <stdio.h>
#include <string.h>
#include <unistd.h>

enum { FRAMES = 60, RUN = 7, ROOM = 1 << 16 };

/* Some frames of the match, a player and now and then an item at 3.0.0, with the cells of their stores. */
typedef struct {
	slp_game game;
	slp_stores stores;
	uint32_t ids[FRAMES], starts[FRAMES], pres[SLP_PRE_COLUMNS * FRAMES], posts[SLP_POST_COLUMNS * FRAMES];
	uint32_t items[SLP_ITEM_COLUMNS * FRAMES], item_offsets[FRAMES + 1];
} part;

/* The frames from `first` on, `n` of them, as a game of their own: rows and offsets are counted from its first frame. */
static void play(part *m, uint32_t first, uint32_t n)
{
	const slp_version v = { 3, 0, 0 };
	uint32_t items = 0;
	memset(m, 0, sizeof *m);
	for (uint32_t i = 0; i < n; i++)
		items += (first + i) % 10 == 0;
	for (uint32_t i = 0, item = 0; i < n; i++) {
		uint32_t frame = first + i;
		m->ids[i] = (uint32_t)SLP_FIRST_FRAME_ID + frame;
		m->starts[SLP_FRAME_START_RANDOM_SEED * n + i] = 1000 + frame;
		m->pres[SLP_PRE_STATE * n + i] = 14 + frame % 3;
		m->posts[SLP_POST_STOCKS * n + i] = 4;
		m->item_offsets[i] = item;
		if (frame % 10 == 0)
			m->items[SLP_ITEM_ID * items + item++] = frame;
		m->item_offsets[i + 1] = item;
	}
	m->game.frames = (slp_frames){ .version = v, .counts = { .frames = n, .items = items }, .ports = { { .port = 0 } }, .port_count = 1 };
	m->game.start = (slp_start){ .is_pal = { 1, 0 }, .is_frozen_ps = { 1, 0 } };
	m->game.end = (slp_end){ .given = 1, .method = 2, .initiator = 255 };
	m->game.metadata_given = 1;
	m->stores = (slp_stores){
		.ids = { m->ids, n }, .starts = { m->starts, slp_columns(v, SLP_FAMILY_FRAME_START) * n },
		.pres = { m->pres, slp_columns(v, SLP_FAMILY_PRE) * n }, .posts = { m->posts, slp_columns(v, SLP_FAMILY_POST) * n },
		.items = { m->items, slp_columns(v, SLP_FAMILY_ITEM) * items }, .item_offsets = { m->item_offsets, n + 1 },
	};
}

/* Puts bytes at the end of the file; they are on the disk when it returns. */
static int put(int file, const uint8_t *bytes, size_t n)
{
	while (n) {
		ssize_t done = write(file, bytes, n);
		if (done < 0)
			return 0;
		bytes += done;
		n -= (size_t)done;
	}
	return fsync(file) == 0;
}

/* The whole recording; its bytes, or 0 where a call refuses or the file cannot be written. */
static size_t record(int file, slp_bytes block, slp_bytes metadata)
{
	static part m;
	static uint8_t buffer[ROOM];
	slp_bytes no_codes = { NULL, 0 };
	play(&m, 0, 0);
	slp_appended head = slp_write_game_head(buffer, ROOM, &m.game, block, no_codes);
	if (head.refused || !put(file, buffer, head.end))
		return 0;
	size_t events = head.end;
	for (uint32_t done = 0, n; done < FRAMES; done += n) {
		n = FRAMES - done < RUN ? FRAMES - done : RUN;
		play(&m, done, n);
		slp_appended run = slp_write_frames(buffer, ROOM, 0, m.game.frames, SLP_STORES(&m.stores), 0, n);
		if (run.refused || !put(file, buffer, run.end))
			return 0;
		events += run.end;
	}
	slp_closed end = slp_write_game_end(buffer, ROOM, 0, &m.game, metadata);
	if (end.refused || !put(file, buffer, end.end))
		return 0;
	slp_field length = slp_length_field(events + end.events - 15);
	int filled = !length.refused && pwrite(file, length.bytes, 4, 11) == 4 && fsync(file) == 0;
	return filled ? events + end.end : 0;
}

int main(int argc, char **argv)
{
	static const uint8_t zeros[418];
	static uint8_t live[ROOM], whole[ROOM], map[64];
	static part m;
	slp_entry last = { SLP_ENTRY_NUMBER, 0, 9, (uint32_t)(SLP_FIRST_FRAME_ID + FRAMES - 1), 0 };
	slp_written body = slp_write_map(map, sizeof map, &last, SLP_CELLS(1), (const uint8_t *)"lastFrame", 9, 1);
	slp_bytes block = { zeros, sizeof zeros }, metadata = { map, body.len }, none = { NULL, 0 };
	int file = argc == 2 ? open(argv[1], O_RDWR | O_CREAT | O_TRUNC, 0644) : -1;
	if (file < 0) {
		fprintf(stderr, "usage: record_live REPLAY\n");
		return 2;
	}
	size_t len = record(file, block, metadata);
	printf("recorded %d frames, %d a run: %zu bytes\n", FRAMES, RUN, len);
	/* the file of the whole match at once */
	play(&m, 0, FRAMES);
	slp_written w = slp_write_game(whole, ROOM, &m.game, &m.stores, block, none, metadata);
	int same = len > 0 && w.len == len && pread(file, live, len, 0) == (ssize_t)len && memcmp(live, whole, len) == 0;
	printf("the file of the whole match: %zu bytes, %s\n", w.len, same ? "the same" : "others");
	return close(file) != 0 || !same;
}
