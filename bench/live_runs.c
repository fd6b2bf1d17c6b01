/* Records a game of 28,900 frames at 3.18.0, two players and 2,890 items, in runs of N frames that are lent as small games of their own; with N at 0 slp_write
 * writes it at once. The instructions of the calls alone, by valgrind:
 *
 *     make target/c/bin/live_runs
 *     valgrind --tool=callgrind --callgrind-out-file=/dev/null --toggle-collect='slp_*' target/c/bin/live_runs 60
 */
#include <slp.h>
#include <stdio.h>
#include <stdlib.h>
#include <string.h>

#include "check.h"
#include "made.h"
#include "part.h"

static size_t record(const input *in, size_t run, uint8_t *out, size_t room)
{
	size_t frames = in->game.frames.counts.frames, place = slp_write_game_head(out, room, &in->game, in->block, in->codes).end;
	for (size_t a = 0; a < frames; a += run) {
		size_t b = a + run < frames ? a + run : frames;
		part p = cut_part(in, a, b, 0);
		place = slp_write_frames(out, room, place, p.in.game.frames, SLP_STORES(&p.in.stores), 0, b - a).end;
		drop_part(&p);
	}
	slp_closed c = slp_write_game_end(out, room, place, &in->game, in->metadata);
	memcpy(out + 11, slp_length_field(c.events - 15).bytes, 4);
	return c.end;
}

int main(int argc, char **argv)
{
	if (argc != 2) {
		fputs("usage: live_runs N\n", stderr);
		return 2;
	}
	plan p = { .version = { 3, 18, 0 }, .frames = 28900, .items = 2890, .ports = 2, .seats = 2, .end = 1 };
	made m = make_game(&p);
	size_t run = (size_t)atol(argv[1]), room = 700 * p.frames;
	uint8_t *out = take(room);
	memset(out, 1, room);
	size_t len = run ? record(&m.in, run, out, room) : slp_write_game(out, room, &m.in.game, &m.in.stores, m.in.block, m.in.codes, m.in.metadata).len;
	printf("%zu bytes\n", len);
	free(out);
	unmake(&m);
	return 0;
}
