/* slp final: a replay of the final frames only, the last row of each frame id. */
#include <stdio.h>
#include <stdlib.h>

#include "tool.h"

/* The scratch has a 1 for each row that was left out. */
static void report(const char *out, size_t len, const uint8_t *scratch, size_t rows)
{
	size_t dropped = 0;
	for (size_t i = 0; i < rows; i++)
		dropped += scratch[i];
	fprintf(say_wrote(out, len), ", %zu of %zu rows dropped\n", dropped, rows);
}

static int write_kept(const request *q, const replay *r)
{
	const char *out = q->files[1];
	size_t room = room_for(r), rows = r->opened.game.frames.counts.frames;
	uint8_t *file = malloc(room + 1), *scratch = malloc(rows + 1);
	int status = FAILED;
	if (file && scratch) {
		slp_written w = slp_save_final(file, room, scratch, rows, &r->opened, &r->space, r->file.bytes);
		status = save_written(q, w, file);
		if (status == WELL)
			report(out, w.len, scratch, rows);
	} else {
		complain(output_name(out), "no memory");
	}
	free(file);
	free(scratch);
	return status;
}

int write_final_frames(const request *q)
{
	replay r;
	if (open_replay(q->files[0], q->progress, &r) != WELL)
		return FAILED;
	int status = rewritable(input_name(q->files[0]), &r);
	if (status == WELL) {
		warn_of_tail(input_name(q->files[0]), &r);
		status = write_kept(q, &r);
	}
	close_replay(&r);
	return status;
}
