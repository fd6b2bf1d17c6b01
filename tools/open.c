/* A replay as a game with its columns: what commands that read more than events share. */
#include <errno.h>
#include <stdlib.h>
#include <string.h>

#include "tool.h"

void complain_unread(const char *name, const content *c, unsigned number, size_t offset)
{
	slp_walked w = slp_walk(c->bytes, c->len);
	if (w.refused != SLP_NOT_A_REPLAY)
		complain_unfilled(name, c->bytes, c->len);
	if (w.refused) {
		complain_refused(name, number, offset);
		complain_length(name, c, number, offset);
		return;
	}
	complain(name, "refused %u: %s", number, REFUSAL_WORDS(number));
	if (!w.whole)
		complain_cut(name, c->bytes, c->len);
	if (number == SLP_BAD_EVENTS)
		complain_fault(name, c->bytes, c->len);
}

/* Memory for all columns. */
static int take_space(replay *r, const slp_lengths *n)
{
	r->cells = calloc(slp_space_cells(n) + 1, sizeof *r->cells);
	r->bytes = calloc(slp_space_bytes(n) + 1, 1);
	if (!r->cells || !r->bytes)
		return FAILED;
	r->space = slp_space_in(n, r->cells, r->bytes);
	return WELL;
}

/* The columns of a file's first `len` bytes: WELL, or FAILED with the refusal in r->opened, 0 where there is no memory. */
static int fill_columns(replay *r, size_t len)
{
	slp_measured m = slp_measure(r->file.bytes, len);
	r->opened = (slp_opened){ .refused = m.refused, .offset = m.offset };
	if (m.refused || take_space(r, &m.lengths) != WELL)
		return FAILED;
	r->opened = slp_read_game(r->file.bytes, len, &r->space);
	return r->opened.refused ? FAILED : WELL;
}

static int read_columns(const char *name, replay *r)
{
	if (fill_columns(r, r->file.len) == WELL)
		return WELL;
	if (r->opened.refused)
		complain_unread(name, &r->file, r->opened.refused, r->opened.offset);
	else
		complain(name, "no memory");
	return FAILED;
}

/* Over how many of the last events of a cut replay its end is looked for. */
enum { TRIES = 256 };

/* Where the last whole events end, the latest first; how many places there are. */
static int last_places(const content *c, size_t places[TRIES])
{
	size_t ring[TRIES], found = 1, at = slp_first_place(c->bytes, c->len);
	ring[0] = at;
	for (slp_step s; (s = slp_step_at(c->bytes, c->len, at)).kind == SLP_STEP_EVENT; at = s.next)
		ring[found++ % TRIES] = s.next;
	int count = found < TRIES ? (int)found : TRIES;
	for (int k = 0; k < count; k++)
		places[k] = ring[(found - 1 - (size_t)k) % TRIES];
	return count;
}

/* A replay that is cut, as if it ended after the last event after which it can be read: the reader itself is asked, with that length in the head.
 * Where there is no such event, r->cells stays NULL. */
static void read_front(replay *r)
{
	size_t places[TRIES];
	int count = last_places(&r->file, places);
	size_t declared = declared_length(r->file.bytes);
	for (int k = 0; k < count && !r->cells; k++) {
		declare_length(r->file.bytes, places[k] - 15);
		fill_columns(r, places[k]);
	}
	declare_length(r->file.bytes, declared);
}

outcome open_part(const char *path, replay *r, int *wrong)
{
	*r = (replay){ .cells = NULL };
	*wrong = load_more(path, LONGEST_TAIL + 1, &r->file);
	if (*wrong)
		return IS_UNREAD;
	if (fill_columns(r, r->file.len) == WELL)
		return IS_WHOLE;
	*wrong = r->opened.refused ? 0 : ENOMEM;
	if (r->opened.refused != SLP_BAD_EVENTS || slp_walk(r->file.bytes, r->file.len).whole)
		return *wrong ? IS_UNREAD : IS_REFUSED;
	read_front(r);
	return IS_CUT;
}

void complain_partly(const char *name, const replay *r)
{
	slp_version v = r->opened.game.frames.version;
	if (r->opened.partly)
		complain(name, "written by version %u.%u.%u: only what 3.18 knows is shown", v.major, v.minor, v.patch);
}

void complain_part(const char *name, const replay *r, outcome how)
{
	complain_partly(name, r);
	if (how == IS_REFUSED)
		complain_unread(name, &r->file, r->opened.refused, r->opened.offset);
	if (how != IS_CUT)
		return;
	complain_unfilled(name, r->file.bytes, r->file.len);
	complain_cut(name, r->file.bytes, r->file.len);
	complain_fault(name, r->file.bytes, r->file.len);
}

unsigned find_replaced(const replay *r, uint8_t **mask)
{
	size_t frames = r->opened.game.frames.counts.frames, marks = SLP_LAST_FRAME_ID - SLP_FIRST_FRAME_ID + 1;
	uint8_t *scratch = malloc(marks);
	unsigned refused = 0;
	*mask = calloc(frames + 1, 1);
	if (scratch && *mask)
		refused = slp_rollbacks(r->space.ids.p, frames, SLP_EXCEPT_LAST, *mask, frames, scratch, marks);
	if (refused || !scratch) {
		free(*mask);
		*mask = NULL;
	}
	free(scratch);
	return refused;
}

int open_replay(const char *path, int progress, replay *r)
{
	char *paths[1] = { (char *)(uintptr_t)path };
	*r = (replay){ .cells = NULL };
	progress_begin(progress, "reading", total_size(paths, 1));
	int wrong = load_more(path, LONGEST_TAIL + 1, &r->file);
	progress_clear();
	if (wrong) {
		complain(input_name(path), "%s", strerror(wrong));
		return FAILED;
	}
	if (read_columns(input_name(path), r) == WELL)
		return WELL;
	close_replay(r);
	return FAILED;
}

void close_replay(replay *r)
{
	free(r->file.bytes);
	free(r->cells);
	free(r->bytes);
}
