/* slp resave: a replay read into columns and written again. */
#include <stdio.h>
#include <stdlib.h>
#include <string.h>

#include "tool.h"

static void report(const char *in, const char *out, const content *was, const uint8_t *is, size_t len)
{
	size_t both = was->len < len ? was->len : len, at = 0;
	while (at < both && was->bytes[at] == is[at])
		at++;
	int same = was->len == len && at == len;
	FILE *to = say_wrote(out, len);
	fputs(same ? ", the same as " : ", not the same as ", to);
	put_name(to, input_name(in));
	if (!same)
		fprintf(to, ": they differ from byte %zu on", at);
	fputc('\n', to);
}

/* What was not read of a newer recorder's file would be lost. */
int rewritable(const char *name, const replay *r)
{
	slp_version v = r->opened.game.frames.version;
	if (!r->opened.partly)
		return WELL;
	complain(name, "refused %u: written by version %u.%u.%u, which is not written: what 3.18 does not know would be lost", SLP_VERSION_TOO_NEW, v.major, v.minor,
	         v.patch);
	return FAILED;
}

/* A file's tail that is neither a brace nor metadata is in no column, and so it is not written. */
void warn_of_tail(const char *name, const replay *r)
{
	if (r->opened.places.tail == SLP_FILE_TAIL_ODD)
		complain(name, "what stands after the event data, from byte %zu on, is no metadata and is left out", 15 + declared_length(r->file.bytes));
}

size_t room_for(const replay *r)
{
	const slp_places *p = &r->opened.places;
	return slp_room(slp_plan_of(&r->opened.game, p->block_len, r->space.codes.len, p->metadata_len)).bytes;
}

int save_written(const request *q, slp_written w, const uint8_t *file)
{
	const char *in = q->files[0], *out = q->files[1];
	if (w.refused) {
		complain(input_name(in), "refused %u: %s", w.refused, REFUSAL_WORDS(w.refused));
		return FAILED;
	}
	progress_begin(q->progress, "writing", w.len);
	int wrong = save(out, q->force, file, w.len);
	progress_clear();
	if (wrong)
		complain(output_name(out), "%s", strerror(wrong));
	return wrong ? FAILED : WELL;
}

static int write_again(const request *q, const replay *r)
{
	const char *in = q->files[0], *out = q->files[1];
	size_t room = room_for(r);
	uint8_t *file = malloc(room + 1);
	if (!file) {
		complain(output_name(out), "no memory");
		return FAILED;
	}
	slp_written w = slp_save(file, room, &r->opened, &r->space, r->file.bytes);
	int status = save_written(q, w, file);
	if (status == WELL)
		report(in, out, &r->file, file, w.len);
	free(file);
	return status;
}

int resave(const request *q)
{
	replay r;
	if (open_replay(q->files[0], q->progress, &r) != WELL)
		return FAILED;
	int status = rewritable(input_name(q->files[0]), &r);
	if (status == WELL) {
		warn_of_tail(input_name(q->files[0]), &r);
		status = write_again(q, &r);
	}
	close_replay(&r);
	return status;
}
