/* slp repair: the longest beginning of a broken replay that can be read, as a file of its own. */
#include <inttypes.h>
#include <stdio.h>
#include <stdlib.h>
#include <string.h>

#include "tool.h"

/* Where all is kept, by how much the length field was wrong; else what it said, and how long the event data is now. */
static void say_length(FILE *to, const slp_repaired *r)
{
	int kept = r->tail != SLP_REPAIR_TAIL_REPLACED, high = r->said > r->length;
	const char *else_wrong = kept ? "; nothing else was wrong" : "";
	if (r->said == r->length)
		fputs("  the length field was right\n", to);
	else if (r->said == 0)
		fprintf(to, "  the length field was never filled in, the event data has %" PRIu32 " bytes%s\n", r->length, else_wrong);
	else if (kept)
		fprintf(to, "  the length field was %" PRIu32 " too %s%s\n", high ? r->said - r->length : r->length - r->said, high ? "high" : "low", else_wrong);
	else
		fprintf(to, "  the length field said %" PRIu32 ", the event data has %" PRIu32 " bytes\n", r->said, r->length);
}

static void say_dropped(FILE *to, const slp_repaired *r)
{
	if (r->dropped_bytes)
		fprintf(to, "  bytes behind that were dropped: %zu, whole events in them: %zu\n", r->dropped_bytes, r->dropped_events);
}

/* Why no more is kept. Where no event is wrong up to where the length field says that they end, that is not why: repair went on. */
static void say_why(FILE *to, const content *was, const slp_repaired *r)
{
	slp_faulted why = slp_fault(was->bytes, was->len);
	int went_on = why.reason == SLP_FAULT_CUT && slp_walk(was->bytes, was->len).whole;
	if (r->dropped_bytes && why.reason && why.reason != SLP_FAULT_LENGTH && !went_on)
		fprintf(to, "  %s\n", say_fault(why).text);
}

static void say_tail(FILE *to, const slp_repaired *r)
{
	static const char *const words[] = {
		[SLP_REPAIR_TAIL_BRACE] = "the closing brace is its own",
		[SLP_REPAIR_TAIL_METADATA] = "the metadata is its own",
		[SLP_REPAIR_TAIL_REPLACED] = "a closing brace was put behind the events",
	};
	fprintf(to, "  %s\n", words[r->tail]);
}

static void report(const char *in, const char *out, const content *was, const uint8_t *is, const slp_repaired *r)
{
	FILE *to = say_wrote(out, r->bytes);
	if (was->len == r->bytes && memcmp(was->bytes, is, r->bytes) == 0) {
		fputs(", the same as ", to);
		put_name(to, input_name(in));
		fputs(": nothing was wrong\n", to);
		return;
	}
	fprintf(to, ", events: %zu\n", r->events);
	say_length(to, r);
	say_dropped(to, r);
	say_why(to, was, r);
	say_tail(to, r);
}

static int write_kept(const request *q, const content *file)
{
	const char *in = q->files[0], *out = q->files[1];
	slp_repaired r = slp_measure_repair(file->bytes, file->len);
	uint8_t *kept = malloc(r.bytes + 1);
	if (!kept) {
		complain(output_name(out), "no memory");
		return FAILED;
	}
	if (!r.refused)
		r = slp_repair(file->bytes, file->len, kept, r.bytes);
	int status = save_written(q, (slp_written){ r.refused, r.bytes }, kept);
	if (status == WELL)
		report(in, out, file, kept, &r);
	else if (r.refused == SLP_BAD_EVENTS)
		complain_fault(input_name(in), file->bytes, file->len);
	free(kept);
	return status;
}

int repair(const request *q)
{
	content file;
	progress_begin(q->progress, "reading", total_size(q->files, 1));
	int wrong = load_more(q->files[0], ALL_OF_IT, &file);
	progress_clear();
	if (wrong) {
		complain(input_name(q->files[0]), "%s", strerror(wrong));
		return FAILED;
	}
	int status = write_kept(q, &file);
	free(file.bytes);
	return status;
}
