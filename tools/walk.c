/* slp walk: a line for each replay. */
#include <stdio.h>
#include <stdlib.h>
#include <string.h>

#include "tool.h"

static void print_line(const char *prefix, slp_walked w)
{
	progress_clear();
	if (prefix)
		print_prefix(prefix);
	if (w.refused)
		fprintf(out(), "refused %u %zu\n", w.refused, w.offset);
	else
		fprintf(out(), "%zu %zu %s\n", w.events, w.stray, w.whole ? "whole" : "cut");
}

static void print_json(const char *path, slp_walked w)
{
	json j = json_file(path);
	if (w.refused) {
		json_refused(&j, w.refused, w.offset);
	} else {
		json_count(&j, "events", w.events);
		json_count(&j, "stray", w.stray);
		json_mark(&j, "whole", w.whole);
	}
	json_line(&j);
}

static outcome walk_file(const request *q, const char *path)
{
	content c;
	int wrong = load_more(path, LONGEST_TAIL + 1, &c);
	if (wrong)
		return unread(q, path, wrong);
	slp_walked w = slp_walk(c.bytes, c.len);
	if (q->json)
		print_json(path, w);
	else
		print_line(q->several ? path : NULL, w);
	if (w.refused != SLP_NOT_A_REPLAY)
		complain_unfilled(input_name(path), c.bytes, c.len);
	if (w.refused) {
		complain_refused(input_name(path), w.refused, w.offset);
		complain_length(input_name(path), &c, w.refused, w.offset);
	} else if (!w.whole) {
		complain_cut(input_name(path), c.bytes, c.len);
		complain_fault(input_name(path), c.bytes, c.len);
	}
	free(c.bytes);
	return w.refused ? IS_REFUSED : w.whole ? IS_WHOLE : IS_CUT;
}

/* Reading takes the time; a walk of what is in memory is quick. So the bar goes by what was read, and slp_walk walks a file at once. */
int walk_files(const request *q)
{
	return each_file(q, walk_file);
}
