/* slp find: where a frame stands in a replay, and when it was played. */
#include <errno.h>
#include <stdio.h>
#include <stdlib.h>
#include <string.h>

#include "tool.h"

/* A whole number of 32 bits with its sign: WELL or FAILED. */
static int parse_id(const char *text, int32_t *id)
{
	char *end;
	errno = 0;
	long n = strtol(text, &end, 10);
	if (end == text || *end || errno || n < INT32_MIN || n > INT32_MAX)
		return FAILED;
	*id = (int32_t)n;
	return WELL;
}

/* The index beside a replay, if it is there and the replay's. Why it is not, on standard error. */
static int accepted_beside(const char *path, const content *file, content *index)
{
	char *name = index_name(path);
	int wrong = name ? load_index(name, index) : ENOMEM, status = FAILED;
	if (wrong == ENOENT) {
		complain(path, "by a walk: there is no index beside it");
	} else if (wrong) {
		complain(name ? name : path, "%s", strerror(wrong));
		complain(path, "by a walk");
	} else {
		unsigned number = slp_accepts_index(file->bytes, file->len, index->bytes, index->len).refused;
		if (number == 0) {
			complain(path, "through the index beside it");
			status = WELL;
		} else if (number == SLP_BAD_INDEX || number == SLP_OTHER_REPLAY) {
			complain(name, "refused %u: %s", number, REFUSAL_WORDS(number));
			complain(path, "by a walk");
		}
		if (status != WELL)
			free(index->bytes);
	}
	free(name);
	return status;
}

/* 60 frames a second; id 0 is at 00:00.00, the frames before it at times below that. */
static void print_moment(slp_moment m)
{
	long cents = labs((long)m.id) * 5 / 3;
	printf("frame %ld: row %zu, offset %lu, time %s%02ld:%02ld.%02ld\n", (long)m.id, m.row, (unsigned long)m.offset, m.id < 0 ? "-" : "", cents / 6000,
	       cents / 100 % 60, cents % 100);
}

static int find_in(const char *path, const content *file, int32_t id)
{
	content index;
	int standard = strcmp(path, "-") == 0;
	if (standard)
		complain(input_name(path), "by a walk");
	if ((standard || accepted_beside(path, file, &index) != WELL) && work_out_index(input_name(path), file, &index) != WELL)
		return FAILED;
	slp_moment m = slp_find_frame(index.bytes, index.len, id);
	free(index.bytes);
	if (m.refused) {
		complain(input_name(path), "frame %ld: refused %u: %s", (long)id, m.refused, REFUSAL_WORDS(m.refused));
		return FAILED;
	}
	print_moment(m);
	return WELL;
}

int find_frame(const request *q)
{
	const char *path = q->files[0];
	content file;
	int32_t id;
	if (parse_id(q->files[1], &id) != WELL)
		return wrong_usage("not a frame's id:", q->files[1]);
	progress_begin(q->progress, "reading", total_size(q->files, 1));
	int wrong = load_more(path, LONGEST_TAIL + 1, &file);
	progress_clear();
	if (wrong) {
		complain(input_name(path), "%s", strerror(wrong));
		return FAILED;
	}
	int status = find_in(path, &file, id);
	free(file.bytes);
	return status;
}
