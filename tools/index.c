/* slp index: an index beside each replay. */
#include <errno.h>
#include <stdio.h>
#include <stdlib.h>
#include <string.h>

#include "tool.h"

char *index_name(const char *path)
{
	static const char end[] = ".spx";
	size_t len = strlen(path);
	char *name = malloc(len + sizeof end);
	if (name) {
		memcpy(name, path, len);
		memcpy(name + len, end, sizeof end);
	}
	return name;
}

int load_index(const char *path, content *c)
{
	/* a byte more than the longest is enough to see that it is none */
	size_t most = SLP_INDEX_LEN(SLP_MAX_FRAMES) + 1;
	FILE *f = fopen(path, "rb");
	if (!f)
		return errno;
	*c = (content){ malloc(most), 0 };
	int wrong = c->bytes ? 0 : ENOMEM;
	if (!wrong) {
		c->len = fread(c->bytes, 1, most, f);
		wrong = ferror(f) ? errno : 0;
	}
	fclose(f);
	if (wrong)
		free(c->bytes);
	return wrong;
}

int work_out_index(const char *name, const content *file, content *index)
{
	slp_index_written need = slp_write_index(file->bytes, file->len, NULL, 0);
	if (need.refused != SLP_SHORT_OUTPUT) {
		complain_unread(name, file, need.refused, need.offset);
		return FAILED;
	}
	*index = (content){ malloc(need.len), need.len };
	if (!index->bytes) {
		complain(name, "no memory");
		return FAILED;
	}
	slp_write_index(file->bytes, file->len, index->bytes, index->len);
	return WELL;
}

/* What stands at that name already: fine if it is the same index. */
static int already_there(const char *name, const content *index)
{
	content there;
	int same = 0;
	if (load_index(name, &there) == 0) {
		same = there.len == index->len && memcmp(there.bytes, index->bytes, index->len) == 0;
		free(there.bytes);
	}
	if (!same) {
		complain(name, "there already, and not this replay's index (--force replaces it)");
		return FAILED;
	}
	print_prefix(name);
	puts("there already, and this replay's index");
	return WELL;
}

/* Of 9 bytes and 8 a frame. */
static void report(const char *name, size_t len)
{
	fprintf(say_wrote(name, len), ", %zu frames\n", (len - SLP_INDEX_LEN(0)) / 8);
}

static int write_beside(const char *path, int force, const content *index)
{
	char *name = index_name(path);
	if (!name) {
		complain(path, "no memory");
		return FAILED;
	}
	int status = force ? savable(name, force) : WELL;
	int wrong = status == WELL ? save(name, force, index->bytes, index->len) : 0;
	progress_clear();
	if (wrong == EEXIST) {
		status = already_there(name, index);
	} else if (wrong) {
		complain(name, "%s", strerror(wrong));
		status = FAILED;
	} else if (status == WELL) {
		report(name, index->len);
	}
	free(name);
	return status;
}

/* Of a replay that is cut, how much of it there is: what it has is indexed all the same. */
static int warn_of_cut(const char *path, const content *file)
{
	if (slp_walk(file->bytes, file->len).whole)
		return WELL;
	complain_unfilled(path, file->bytes, file->len);
	complain_cut(path, file->bytes, file->len);
	return FAILED;
}

static int index_file(const char *path, int force)
{
	content file, index;
	int wrong = load_more(path, LONGEST_TAIL + 1, &file);
	if (wrong) {
		complain(path, "%s", strerror(wrong));
		return FAILED;
	}
	int status = work_out_index(path, &file, &index);
	if (status == WELL) {
		status = write_beside(path, force, &index);
		if (warn_of_cut(path, &file) != WELL)
			status = FAILED;
		free(index.bytes);
	}
	free(file.bytes);
	return status;
}

/* An index stands beside its replay, so the replay has a name. */
int index_files(const request *q)
{
	int status = WELL;
	for (int i = 0; i < q->count; i++)
		if (strcmp(q->files[i], "-") == 0)
			return wrong_usage("index needs files with a name, not", "-");
	progress_begin(q->progress, "reading", total_size(q->files, q->count));
	for (int i = 0; i < q->count; i++)
		if (index_file(q->files[i], q->force) != WELL)
			status = FAILED;
	progress_clear();
	return status;
}
