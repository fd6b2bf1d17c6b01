/* The files that a command is asked for: those that are named, and of a folder all replays below it. */
#include <errno.h>
#include <fts.h>
#include <stdlib.h>
#include <string.h>
#include <sys/stat.h>

#include "tool.h"

static int add(file_list *l, const char *path)
{
	if (l->count == l->room) {
		int room = 2 * l->room + 16;
		char **more = realloc(l->paths, (size_t)room * sizeof *more);
		if (!more)
			return ENOMEM;
		l->paths = more;
		l->room = room;
	}
	char *copy = strdup(path);
	if (!copy)
		return ENOMEM;
	l->paths[l->count++] = copy;
	return 0;
}

/* A replay by its name: a file, or a link to one. A link to a folder is not followed, so that no folder is looked at twice. */
static int is_replay(const FTSENT *e)
{
	struct stat s;
	if (e->fts_namelen < 4 || strcmp(e->fts_name + e->fts_namelen - 4, ".slp") != 0)
		return 0;
	return e->fts_info == FTS_F || (e->fts_info == FTS_SL && stat(e->fts_accpath, &s) == 0 && S_ISREG(s.st_mode));
}

static int by_name(const FTSENT **a, const FTSENT **b)
{
	return strcmp((*a)->fts_name, (*b)->fts_name);
}

/* 0, or an errno. What cannot be read of a folder is said, and the rest of it taken. */
static int add_folder(file_list *l, char *path)
{
	char *roots[] = { path, NULL };
	FTS *walk = fts_open(roots, FTS_PHYSICAL | FTS_COMFOLLOW | FTS_NOCHDIR, by_name);
	int wrong = walk ? 0 : errno, before = l->count;
	for (FTSENT *e; !wrong && (e = fts_read(walk)) != NULL;) {
		if (e->fts_info == FTS_DNR || e->fts_info == FTS_ERR || e->fts_info == FTS_NS) {
			complain(e->fts_path, "%s", strerror(e->fts_errno));
			l->failed = 1;
		} else if (is_replay(e)) {
			wrong = add(l, e->fts_path);
		}
	}
	if (walk)
		fts_close(walk);
	if (!wrong && l->count == before && !l->failed) {
		complain(path, "has no replay in it: no file whose name ends in .slp");
		l->failed = 1;
	}
	return wrong;
}

static int is_folder(const char *path)
{
	struct stat s;
	return strcmp(path, "-") != 0 && stat(path, &s) == 0 && S_ISDIR(s.st_mode);
}

int list_files(const request *q, file_list *l)
{
	int wrong = 0;
	*l = (file_list){ .several = q->count > 1 };
	for (int i = 0; i < q->count && !wrong; i++) {
		int folder = is_folder(q->files[i]);
		wrong = folder ? add_folder(l, q->files[i]) : add(l, q->files[i]);
		l->several |= folder;
	}
	if (wrong) {
		complain("files", "%s", strerror(wrong));
		free_files(l);
	}
	return wrong ? FAILED : WELL;
}

void free_files(file_list *l)
{
	for (int i = 0; i < l->count; i++)
		free(l->paths[i]);
	free(l->paths);
}
