/* Saving as databases do: a file is written under a name of its own beside the one that it gets, is on the disk before it gets it, and replaces
 * none that it should not. A save that is ended halfway leaves nothing behind, or after KILL at most that first name. */
#define _GNU_SOURCE   /* renameat2 */
#include <errno.h>
#include <fcntl.h>
#include <limits.h>
#include <signal.h>
#include <stdio.h>
#include <stdlib.h>
#include <string.h>
#include <sys/stat.h>
#include <unistd.h>

#include "tool.h"

/* How much is written at a time, and how many first names are tried. */
enum { SLICE = 1 << 20, TRIES = 1000 };

/* The file that is being written: whether it is there, its folder, and its first name in it. */
static struct {
	volatile sig_atomic_t there;
	int folder;
	char name[48];
} first;

/* The signals that end the tool and can be caught. A file that grows over its limit is an error of write (slp.c). */
static const int ENDING[] = { SIGHUP, SIGINT, SIGQUIT, SIGPIPE, SIGTERM, SIGXCPU };
enum { ENDINGS = sizeof ENDING / sizeof *ENDING };

/* Its action is the default again, so that the signal ends the tool when this is done. */
static void end_by(int number)
{
	if (first.there)
		unlinkat(first.folder, first.name, 0);
	raise(number);
}

/* Signals that are ignored stay so. */
static void watch_signals(void)
{
	struct sigaction now, ours = { .sa_handler = end_by, .sa_flags = (int)SA_RESETHAND };
	sigfillset(&ours.sa_mask);
	for (int i = 0; i < ENDINGS; i++)
		if (sigaction(ENDING[i], NULL, &now) == 0 && now.sa_handler == SIG_DFL)
			sigaction(ENDING[i], &ours, NULL);
}

/* Between these no signal comes, so that a file and what is known of it change together. */
static sigset_t hold_signals(void)
{
	sigset_t all, before;
	sigfillset(&all);
	sigprocmask(SIG_SETMASK, &all, &before);
	return before;
}

static void let_signals(sigset_t before)
{
	int kept = errno;
	sigprocmask(SIG_SETMASK, &before, NULL);
	errno = kept;
}

/* The file under its first name; -1 and errno. */
static int create(void)
{
	sigset_t before = hold_signals();
	int fd = -1;
	errno = EEXIST;
	for (int i = 0; fd < 0 && errno == EEXIST && i < TRIES; i++) {
		snprintf(first.name, sizeof first.name, ".slp-%ld-%d.tmp", (long)getpid(), i);
		fd = openat(first.folder, first.name, O_WRONLY | O_CREAT | O_EXCL | O_CLOEXEC, 0666);
	}
	first.there = fd >= 0;
	let_signals(before);
	return fd;
}

static void discard(void)
{
	sigset_t before = hold_signals();
	unlinkat(first.folder, first.name, 0);
	first.there = 0;
	let_signals(before);
}

/* Without force it takes no other file's name: by renameat2, or where the file system has it not, by a second name before the first is taken away. */
static int rename_first(const char *name, int force)
{
	if (force)
		return renameat(first.folder, first.name, first.folder, name);
	if (renameat2(first.folder, first.name, first.folder, name, RENAME_NOREPLACE) == 0)
		return 0;
	if (errno != EINVAL && errno != ENOSYS)
		return -1;
	if (linkat(first.folder, first.name, first.folder, name, 0) != 0)
		return -1;
	unlinkat(first.folder, first.name, 0);
	return 0;
}

static int give_name(const char *name, int force)
{
	sigset_t before = hold_signals();
	int wrong = rename_first(name, force) == 0 ? 0 : errno;
	if (!wrong)
		first.there = 0;
	let_signals(before);
	return wrong;
}

static int put_all(int fd, const uint8_t *bytes, size_t len)
{
	for (size_t at = 0; at < len;) {
		ssize_t n = write(fd, bytes + at, len - at < SLICE ? len - at : SLICE);
		if (n < 0 && errno == EINTR)
			continue;
		if (n < 0)
			return errno;
		progress_add((uint64_t)n);
		at += (size_t)n;
	}
	return 0;
}

/* What stands at a path, st_mode 0 where nothing does; and whether it may be replaced: 0, or an errno. */
static int judge(const char *path, int force, struct stat *old)
{
	*old = (struct stat){ .st_mode = 0 };
	if (lstat(path, old) != 0)
		return errno == ENOENT ? 0 : errno;
	if (!force)
		return EEXIST;
	if (S_ISLNK(old->st_mode) && stat(path, old) != 0)
		return errno;
	return S_ISREG(old->st_mode) ? 0 : EEXIST;
}

/* All bytes on the disk, with the rights of the file that is replaced. */
static int fill(int fd, const struct stat *old, const uint8_t *bytes, size_t len)
{
	int wrong = put_all(fd, bytes, len);
	if (!wrong && old->st_mode && fchown(fd, old->st_uid, old->st_gid) != 0 && errno != EPERM)
		wrong = errno;
	if (!wrong && old->st_mode && fchmod(fd, old->st_mode & 07777) != 0)
		wrong = errno;
	if (!wrong && fsync(fd) != 0)
		wrong = errno;
	if (close(fd) != 0 && !wrong)
		wrong = errno;
	return wrong;
}

/* In first.folder. That the name is on the disk is asked for last; some file systems cannot be asked. */
static int save_in_folder(const char *name, int force, const struct stat *old, const uint8_t *bytes, size_t len)
{
	int fd = create();
	if (fd < 0)
		return errno;
	int wrong = fill(fd, old, bytes, len);
	if (!wrong)
		wrong = give_name(name, force);
	if (wrong) {
		discard();
		return wrong;
	}
	return fsync(first.folder) == 0 || errno == EINVAL ? 0 : errno;
}

/* The path may be changed. */
static int save_at(char *path, int force, const struct stat *old, const uint8_t *bytes, size_t len)
{
	char *slash = strrchr(path, '/'), *name = slash ? slash + 1 : path;
	char before = *name;
	*name = 0;
	first.folder = open(slash ? path : ".", O_RDONLY | O_DIRECTORY | O_CLOEXEC);
	*name = before;
	if (first.folder < 0)
		return errno;
	watch_signals();
	int wrong = *name ? save_in_folder(name, force, old, bytes, len) : EISDIR;
	close(first.folder);
	return wrong;
}

/* A link's file is replaced, and not the link. */
static int save_file(const char *path, int force, const uint8_t *bytes, size_t len)
{
	struct stat old;
	int wrong = judge(path, force, &old);
	if (wrong)
		return wrong;
	char *real = old.st_mode ? realpath(path, NULL) : strdup(path);
	if (!real)
		return errno;
	wrong = save_at(real, force, &old, bytes, len);
	free(real);
	return wrong;
}

int savable(const char *path, int force)
{
	struct stat old;
	int standard = strcmp(path, "-") == 0, wrong = standard ? 0 : judge(path, force, &old);
	if (standard && !force && isatty(STDOUT_FILENO))
		complain(output_name(path), "is a terminal, and a replay is no text (--force writes it there)");
	else if (wrong == EEXIST && force)
		complain(path, "is no file, and so it is not replaced");
	else if (wrong)
		complain(path, "%s", strerror(wrong));
	else
		return WELL;
	return FAILED;
}

int save(const char *path, int force, const uint8_t *bytes, size_t len)
{
	return strcmp(path, "-") == 0 ? put_all(STDOUT_FILENO, bytes, len) : save_file(path, force, bytes, len);
}
