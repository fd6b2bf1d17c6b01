/* Stands between the tool and the system's calls by which it saves (the linker's --wrap), so that a save can be watched, ended or made to fail
 * before each of them. Files are written 49,152 bytes at a time, so that there are more places. Set in the environment:
 *
 *   POINT=N DOES=WHAT   before the Nth of the calls a signal comes (HUP, INT, TERM, KILL), or instead of it an error (EIO, EINTR)
 *   IGNORED=1           the signals but KILL are ignored from the start, as under nohup
 *   OLD=1               a file system without renameat2's flags
 *   APPEARS=1           another file gets the name just before the saved one would
 *   TRACE=1             each call is named on standard output, between the lines that the tool prints
 *   READS=1             at the end the bytes that were read are said on standard error
 */
#define _GNU_SOURCE
#include <errno.h>
#include <fcntl.h>
#include <signal.h>
#include <stdarg.h>
#include <stdio.h>
#include <stdlib.h>
#include <string.h>
#include <sys/stat.h>
#include <unistd.h>

enum { SHORT_WRITE = 49152 };

static long calls, point;
static unsigned long long bytes_read;
static const char *does;

static const struct {
	const char *name;
	int number;
} SIGNALS[] = { { "HUP", SIGHUP }, { "INT", SIGINT }, { "TERM", SIGTERM }, { "KILL", SIGKILL } }, ERRORS[] = { { "EIO", EIO }, { "EINTR", EINTR } };

/* Whether a variable is set, and not empty. */
static int asked(const char *name)
{
	const char *value = getenv(name);
	return value && *value;
}

/* Signals that were ignored when the tests were started, as INT is in the background, are not, and lines come out as they are printed. */
__attribute__((constructor)) static void start(void)
{
	point = getenv("POINT") ? strtol(getenv("POINT"), NULL, 10) : 0;
	does = getenv("DOES") ? getenv("DOES") : "";
	for (size_t i = 0; i < 3; i++)
		signal(SIGNALS[i].number, asked("IGNORED") ? SIG_IGN : SIG_DFL);
	setvbuf(stdout, NULL, _IOLBF, BUFSIZ);
}

__attribute__((destructor)) static void end(void)
{
	if (asked("READS"))
		fprintf(stderr, "read %llu bytes\n", bytes_read);
}

/* Whether the call is to fail, by errno. Its own work is none of the tool's: it makes its calls by printf and raise. */
static int fails(const char *name, int fd)
{
	struct stat s;
	if (asked("TRACE"))
		printf("+ %s%s\n", name, fd >= 0 && fstat(fd, &s) == 0 ? S_ISDIR(s.st_mode) ? " folder" : " file" : "");
	if (++calls != point)
		return 0;
	for (size_t i = 0; i < sizeof SIGNALS / sizeof *SIGNALS; i++)
		if (strcmp(does, SIGNALS[i].name) == 0)
			raise(SIGNALS[i].number);
	for (size_t i = 0; i < sizeof ERRORS / sizeof *ERRORS; i++)
		if (strcmp(does, ERRORS[i].name) == 0) {
			errno = ERRORS[i].number;
			return 1;
		}
	return 0;
}

int __real_openat(int folder, const char *path, int flags, ...);
int __wrap_openat(int folder, const char *path, int flags, ...);
int __wrap_openat(int folder, const char *path, int flags, ...)
{
	va_list rest;
	va_start(rest, flags);
	unsigned mode = va_arg(rest, unsigned);
	va_end(rest);
	return fails("openat", -1) ? -1 : __real_openat(folder, path, flags, mode);
}

ssize_t __real_read(int fd, void *to, size_t len);
ssize_t __wrap_read(int fd, void *to, size_t len);
ssize_t __wrap_read(int fd, void *to, size_t len)
{
	ssize_t got = __real_read(fd, to, len);
	bytes_read += got > 0 ? (unsigned long long)got : 0;
	return got;
}

ssize_t __real_write(int fd, const void *from, size_t len);
ssize_t __wrap_write(int fd, const void *from, size_t len);
ssize_t __wrap_write(int fd, const void *from, size_t len)
{
	return fails("write", fd) ? -1 : __real_write(fd, from, len < SHORT_WRITE ? len : SHORT_WRITE);
}

int __real_fsync(int fd);
int __wrap_fsync(int fd);
int __wrap_fsync(int fd)
{
	return fails("fsync", fd) ? -1 : __real_fsync(fd);
}

/* One that fails has closed all the same. */
int __real_close(int fd);
int __wrap_close(int fd);
int __wrap_close(int fd)
{
	int failed = fails("close", fd), closed = __real_close(fd);
	if (failed)
		errno = EIO;
	return failed ? -1 : closed;
}

int __real_fchown(int fd, uid_t user, gid_t group);
int __wrap_fchown(int fd, uid_t user, gid_t group);
int __wrap_fchown(int fd, uid_t user, gid_t group)
{
	return fails("fchown", fd) ? -1 : __real_fchown(fd, user, group);
}

int __real_fchmod(int fd, mode_t mode);
int __wrap_fchmod(int fd, mode_t mode);
int __wrap_fchmod(int fd, mode_t mode)
{
	return fails("fchmod", fd) ? -1 : __real_fchmod(fd, mode);
}

int __real_renameat(int from, const char *old, int to, const char *new);
int __wrap_renameat(int from, const char *old, int to, const char *new);
int __wrap_renameat(int from, const char *old, int to, const char *new)
{
	return fails("renameat", -1) ? -1 : __real_renameat(from, old, to, new);
}

int __real_renameat2(int from, const char *old, int to, const char *new, unsigned flags);
int __wrap_renameat2(int from, const char *old, int to, const char *new, unsigned flags);
int __wrap_renameat2(int from, const char *old, int to, const char *new, unsigned flags)
{
	if (fails("renameat2", -1))
		return -1;
	if (asked("APPEARS")) {
		int other = __real_openat(to, new, O_WRONLY | O_CREAT | O_EXCL, 0666);
		if (__real_write(other, "another", 7) != 7 || __real_close(other) != 0)
			abort();
	}
	if (!asked("OLD"))
		return __real_renameat2(from, old, to, new, flags);
	errno = EINVAL;
	return -1;
}

int __real_linkat(int from, const char *old, int to, const char *new, int flags);
int __wrap_linkat(int from, const char *old, int to, const char *new, int flags);
int __wrap_linkat(int from, const char *old, int to, const char *new, int flags)
{
	return fails("linkat", -1) ? -1 : __real_linkat(from, old, to, new, flags);
}

int __real_unlinkat(int folder, const char *path, int flags);
int __wrap_unlinkat(int folder, const char *path, int flags);
int __wrap_unlinkat(int folder, const char *path, int flags)
{
	return fails("unlinkat", -1) ? -1 : __real_unlinkat(folder, path, flags);
}
