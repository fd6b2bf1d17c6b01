/* Kills a program that records, once it has put $DIE_AFTER bytes into files: loaded before the C library (LD_PRELOAD), whose write, pwrite and fsync it has.
 * Of a write that goes beyond these bytes the first ones are done; what is put at a place is done as a whole or not at all, and only once all that was written
 * before is on the disk: else the program is aborted. */
#include <signal.h>
#include <stdlib.h>
#include <sys/syscall.h>
#include <sys/types.h>
#include <unistd.h>

ssize_t pwrite64(int file, const void *bytes, size_t n, off_t at);

/* Whether something was written and not waited for. */
static int waiting;

/* How many bytes more may be put. */
static size_t left(size_t more)
{
	static size_t put;
	const char *most = getenv("DIE_AFTER");
	put += more;
	return (size_t)atol(most ? most : "") - put;
}

static void die_if(int over)
{
	if (over)
		kill(getpid(), SIGKILL);
}

ssize_t write(int file, const void *bytes, size_t n)
{
	if (file <= STDERR_FILENO)
		return syscall(SYS_write, file, bytes, n);
	size_t most = left(0);
	ssize_t done = syscall(SYS_write, file, bytes, n < most ? n : most);
	die_if(n >= most);
	left((size_t)done);
	waiting = 1;
	return done;
}

ssize_t pwrite64(int file, const void *bytes, size_t n, off_t at)
{
	size_t most = left(0);
	if (waiting)
		abort();
	die_if(n > most);
	ssize_t done = syscall(SYS_pwrite64, file, bytes, n, at);
	die_if(n == most);
	left((size_t)done);
	return done;
}

ssize_t pwrite(int file, const void *bytes, size_t n, off_t at)
{
	return pwrite64(file, bytes, n, at);
}

/* What a program has written stays when it dies: no disk need be waited for. */
int fsync(int file)
{
	(void)file;
	waiting = 0;
	return 0;
}
