/* Reading files of any size. */
#include <errno.h>
#include <fcntl.h>
#include <stdlib.h>
#include <string.h>
#include <sys/stat.h>
#include <unistd.h>

#include "tool.h"

/* Signature and length; how much is read at a time; and how much before it is looked at. */
enum { HEAD = 15, SLICE = 1 << 20, MUCH = 32 << 20 };

/* How far a replay matters: to the end of its event data, as its head says, and so many bytes more; to its own end where the length was never
 * filled in, and where all is asked for. */
static size_t wanted(const content *c, size_t more)
{
	if (c->len < HEAD)
		return HEAD;
	if (slp_walk(c->bytes, HEAD).refused == SLP_NOT_A_REPLAY)
		return HEAD;
	return more == ALL_OF_IT || unfilled(c->bytes, c->len) ? SIZE_MAX : HEAD + declared_length(c->bytes) + more;
}

/* Whether nothing that follows changes what is said: of what a walk refuses, and where no tail can begin that ends the file. The events before the
 * refused place are the same, however much follows. */
static int settled(const content *c)
{
	slp_walked w = slp_walk(c->bytes, c->len);
	return w.refused && c->len - w.offset > LONGEST_TAIL;
}

static int grow(content *c, size_t *room)
{
	uint8_t *more = realloc(c->bytes, 2 * *room + SLICE);
	if (!more)
		return ENOMEM;
	c->bytes = more;
	*room = 2 * *room + SLICE;
	return 0;
}

/* Up to a slice more; 0 at the end, or -1 and errno. */
static ssize_t read_slice(int fd, content *c, size_t end)
{
	size_t rest = end - c->len;
	ssize_t got;
	do
		got = read(fd, c->bytes + c->len, rest < SLICE ? rest : SLICE);
	while (got < 0 && errno == EINTR);
	if (got > 0) {
		c->len += (size_t)got;
		progress_add((uint64_t)got);
	}
	return got;
}

/* Whenever the memory of a long file is full, what is there is looked at before more is taken: a walk for each doubling. */
static int read_all(int fd, size_t more, content *c)
{
	size_t room = 0, end;
	while ((end = wanted(c, more)) > c->len) {
		if (room - c->len < SLICE) {
			if (more != ALL_OF_IT && c->len > MUCH && settled(c))
				return 0;
			int wrong = grow(c, &room);
			if (wrong)
				return wrong;
		}
		ssize_t got = read_slice(fd, c, end);
		if (got <= 0)
			return got == 0 ? 0 : errno;
	}
	return 0;
}

int load_more(const char *path, size_t more, content *c)
{
	*c = (content){ NULL, 0 };
	int standard = strcmp(path, "-") == 0, fd = standard ? STDIN_FILENO : open(path, O_RDONLY | O_CLOEXEC);
	if (fd < 0)
		return errno;
	int wrong = read_all(fd, more, c);
	if (!standard)
		close(fd);
	if (wrong) {
		free(c->bytes);
		*c = (content){ NULL, 0 };
	}
	return wrong;
}

uint64_t total_size(char **paths, int count)
{
	uint64_t sum = 0;
	struct stat s;
	for (int i = 0; i < count; i++)
		if ((strcmp(paths[i], "-") == 0 ? fstat(STDIN_FILENO, &s) : stat(paths[i], &s)) == 0 && S_ISREG(s.st_mode))
			sum += (uint64_t)s.st_size;
	return sum;
}
