/* Where lines and messages go. A file that is worked on beside others has its own in memory, so that what is said of it stays together. */
#include "tool.h"

static _Thread_local struct {
	FILE *out, *err;
} own;

FILE *out(void)
{
	return own.out ? own.out : stdout;
}

FILE *err(void)
{
	return own.err ? own.err : stderr;
}

void say_to(FILE *lines, FILE *messages)
{
	own.out = lines;
	own.err = messages;
}
