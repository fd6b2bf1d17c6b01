/* What stands after the event data of a replay. */
#include <string.h>

#include "tool.h"

static const uint8_t KEY[TAIL_KEY] = { 0x55, 8, 'm', 'e', 't', 'a', 'd', 'a', 't', 'a', 0x7b };
enum { BRACE = 0x7d };

int tail_kind(const uint8_t *tail, size_t len)
{
	if (len == 1 && tail[0] == BRACE)
		return SLP_FILE_TAIL_NONE;
	if (len < TAIL_KEY + TAIL_BRACES || len > LONGEST_TAIL || memcmp(tail, KEY, TAIL_KEY) != 0)
		return SLP_FILE_TAIL_ODD;
	return tail[len - 2] == BRACE && tail[len - 1] == BRACE ? SLP_FILE_TAIL_METADATA : SLP_FILE_TAIL_ODD;
}

#define TAIL_STANDS "the events end at byte %zu, where the file's tail stands ('slp repair' sets it right)"

void complain_length(const char *name, const content *c, unsigned number, size_t offset)
{
	if (number != SLP_UNKNOWN_EVENT && number != SLP_BAD_PLACE)
		return;
	if (tail_kind(c->bytes + offset, c->len - offset) == SLP_FILE_TAIL_ODD)
		return;
	if (unfilled(c->bytes, c->len))
		complain(name, "the length field is zero: " TAIL_STANDS, offset);
	else
		complain(name, "the length field is %zu too high: " TAIL_STANDS, 15 + declared_length(c->bytes) - offset, offset);
}
