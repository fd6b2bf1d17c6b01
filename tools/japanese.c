/* Texts of the game itself, which are Shift-JIS. */
#include <iconv.h>
#include <string.h>

#include "tool.h"

/* CP932 is the form in which a backslash is one. */
name_text from_japanese(const uint8_t *text, size_t len)
{
	name_text t = { .len = 0 };
	char *from = (char *)(uintptr_t)text, *to = (char *)t.bytes;
	size_t left = len, room = sizeof t.bytes;
	iconv_t c = iconv_open("UTF-8", "CP932");
	if (c != (iconv_t)-1 && iconv(c, &from, &left, &to, &room) != (size_t)-1 && left == 0) {
		t.len = sizeof t.bytes - room;
	} else {
		t.len = len < sizeof t.bytes ? len : sizeof t.bytes;
		memcpy(t.bytes, text, t.len);
	}
	if (c != (iconv_t)-1)
		iconv_close(c);
	return t;
}
