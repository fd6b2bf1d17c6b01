/* Texts and file names on one line. They come from anywhere: none of them may move a cursor, colour a line, turn its direction or begin another. */
#include <string.h>

#include "tool.h"

typedef struct {
	uint32_t from, to;
} range;

/* Characters that are not shown: controls; marks of direction, of lines and of width, which draw nothing; halves of pairs; tags. */
static const range HIDDEN[] = {
	{ 0x0000, 0x001f }, { 0x007f, 0x009f }, { 0x00ad, 0x00ad }, { 0x061c, 0x061c }, { 0x180e, 0x180e }, { 0x200b, 0x200f }, { 0x2028, 0x202e },
	{ 0x2060, 0x206f }, { 0xd800, 0xdfff }, { 0xfeff, 0xfeff }, { 0xfff9, 0xfffb }, { 0xfffe, 0xffff }, { 0xe0000, 0xe0fff },
};

static int hidden(uint32_t code)
{
	for (size_t i = 0; i < sizeof HIDDEN / sizeof *HIDDEN; i++)
		if (code >= HIDDEN[i].from && code <= HIDDEN[i].to)
			return 1;
	return code == '"' || code == '\\' || code > 0x10ffff;
}

/* The character at the front of a text that is not empty, and how many bytes it has; 0 if they are not UTF-8, in its shortest form. */
static size_t decode(const uint8_t *text, size_t len, uint32_t *code)
{
	static const uint32_t least[] = { 0, 0, 0x80, 0x800, 0x10000 };
	uint8_t first = text[0];
	size_t n = first < 0x80 ? 1 : first < 0xe0 ? 2 : first < 0xf0 ? 3 : 4;
	if ((first >= 0x80 && first < 0xc0) || first >= 0xf8 || n > len)
		return 0;
	*code = n == 1 ? first : first & (0x7fu >> n);
	for (size_t i = 1; i < n; i++) {
		if ((text[i] & 0xc0) != 0x80)
			return 0;
		*code = *code << 6 | (text[i] & 0x3f);
	}
	return *code < least[n] ? 0 : n;
}

/* How many bytes at the front are shown as they are: a character's, or 0. */
static size_t shown(const uint8_t *text, size_t len)
{
	uint32_t code = 0;
	size_t n = decode(text, len, &code);
	return hidden(code) ? 0 : n;
}

int plain(const uint8_t *text, size_t len)
{
	for (size_t at = 0, n; at < len; at += n)
		if ((n = shown(text + at, len - at)) == 0)
			return 0;
	return 1;
}

void put_text(FILE *to, const uint8_t *text, size_t len)
{
	fputc('"', to);
	for (size_t at = 0; at < len;) {
		size_t n = shown(text + at, len - at);
		if (n == 0)
			fprintf(to, "\\x%02x", text[at]);
		else
			fwrite(text + at, 1, n, to);
		at += n ? n : 1;
	}
	fputc('"', to);
}

void put_xml_text(FILE *to, const uint8_t *text, size_t len)
{
	for (size_t at = 0; at < len;) {
		size_t n = shown(text + at, len - at);
		if (n == 0 && text[at] != '"' && text[at] != '\\')
			fprintf(to, "\\x%02x", text[at]);
		else if (strchr("&<>\"", text[at]))
			fprintf(to, "&#%d;", text[at]);
		else
			fwrite(text + at, 1, n ? n : 1, to);
		at += n ? n : 1;
	}
}

static void put_escape(FILE *to, uint32_t code)
{
	if (code == '"' || code == '\\')
		fprintf(to, "\\%c", (char)code);
	else if (code < 0x10000)
		fprintf(to, "\\u%04x", (unsigned)code);
	else
		fprintf(to, "\\u%04x\\u%04x", (unsigned)(0xd7c0 + (code >> 10)), (unsigned)(0xdc00 | (code & 0x3ff)));
}

void put_json_text(FILE *to, const uint8_t *text, size_t len)
{
	fputc('"', to);
	for (size_t at = 0; at < len;) {
		uint32_t code = 0xfffd;
		size_t n = decode(text + at, len - at, &code);
		int broken = n == 0 || code > 0x10ffff || (code >= 0xd800 && code < 0xe000);
		if (broken || hidden(code))
			put_escape(to, broken ? 0xfffd : code);
		else
			fwrite(text + at, 1, n, to);
		at += broken ? 1 : n;
	}
	fputc('"', to);
}

void put_name(FILE *to, const char *name)
{
	const uint8_t *text = (const uint8_t *)name;
	size_t len = strlen(name);
	if (len > 0 && plain(text, len) && !strstr(name, ": "))
		fputs(name, to);
	else
		put_text(to, text, len);
}
