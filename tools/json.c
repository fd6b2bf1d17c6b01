/* JSON: one value a file, one a line. Texts are UTF-8 as they are, with escapes for what is not shown; broken bytes become U+FFFD. */
#include <inttypes.h>
#include <string.h>

#include "shortest.h"
#include "tool.h"

/* What stands before a value: a comma where it is not the first, and its name where it has one. */
static void before(json *j, const char *name)
{
	if (j->more)
		fputc(',', j->to);
	j->more = 1;
	if (name)
		fprintf(j->to, "\"%s\":", name);
}

void json_begin(json *j, const char *name, char bracket)
{
	before(j, name);
	fputc(bracket, j->to);
	j->more = 0;
}

void json_end(json *j, char bracket)
{
	fputc(bracket, j->to);
	j->more = 1;
}

void json_name(json *j, const uint8_t *name, size_t len)
{
	before(j, NULL);
	put_json_text(j->to, name, len);
	fputc(':', j->to);
	j->more = 0;
}

void json_text(json *j, const char *name, const uint8_t *text, size_t len)
{
	before(j, name);
	put_json_text(j->to, text, len);
}

void json_words(json *j, const char *name, const char *words)
{
	json_text(j, name, (const uint8_t *)words, strlen(words));
}

void json_number(json *j, const char *name, int64_t n)
{
	before(j, name);
	fprintf(j->to, "%" PRId64, n);
}

void json_count(json *j, const char *name, uint64_t n)
{
	before(j, name);
	fprintf(j->to, "%" PRIu64, n);
}

/* JSON has no infinities and nothing that is no number. */
void json_real(json *j, const char *name, uint32_t bits)
{
	char text[SHORTEST_ROOM];
	if ((bits >> 23 & 0xff) == 0xff) {
		json_null(j, name);
		return;
	}
	before(j, name);
	fwrite(text, 1, shortest(bits, text), j->to);
}

void json_mark(json *j, const char *name, int yes)
{
	before(j, name);
	fputs(yes ? "true" : "false", j->to);
}

void json_null(json *j, const char *name)
{
	before(j, name);
	fputs("null", j->to);
}

json json_file(const char *path)
{
	json j = { .to = out() };
	progress_clear();
	json_begin(&j, NULL, '{');
	json_words(&j, "file", path);
	return j;
}

void json_refused_for(json *j, unsigned number, size_t offset, const char *words)
{
	json_number(j, "refused", number);
	json_count(j, "offset", offset);
	json_words(j, "words", words);
}

void json_refused(json *j, unsigned number, size_t offset)
{
	json_refused_for(j, number, offset, REFUSAL_WORDS(number));
}

void json_fault(json *j, const uint8_t *file, size_t len)
{
	slp_faulted why = slp_fault(file, len);
	if (!why.reason)
		return;
	json_begin(j, "fault", '{');
	json_number(j, "reason", why.reason);
	json_count(j, "event", why.event);
	json_count(j, "offset", why.offset);
	json_words(j, "words", slp_fault_words(why.reason).text);
	json_end(j, '}');
}

void json_line(json *j)
{
	json_end(j, '}');
	fputc('\n', j->to);
}
