/* slp check: whether replays are sound, a line for each. */
#include <stdio.h>
#include <stdlib.h>

#include "tool.h"

/* What the event data breaks: 19 has many reasons, of which some can be told apart. */
static const char *events_words(const content *c)
{
	slp_step first = slp_step_at(c->bytes, c->len, slp_first_place(c->bytes, c->len));
	if (first.kind != SLP_STEP_EVENT || first.code != SLP_EVENT_GAME_START || first.len < 4)
		return "the first event is no GameStart of at least 4 bytes";
	if (!slp_walk(c->bytes, c->len).whole)
		return unfilled(c->bytes, c->len) ? "the event data is cut: its length was never filled in" : "the event data is cut";
	return "the table of payload sizes, the place of an event, a code block, a player or an end is not as its version has it";
}

/* The words, which may stand in `room`. */
static const char *wrong_words(const content *c, uint8_t number, slp_words *room)
{
	switch (number) {
	case SLP_BAD_EVENTS: return events_words(c);
	case SLP_BAD_BODY: return "what stands after the event data is neither a closing brace nor metadata that can be read";
	default: *room = slp_refusal_words(number); return room->text;
	}
}

/* 15 to 17 name a place; so does 14, but it is the file's beginning. */
static void print_answer(const char *prefix, const content *c, slp_checked is)
{
	slp_words room;
	progress_clear();
	if (prefix)
		print_prefix(prefix);
	if (!is.refused)
		fputs("sound\n", out());
	else if (is.offset)
		fprintf(out(), "%u: %s, at byte %zu\n", is.refused, wrong_words(c, is.refused, &room), is.offset);
	else
		fprintf(out(), "%u: %s\n", is.refused, wrong_words(c, is.refused, &room));
}

static void print_json(const char *path, const content *c, slp_checked is)
{
	json j = json_file(path);
	slp_words room;
	json_mark(&j, "sound", !is.refused);
	if (is.refused)
		json_refused_for(&j, is.refused, is.offset, wrong_words(c, is.refused, &room));
	if (is.refused == SLP_BAD_EVENTS)
		json_fault(&j, c->bytes, c->len);
	json_line(&j);
}

static outcome check_file(const request *q, const char *path)
{
	content c;
	int wrong = load_more(path, LONGEST_TAIL + 1, &c);
	if (wrong)
		return unread(q, path, wrong);
	slp_checked is = slp_check(c.bytes, c.len);
	if (q->json)
		print_json(path, &c, is);
	else
		print_answer(q->several ? path : NULL, &c, is);
	complain_length(input_name(path), &c, is.refused, is.offset);
	if (is.refused == SLP_BAD_EVENTS)
		complain_fault(input_name(path), c.bytes, c.len);
	free(c.bytes);
	return is.refused ? IS_UNSOUND : IS_SOUND;
}

int check_files(const request *q)
{
	return each_file(q, check_file);
}
