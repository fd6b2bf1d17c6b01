/* Names and messages. */
#include <stdarg.h>
#include <stdio.h>
#include <string.h>

#include "tool.h"

const char *event_name(uint8_t code)
{
	switch (code) {
	case SLP_EVENT_MESSAGE_SPLITTER: return "MessageSplitter";
	case SLP_EVENT_PAYLOADS: return "Payloads";
	case SLP_EVENT_GAME_START: return "GameStart";
	case SLP_EVENT_FRAME_PRE: return "FramePre";
	case SLP_EVENT_FRAME_POST: return "FramePost";
	case SLP_EVENT_GAME_END: return "GameEnd";
	case SLP_EVENT_FRAME_START: return "FrameStart";
	case SLP_EVENT_ITEM: return "Item";
	case SLP_EVENT_FRAME_END: return "FrameEnd";
	case SLP_EVENT_GECKO_CODES: return "GeckoCodes";
	case SLP_EVENT_FOD_PLATFORM: return "FodPlatform";
	case SLP_EVENT_DREAMLAND_WHISPY: return "DreamlandWhispy";
	case SLP_EVENT_STADIUM_TRANSFORMATION: return "StadiumTransformation";
	default: return NULL;
	}
}

const char *input_name(const char *path)
{
	return strcmp(path, "-") == 0 ? "standard input" : path;
}

const char *output_name(const char *path)
{
	return strcmp(path, "-") == 0 ? "standard output" : path;
}

void print_prefix(const char *name)
{
	put_name(out(), name);
	fputs(": ", out());
}

FILE *say_wrote(const char *path, size_t len)
{
	FILE *to = strcmp(path, "-") == 0 ? stderr : stdout;
	fputs("wrote ", to);
	put_name(to, output_name(path));
	fprintf(to, ": %zu bytes", len);
	return to;
}

void complain(const char *name, const char *format, ...)
{
	va_list rest;
	progress_clear();
	fflush(out());
	fputs("slp: ", err());
	put_name(err(), name);
	fputs(": ", err());
	va_start(rest, format);
	vfprintf(err(), format, rest);
	va_end(rest);
	fputc('\n', err());
}

outcome unread(const request *q, const char *path, int wrong)
{
	if (q->json) {
		json j = json_file(path);
		json_words(&j, "error", strerror(wrong));
		json_line(&j);
	}
	complain(input_name(path), "%s", strerror(wrong));
	return IS_UNREAD;
}

void complain_refused(const char *name, unsigned number, size_t offset)
{
	complain(name, "refused %u at byte %zu: %s", number, offset, REFUSAL_WORDS(number));
}

size_t declared_length(const uint8_t *file)
{
	return (size_t)file[11] << 24 | (size_t)file[12] << 16 | (size_t)file[13] << 8 | file[14];
}

void declare_length(uint8_t *file, size_t len)
{
	for (int i = 0; i < 4; i++)
		file[11 + i] = (uint8_t)(len >> (24 - 8 * i));
}

int unfilled(const uint8_t *file, size_t len)
{
	return len >= 15 && declared_length(file) == 0;
}

void complain_unfilled(const char *name, const uint8_t *file, size_t len)
{
	if (unfilled(file, len))
		complain(name, "the length was never filled in: the event data is read to the file's end");
}

void complain_cut(const char *name, const uint8_t *file, size_t len)
{
	if (unfilled(file, len))
		complain(name, "cut: %zu bytes of event data are there", len - 15);
	else
		complain(name, "cut: %zu of %zu bytes of event data are there", len - 15, declared_length(file));
}

fault_text say_fault(slp_faulted why)
{
	fault_text t;
	int at_end = why.reason == SLP_FAULT_CUT || why.reason == SLP_FAULT_LENGTH;
	slp_words reason = slp_fault_words(why.reason);
	if (at_end)
		snprintf(t.text, sizeof t.text, "behind %zu event%s, at byte %zu: %s", why.event, why.event == 1 ? "" : "s", why.offset, reason.text);
	else
		snprintf(t.text, sizeof t.text, "event %zu, at byte %zu: %s", why.event, why.offset, reason.text);
	return t;
}

/* What repair keeps ends before a wrong event. Where none is wrong, and all declared bytes are there, more events may stand behind these. */
void complain_fault(const char *name, const uint8_t *file, size_t len)
{
	slp_faulted why = slp_fault(file, len);
	if (!why.reason)
		return;
	fault_text fault = say_fault(why);
	slp_repaired kept = slp_measure_repair(file, len);
	if (kept.refused)
		complain(name, "%s; 'slp repair' finds no beginning that can be read", fault.text);
	else if (why.reason == SLP_FAULT_CUT && slp_walk(file, len).whole)
		complain(name, "%s; 'slp repair' keeps what can be read", fault.text);
	else
		complain(name, "%s; 'slp repair' keeps %zu event%s", fault.text, kept.events, kept.events == 1 ? "" : "s");
}
