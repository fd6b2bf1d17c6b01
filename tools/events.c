/* slp events: how many events of each code a replay has. */
#include <stdio.h>
#include <stdlib.h>
#include <string.h>

#include "tool.h"

/* Counts by code, and the bar's place. */
typedef struct {
	size_t events[256];
	size_t counted;
} tally;

/* The bar moves on after so many bytes. */
enum { STRIDE = 1 << 20 };

/* From the table's end on, until no event stands at a place; what stands there. slp_step_at reads the table anew for every event, some ten
 * times slower than slp_walk, but it says what each event is. */
static slp_step count_events(const content *c, tally *t)
{
	slp_step s = { .kind = SLP_STEP_EVENT, .next = slp_first_place(c->bytes, c->len) };
	while ((s = slp_step_at(c->bytes, c->len, s.next)).kind == SLP_STEP_EVENT) {
		t->events[s.code]++;
		if (s.next - t->counted >= STRIDE) {
			progress_add(s.next - t->counted);
			t->counted = s.next;
		}
	}
	progress_clear();
	return s;
}

/* Where the table stands: a code, its own size, then three bytes an entry. */
enum { TABLE = 15 };

/* All events of a code. */
typedef struct {
	uint8_t code;
	size_t events, payload;
} row;

/* The row at a place of the table, in its order; its own stands before its entries. */
static row row_at(const content *c, const tally *t, size_t at)
{
	if (at == TABLE)
		return (row){ SLP_EVENT_PAYLOADS, 1, slp_first_place(c->bytes, c->len) - TABLE - 1 };
	return (row){ c->bytes[at], t->events[c->bytes[at]], (size_t)c->bytes[at + 1] << 8 | c->bytes[at + 2] };
}

static size_t next_row(size_t at)
{
	return at == TABLE ? TABLE + 2 : at + 3;
}

static void print_row(row r)
{
	const char *name = event_name(r.code);
	printf("%02x    %-21s  %10zu  %7zu  %12zu\n", r.code, name ? name : "?", r.events, r.payload, r.events * (1 + r.payload));
}

static void json_row(json *j, row r)
{
	const char *name = event_name(r.code);
	json_begin(j, NULL, '{');
	json_number(j, "code", r.code);
	if (name)
		json_words(j, "name", name);
	else
		json_null(j, "name");
	json_count(j, "count", r.events);
	json_count(j, "payload", r.payload);
	json_count(j, "bytes", (r.events * (1 + r.payload)));
	json_end(j, '}');
}

/* A row for each entry of the table. */
static void print_table(const content *c, const tally *t)
{
	size_t all = 0, bytes = 0;
	printf("%-4s  %-21s  %10s  %7s  %12s\n", "code", "event", "count", "payload", "bytes");
	for (size_t at = TABLE; at < slp_first_place(c->bytes, c->len); at = next_row(at)) {
		row r = row_at(c, t, at);
		print_row(r);
		all += r.events;
		bytes += r.events * (1 + r.payload);
	}
	printf("%-4s  %-21s  %10zu  %7s  %12zu\n", "", "total", all, "", bytes);
}

static void json_table(json *j, const content *c, const tally *t)
{
	json_begin(j, "table", '[');
	for (size_t at = TABLE; at < slp_first_place(c->bytes, c->len); at = next_row(at))
		json_row(j, row_at(c, t, at));
	json_end(j, ']');
}

static void complain_refused_events(const char *name, const content *c, slp_step last)
{
	if (last.refused != SLP_NOT_A_REPLAY)
		complain_unfilled(name, c->bytes, c->len);
	complain_refused(name, last.refused, last.offset);
	complain_length(name, c, last.refused, last.offset);
}

static void json_events(const char *path, const content *c, const tally *t, slp_step last, slp_walked w)
{
	json j = json_file(path);
	if (last.refused != SLP_NOT_A_REPLAY && last.refused != SLP_BAD_TABLE)
		json_table(&j, c, t);
	if (last.kind == SLP_STEP_REFUSED) {
		json_refused(&j, last.refused, last.offset);
	} else {
		json_count(&j, "events", w.events);
		json_count(&j, "stray", w.stray);
		json_mark(&j, "whole", w.whole);
	}
	json_line(&j);
}

static void print_events(const content *c, const tally *t, slp_step last, slp_walked w)
{
	if (last.refused != SLP_NOT_A_REPLAY && last.refused != SLP_BAD_TABLE)
		print_table(c, t);
	if (last.kind != SLP_STEP_REFUSED)
		printf("\n%zu events after Payloads, %zu stray bytes, %s\n", w.events, w.stray, w.whole ? "whole" : "cut");
}

/* The table, then what stands where the events stop. */
static int list_events(const request *q, const char *path, const content *c)
{
	const char *name = input_name(path);
	tally t = { .counted = 0 };
	slp_step last = count_events(c, &t);
	slp_walked w = slp_walk(c->bytes, c->len);
	if (q->json)
		json_events(path, c, &t, last, w);
	else
		print_events(c, &t, last, w);
	if (last.kind == SLP_STEP_REFUSED) {
		complain_refused_events(name, c, last);
		return FAILED;
	}
	complain_unfilled(name, c->bytes, c->len);
	if (!w.whole)
		complain_cut(name, c->bytes, c->len);
	return w.whole ? WELL : FAILED;
}

int show_events(const request *q)
{
	content c;
	const char *path = q->files[0];
	progress_begin(q->progress, "reading", total_size(q->files, 1));
	int wrong = load_more(path, LONGEST_TAIL + 1, &c);
	if (wrong) {
		unread(q, path, wrong);
		return FAILED;
	}
	progress_begin(q->progress, "counting", c.len);
	int status = list_events(q, path, &c);
	free(c.bytes);
	return status;
}
