/* slp meta: the metadata of a replay as an indented map. */
#include <errno.h>
#include <stdio.h>
#include <stdlib.h>
#include <string.h>

#include "tool.h"

/* An entry takes at least four bytes of a body: a key's two, and two braces. */
enum { LEAST = 4 };

/* One entry; its maps' entries follow it. */
static void print_entry(const uint8_t *body, const slp_entry *e, int depth)
{
	fprintf(out(), "%*s", 2 * depth, "");
	put_text(out(), body + e->key, e->key_len);
	fputs(": ", out());
	if (e->kind == SLP_ENTRY_TEXT)
		put_text(out(), body + e->value, e->len);
	else if (e->kind == SLP_ENTRY_NUMBER)
		fprintf(out(), "%ld", (long)(int32_t)e->value);
	else
		fputs(e->value ? "{" : "{}", out());
	fputc('\n', out());
}

static void print_end(int depth)
{
	fprintf(out(), "%*s}\n", 2 * depth, "");
}

static void json_entry(json *j, const uint8_t *body, const slp_entry *e)
{
	json_name(j, body + e->key, e->key_len);
	if (e->kind == SLP_ENTRY_TEXT)
		json_text(j, NULL, body + e->value, e->len);
	else if (e->kind == SLP_ENTRY_NUMBER)
		json_number(j, NULL, (int32_t)e->value);
	else
		json_begin(j, NULL, '{');
	if (e->kind == SLP_ENTRY_MAP && e->value == 0)
		json_end(j, '}');
}

/* All entries, by how many each open map has left; as JSON where there is one. Lines begin as far in as `in` says. */
static void print_map(const uint8_t *body, const slp_entry *entries, slp_map_read r, json *j, int in)
{
	size_t left[10] = { r.count };
	int depth = 0;
	for (size_t i = 0; i < r.entries; i++) {
		left[depth]--;
		if (j)
			json_entry(j, body, &entries[i]);
		else
			print_entry(body, &entries[i], in + depth);
		if (entries[i].kind == SLP_ENTRY_MAP && entries[i].value)
			left[++depth] = entries[i].value;
		while (depth > 0 && left[depth] == 0) {
			depth--;
			if (j)
				json_end(j, '}');
			else
				print_end(in + depth);
		}
	}
}

/* What is shown of a file: the map, after its name where there are several. */
static void print_all(const request *q, const char *path, const uint8_t *body, const slp_entry *entries, slp_map_read r)
{
	if (q->json) {
		json j = json_file(path);
		json_begin(&j, "metadata", '{');
		print_map(body, entries, r, &j, 0);
		json_end(&j, '}');
		json_line(&j);
		return;
	}
	progress_clear();
	if (q->several) {
		put_name(out(), path);
		fputs(":\n", out());
	}
	print_map(body, entries, r, NULL, q->several);
}

/* A file without a map to show, and how it is, as JSON. */
static outcome nothing(const request *q, const char *path, outcome how, unsigned refused, size_t offset)
{
	if (!q->json)
		return how;
	json j = json_file(path);
	if (how == IS_REFUSED)
		json_refused(&j, refused, offset);
	else if (how == IS_CUT)
		json_mark(&j, "whole", 0);
	else
		json_null(&j, "metadata");
	json_line(&j);
	return how;
}

static outcome print_body(const request *q, const char *path, const uint8_t *body, size_t len, size_t offset)
{
	size_t most = len / LEAST + 1;
	slp_entry *entries = malloc(most * sizeof *entries);
	if (!entries)
		return unread(q, path, ENOMEM);
	slp_map_read r = slp_read_map(body, len, entries, SLP_CELLS(most));
	if (r.refused) {
		nothing(q, path, IS_REFUSED, r.refused, offset + r.place);
		complain_refused(input_name(path), r.refused, offset + r.place);
	} else {
		print_all(q, path, body, entries, r);
	}
	free(entries);
	return r.refused ? IS_REFUSED : IS_WHOLE;
}

/* The tail begins where the event data ends: one brace, or the key, a body and two braces. */
static outcome print_tail(const request *q, const char *path, const content *c, size_t at)
{
	const uint8_t *tail = c->bytes + at;
	size_t len = c->len - at;
	int kind = tail_kind(tail, len);
	if (kind == SLP_FILE_TAIL_METADATA)
		return print_body(q, path, tail + TAIL_KEY, len - TAIL_KEY - TAIL_BRACES, at + TAIL_KEY);
	nothing(q, path, IS_BARE, 0, 0);
	if (kind == SLP_FILE_TAIL_NONE)
		complain(input_name(path), "has no metadata");
	else if (len > LONGEST_TAIL)
		complain(input_name(path), "more than %d bytes after the event data, which no metadata takes", (int)LONGEST_TAIL);
	else
		complain(input_name(path), "what stands after the event data, from byte %zu on, is no metadata", at);
	return IS_BARE;
}

static outcome print_metadata(const request *q, const char *path, const content *c)
{
	const char *name = input_name(path);
	slp_walked w = slp_walk(c->bytes, c->len);
	if (!w.refused && w.whole)
		return print_tail(q, path, c, 15 + declared_length(c->bytes));
	nothing(q, path, w.refused ? IS_REFUSED : IS_CUT, w.refused, w.offset);
	if (w.refused != SLP_NOT_A_REPLAY)
		complain_unfilled(name, c->bytes, c->len);
	if (w.refused) {
		complain_refused(name, w.refused, w.offset);
		complain_length(name, c, w.refused, w.offset);
		return IS_REFUSED;
	}
	complain_cut(name, c->bytes, c->len);
	complain_fault(name, c->bytes, c->len);
	return IS_CUT;
}

static outcome show_file(const request *q, const char *path)
{
	content c;
	int wrong = load_more(path, LONGEST_TAIL + 1, &c);
	if (wrong)
		return unread(q, path, wrong);
	outcome how = print_metadata(q, path, &c);
	free(c.bytes);
	return how;
}

int show_metadata(const request *q)
{
	return each_file(q, show_file);
}
