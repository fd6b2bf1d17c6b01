#include "map.h"

#include <stdlib.h>
#include <string.h>

#include "check.h"

enum { DEEPEST = 8, LONGEST = 255 };

/* ---- entries */

typedef struct {
	const slp_entry *entries;
	size_t n;
	const uint8_t *texts;
	size_t texts_len;
	int deep, too_long, twice, wrong;
	uint8_t *out;
	size_t room, len;
} writing;

static void put(writing *w, const void *from, size_t n)
{
	if (w->len + n <= w->room && n)
		memcpy(w->out + w->len, from, n);
	w->len += n;
}

static void put_byte(writing *w, unsigned b)
{
	uint8_t byte = (uint8_t)b;
	put(w, &byte, 1);
}

static int in_store(const writing *w, uint32_t at, uint32_t len)
{
	return (uint64_t)at + len <= w->texts_len;
}

static void put_text(writing *w, uint32_t at, uint32_t len)
{
	if (len > LONGEST)
		w->too_long = 1;
	else if (!in_store(w, at, len))
		w->wrong = 1;
	else {
		put_byte(w, 'U');
		put_byte(w, len);
		put(w, w->texts + at, len);
	}
}

static int same_key(const writing *w, const slp_entry *a, const slp_entry *b)
{
	return in_store(w, a->key, a->key_len) && in_store(w, b->key, b->key_len) && a->key_len == b->key_len
	       && memcmp(w->texts + a->key, w->texts + b->key, a->key_len) == 0;
}

/* `count` entries from i on, at a depth; the entry after them. */
static size_t put_entries(writing *w, size_t i, size_t count, int depth)
{
	size_t *mine = take((w->n + 1) * sizeof *mine), k = 0;
	for (; k < count; k++) {
		if (i >= w->n) {
			w->wrong = 1;
			break;
		}
		const slp_entry *e = &w->entries[i];
		for (size_t j = 0; j < k; j++)
			w->twice |= same_key(w, &w->entries[mine[j]], e);
		mine[k] = i++;
		put_text(w, e->key, e->key_len);
		if (e->kind == SLP_ENTRY_TEXT) {
			put_byte(w, 'S');
			put_text(w, e->value, e->len);
		} else if (e->kind == SLP_ENTRY_NUMBER) {
			const uint8_t number[5] = { 'l', (uint8_t)(e->value >> 24), (uint8_t)(e->value >> 16), (uint8_t)(e->value >> 8), (uint8_t)e->value };
			put(w, number, sizeof number);
		} else if (e->kind != SLP_ENTRY_MAP) {
			w->wrong = 1;
		} else if (depth == DEEPEST) {
			w->deep = 1;
		} else {
			put_byte(w, '{');
			i = put_entries(w, i, e->value, depth + 1);
			put_byte(w, '}');
		}
	}
	free(mine);
	return i;
}

unsigned model_write_map(const slp_entry *entries, size_t cells, const uint8_t *texts, size_t texts_len, size_t count, size_t room, uint8_t *out,
                         size_t out_room, size_t *len)
{
	writing w = { .entries = entries, .n = cells / 5, .texts = texts, .texts_len = texts_len, .out = out, .room = out_room };
	size_t next = put_entries(&w, 0, count, 0);
	*len = w.len;
	if (w.deep)
		return SLP_TOO_DEEP;
	if (w.too_long)
		return SLP_LONG_TEXT;
	if (w.twice)
		return SLP_REPEATED_KEY;
	if (w.wrong || next != w.n || cells % 5)
		return SLP_BAD_BODY;
	if (w.len > SLP_MAX_METADATA)
		return SLP_TOO_MANY;
	return w.len > room ? SLP_SHORT_OUTPUT : SLP_OK;
}

/* ---- bodies */

typedef struct {
	const uint8_t *body;
	size_t len, at;
	unsigned refused;
	size_t place;
	slp_entry *entries;
	size_t n;
} reading;

static int fail(reading *r, unsigned number, size_t place)
{
	r->refused = number;
	r->place = place;
	return 0;
}

/* What a length by another mark than U says: 21 for more than 255, else 23. */
static unsigned other_length(const reading *r)
{
	if (r->at >= r->len)
		return SLP_BAD_BODY;
	size_t width = r->body[r->at] == 'I' ? 2 : r->body[r->at] == 'l' ? 4 : r->body[r->at] == 'L' ? 8 : 0;
	if (!width || r->len - r->at - 1 < width || r->body[r->at + 1] & 0x80)
		return SLP_BAD_BODY;
	uint64_t value = 0;
	for (size_t i = 1; i <= width; i++)
		value = value << 8 | r->body[r->at + i];
	return value > LONGEST ? SLP_LONG_TEXT : SLP_BAD_BODY;
}

static int read_text(reading *r, uint32_t *at, uint32_t *len)
{
	if (r->at >= r->len || r->body[r->at] != 'U')
		return fail(r, other_length(r), r->at);
	if (r->len - r->at < 2 || r->len - r->at - 2 < r->body[r->at + 1])
		return fail(r, SLP_BAD_BODY, r->at);
	*len = r->body[r->at + 1];
	*at = (uint32_t)(r->at + 2);
	r->at += 2 + *len;
	return 1;
}

static int read_entries(reading *r, int depth, uint32_t *count);

static int read_value(reading *r, slp_entry *e, int depth)
{
	unsigned mark = r->at < r->len ? r->body[r->at] : 0;
	const uint8_t *p = r->body + r->at;
	if (mark == 'S') {
		e->kind = SLP_ENTRY_TEXT;
		r->at++;
		return read_text(r, &e->value, &e->len);
	}
	if (mark == 'l' && r->len - r->at >= 5) {
		e->kind = SLP_ENTRY_NUMBER;
		e->value = (uint32_t)p[1] << 24 | (uint32_t)p[2] << 16 | (uint32_t)p[3] << 8 | p[4];
		r->at += 5;
		return 1;
	}
	if (mark != '{')
		return fail(r, SLP_BAD_BODY, r->at);
	if (depth == DEEPEST)
		return fail(r, SLP_TOO_DEEP, r->at);
	e->kind = SLP_ENTRY_MAP;
	r->at++;
	if (!read_entries(r, depth + 1, &e->value))
		return 0;
	if (r->at >= r->len || r->body[r->at] != '}')
		return fail(r, other_length(r), r->at);
	r->at++;
	return 1;
}

static int read_entries(reading *r, int depth, uint32_t *count)
{
	size_t *mine = take((r->len + 1) * sizeof *mine);
	int ok = 1;
	*count = 0;
	while (ok && r->at < r->len && r->body[r->at] == 'U') {
		size_t start = r->at, own = r->n++;
		slp_entry e = { 0 };
		ok = read_text(r, &e.key, &e.key_len);
		for (size_t j = 0; ok && j < *count; j++) {
			const slp_entry *o = &r->entries[mine[j]];
			if (o->key_len == e.key_len && memcmp(r->body + o->key, r->body + e.key, e.key_len) == 0)
				ok = fail(r, SLP_REPEATED_KEY, start);
		}
		r->entries[own] = e;
		if (ok && (ok = read_value(r, &e, depth)))
			r->entries[own] = e;
		mine[(*count)++] = own;
	}
	free(mine);
	return ok;
}

slp_map_read model_read_map(const uint8_t *body, size_t len, slp_entry *entries, size_t cells)
{
	reading r = { .body = body, .len = len, .entries = entries };
	uint32_t count = 0;
	if (read_entries(&r, 0, &count) && r.at != len)
		fail(&r, other_length(&r), r.at);
	if (!r.refused && len > SLP_MAX_METADATA)
		r.refused = SLP_TOO_MANY;
	if (!r.refused && cells < 5 * r.n)
		r.refused = SLP_SHORT_OUTPUT;
	if (r.refused)
		return (slp_map_read){ .refused = (uint8_t)r.refused, .place = r.refused >= SLP_TOO_DEEP ? r.place : 0 };
	return (slp_map_read){ .count = count, .entries = r.n };
}
