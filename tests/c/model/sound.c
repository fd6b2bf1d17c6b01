#include "sound.h"

#include <stdlib.h>
#include <string.h>

#include "check.h"
#include "columns.h"
#include "map.h"
#include "model.h"

typedef struct {
	uint8_t code;
	const uint8_t *payload;
	size_t len;
} event;

/* The events of a file, and the next one to be taken. */
typedef struct {
	const uint8_t *file;
	size_t len;
	slp_version version;
	event *events;
	size_t n, at;
	size_t blocks, used;    /* of codes */
} descent;

/* A player, and a frame's players. */
typedef struct {
	uint8_t port, follower;
} player;

enum { MOST_PLAYERS = 8 };

typedef struct {
	uint8_t id[4];
	player who[MOST_PLAYERS];
	size_t count;
} frame;

enum { TABLE = 15, BLOCK = 516 };

static size_t two_bytes(const uint8_t *at)
{
	return (size_t)at[0] << 8 | at[1];
}

/* ---- the list of events */

static size_t size_listed(const uint8_t *file, uint8_t code)
{
	size_t at = TABLE + 2;
	while (file[at] != code)
		at += 3;
	return two_bytes(file + at + 1);
}

static void list(descent *d, size_t count)
{
	const uint8_t *at = d->file + TABLE + 1 + d->file[TABLE + 1];
	d->events = take(count * sizeof *d->events);
	for (; d->n < count; d->n++) {
		size_t len = size_listed(d->file, at[0]);
		d->events[d->n] = (event){ at[0], at + 1, len };
		at += 1 + len;
	}
}

/* The next event, if it has this code. */
static const event *next(descent *d, uint8_t code)
{
	return d->at < d->n && d->events[d->at].code == code ? &d->events[d->at++] : NULL;
}

/* ---- the table */

static size_t end_size(slp_version v)
{
	return reaches(v, 3, 13) ? 6 : reaches(v, 2, 0) ? 2 : 1;
}

static uint8_t *put_entry(uint8_t *to, uint8_t code, size_t size)
{
	*to++ = code;
	*to++ = (uint8_t)(size >> 8);
	*to++ = (uint8_t)size;
	return to;
}

static uint8_t *put_family(uint8_t *to, uint8_t code, family f, slp_version v)
{
	return has_family(f, v) ? put_entry(to, code, (f == PRE || f == POST ? 6 : 4) + bytes_of(f, v)) : to;
}

/* Whether the table is 36 37 38 39 3A 3B 3C 3D 10 3F 40 41, without those that do not apply. */
static int tabled(const descent *d, int listed)
{
	uint8_t table[2 + 3 * 12] = { 0x35 }, *to = table + 2;
	slp_version v = d->version;
	to = put_entry(to, 0x36, d->events[0].len);
	to = put_family(to, 0x37, PRE, v);
	to = put_family(to, 0x38, POST, v);
	to = put_entry(to, 0x39, end_size(v));
	to = put_family(to, 0x3a, FRAME_START, v);
	to = put_family(to, 0x3b, ITEM, v);
	to = put_family(to, 0x3c, FRAME_END, v);
	if (listed && reaches(v, 3, 3))
		to = put_entry(put_entry(to, 0x3d, d->used % 65536), 0x10, BLOCK);
	to = put_family(to, 0x3f, FOD, v);
	to = put_family(to, 0x40, WHISPY, v);
	to = put_family(to, 0x41, STADIUM, v);
	table[1] = (uint8_t)(to - table - 1);
	return d->file[TABLE + 1] == table[1] && memcmp(d->file + TABLE, table, (size_t)(to - table)) == 0;
}

/* ---- codes */

static int takes_codes(descent *d)
{
	const event *e;
	int last = 0;
	for (; !last && (e = next(d, 0x10)); d->blocks++) {
		size_t used = e->len == BLOCK ? two_bytes(e->payload + 512) : 0;
		if (used == 0 || used > 512 || e->payload[514] != 0x3d || e->payload[515] > 1 || !reaches(d->version, 3, 3))
			return 0;
		last = e->payload[515];
		if (!last && used < 512)
			return 0;
		d->used += used;
	}
	return d->blocks == 0 || last;
}

/* ---- frames */

static int of_frame(const frame *f, const event *e)
{
	return memcmp(e->payload, f->id, 4) == 0;
}

/* Players are in range, none comes twice, and a leader comes right before its follower. */
static int good_players(const frame *f)
{
	for (size_t i = 0; i < f->count; i++) {
		player p = f->who[i];
		if (p.port > 3 || p.follower > 1)
			return 0;
		for (size_t j = 0; j < f->count; j++) {
			int same = j != i && f->who[j].port == p.port;
			if (same && (f->who[j].follower == p.follower || (p.follower && j + 1 != i)))
				return 0;
		}
	}
	return 1;
}

static int takes_pres(descent *d, frame *f)
{
	const event *e;
	while ((e = next(d, 0x37))) {
		if (!of_frame(f, e) || f->count == MOST_PLAYERS)
			return 0;
		f->who[f->count++] = (player){ e->payload[4], e->payload[5] };
	}
	return good_players(f);
}

static int takes_rows(descent *d, const frame *f, uint8_t code)
{
	const event *e;
	while ((e = next(d, code)))
		if (!of_frame(f, e))
			return 0;
	return 1;
}

/* The same players in the same order. */
static int takes_posts(descent *d, const frame *f)
{
	for (size_t i = 0; i < f->count; i++) {
		const event *e = next(d, 0x38);
		if (!e || !of_frame(f, e) || e->payload[4] != f->who[i].port || e->payload[5] != f->who[i].follower)
			return 0;
	}
	return 1;
}

static int takes_frame(descent *d)
{
	frame f = { .count = 0 };
	int starts = has_family(FRAME_START, d->version);
	const event *first = next(d, starts ? 0x3a : 0x37), *last;
	if (!first)
		return 0;
	memcpy(f.id, first->payload, 4);
	d->at -= !starts;
	if (!takes_pres(d, &f))
		return 0;
	if (!takes_rows(d, &f, 0x3f) || !takes_rows(d, &f, 0x40) || !takes_rows(d, &f, 0x41) || !takes_rows(d, &f, 0x3b) || !takes_posts(d, &f))
		return 0;
	if (!has_family(FRAME_END, d->version))
		return 1;
	last = next(d, 0x3c);
	return last && of_frame(&f, last);
}

static int takes_frames(descent *d)
{
	while (d->at < d->n && d->events[d->at].code != 0x39)
		if (!takes_frame(d))
			return 0;
	return 1;
}

/* ---- all of it */

/* The table is right, and so is every payload's size. */
static int sound_events(descent *d)
{
	d->at = 1;
	if (d->events[0].len < block_length(d->version) || !takes_codes(d))
		return 0;
	if (!tabled(d, 1) && (d->blocks || !tabled(d, 0)))
		return 0;
	if (!takes_frames(d))
		return 0;
	for (int ends = 0; ends < 2; ends++)
		next(d, 0x39);
	return d->at == d->n;
}

static int good_body(const uint8_t *body, size_t len)
{
	if (len > SLP_MAX_METADATA)
		return 0;
	size_t most = len / 4 + 1;
	slp_entry *entries = take(most * sizeof *entries);
	unsigned refused = model_read_map(body, len, entries, 5 * most).refused;
	free(entries);
	return refused == 0;
}

int model_proper_tail(const uint8_t *tail, size_t len)
{
	static const char key[] = "U\010metadata{";
	if (len == 1)
		return tail[0] == '}';
	return len >= 13 && memcmp(tail, key, 11) == 0 && memcmp(tail + len - 2, "}}", 2) == 0 && good_body(tail + 11, len - 13);
}

static unsigned judge(descent *d, const slp_walked *w)
{
	list(d, w->events);
	if (d->n == 0 || d->events[0].code != 0x36 || d->events[0].len < 4)
		return 19;
	memcpy(&d->version, d->events[0].payload, 3);
	if (too_new(d->version))
		return 1;
	if (!w->whole || !sound_events(d))
		return 19;
	return model_proper_tail(d->file + w->place, d->len - w->place) ? 0 : 23;
}

slp_checked model_check(const uint8_t *file, size_t len)
{
	slp_walked w = model_walk(file, len);
	if (w.refused)
		return (slp_checked){ w.refused, w.offset };
	descent d = { .file = file, .len = len };
	unsigned refused = judge(&d, &w);
	free(d.events);
	return (slp_checked){ (uint8_t)refused, 0 };
}
