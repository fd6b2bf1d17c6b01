#include "sounds.h"

#include <string.h>

#include "check.h"
#include "columns.h"

static const uint8_t CODES[FAMILIES] = { 0x37, 0x38, 0x3a, 0x3b, 0x3c, 0x3f, 0x40, 0x41 };

/* ---- slices */

/* So many bytes by chance: they come from a store that is drawn once. */
static slice new_slice(sound *s, uint8_t code, size_t len)
{
	static uint8_t chance[4096];
	if (!chance[0] && !chance[1] && !chance[2])
		draw_bytes(chance, sizeof chance);
	slice e = { code, s->memory + s->used, len };
	s->used += len;
	for (size_t done = 0; done < len;) {
		size_t from = below(sizeof chance), part = sizeof chance - from < len - done ? sizeof chance - from : len - done;
		memcpy(e.bytes + done, chance + from, part);
		done += part;
	}
	return e;
}

static slice *add(sound *s, uint8_t code, size_t len)
{
	s->events[s->n] = new_slice(s, code, len);
	return &s->events[s->n++];
}

static void put(slice *t, const void *bytes, size_t len)
{
	memcpy(t->bytes + t->len, bytes, len);
	t->len += len;
}

static void put_byte(slice *t, uint8_t byte)
{
	put(t, &byte, 1);
}

/* ---- the table */

static void list(sound *s, uint8_t code, size_t size)
{
	s->codes[s->entries] = code;
	s->sizes[s->entries++] = size;
}

static size_t record_size(family f, slp_version v)
{
	return (f == PRE || f == POST ? 6 : 4) + bytes_of(f, v);
}

static void list_family(sound *s, family f)
{
	if (has_family(f, s->version))
		list(s, CODES[f], record_size(f, s->version));
}

static size_t end_size(slp_version v)
{
	return reaches(v, 3, 13) ? 6 : reaches(v, 2, 0) ? 2 : 1;
}

static void list_all(sound *s, int listed, size_t used)
{
	list(s, 0x36, s->events[0].len);
	list_family(s, PRE);
	list_family(s, POST);
	list(s, 0x39, end_size(s->version));
	list_family(s, FRAME_START);
	list_family(s, ITEM);
	list_family(s, FRAME_END);
	if (listed) {
		list(s, 0x3d, used % 65536);
		list(s, 0x10, 516);
	}
	list_family(s, FOD);
	list_family(s, WHISPY);
	list_family(s, STADIUM);
}

/* ---- codes */

static size_t add_codes(sound *s)
{
	size_t blocks = below(8) == 0 ? 129 : below(4), used = 0;
	for (size_t k = 0; k < blocks; k++) {
		size_t here = k + 1 < blocks ? 512 : 1 + below(512);
		slice *e = add(s, 0x10, 516);
		e->bytes[512] = (uint8_t)(here >> 8);
		e->bytes[513] = (uint8_t)here;
		e->bytes[514] = 0x3d;
		e->bytes[515] = k + 1 == blocks;
		used += here;
	}
	return used;
}

/* ---- frames */

typedef struct {
	uint8_t port[8], follower[8];
	size_t n;
} players;

static void add_player(players *p, uint8_t port, uint8_t follower)
{
	p->port[p->n] = port;
	p->follower[p->n++] = follower;
}

/* Some ports in any order, each with its leader, its follower, or both. */
static players draw_players(void)
{
	players p = { .n = 0 };
	uint8_t ports[4] = { 0, 1, 2, 3 };
	size_t count = below(5);
	for (size_t k = 0; k < count; k++) {
		size_t j = k + below(4 - k);
		uint8_t port = ports[j];
		ports[j] = ports[k];
		size_t who = below(6);
		if (who)
			add_player(&p, port, 0);
		if (who < 2)
			add_player(&p, port, 1);
	}
	return p;
}

static slice *add_record(sound *s, family f, const uint8_t id[4])
{
	slice *e = add(s, CODES[f], record_size(f, s->version));
	memcpy(e->bytes, id, 4);
	return e;
}

static void add_players(sound *s, family f, const uint8_t id[4], const players *p)
{
	for (size_t k = 0; k < p->n; k++) {
		slice *e = add_record(s, f, id);
		e->bytes[4] = p->port[k];
		e->bytes[5] = p->follower[k];
	}
}

static void add_frame(sound *s, const uint8_t id[4], const players *p, int rows)
{
	static const family kinds[4] = { FOD, WHISPY, STADIUM, ITEM };
	if (has_family(FRAME_START, s->version))
		add_record(s, FRAME_START, id);
	add_players(s, PRE, id, p);
	for (size_t k = 0; k < 4; k++)
		for (size_t n = has_family(kinds[k], s->version) && rows ? below(3) : 0; n; n--)
			add_record(s, kinds[k], id);
	add_players(s, POST, id, p);
	if (has_family(FRAME_END, s->version))
		add_record(s, FRAME_END, id);
}

/* Half of the files have frames that are like each other for a while. */
static void add_frames(sound *s)
{
	size_t frames = below(6) ? below(4) : below(14);
	int alike = (int)below(2);
	uint8_t id[4] = { 0, 0, 0, (uint8_t)below(9) };
	players p = draw_players();
	for (size_t k = 0; k < frames; k++) {
		id[3] = (uint8_t)(id[3] + (below(9) != 0));
		if (!alike || below(20) == 0)
			p = draw_players();
		add_frame(s, id, &p, !alike || below(10) == 0);
	}
}

/* ---- the tail */

/* A map's entries; its keys differ by their first byte. */
static void put_map(slice *t, int depth)
{
	size_t count = below(4);
	for (size_t k = 0; k < count; k++) {
		size_t len = 1 + below(3);
		uint8_t key[4] = { (uint8_t)k, 'k', 'e', 'y' };
		put_byte(t, 'U');
		put_byte(t, (uint8_t)len);
		put(t, key, len);
		switch (below(depth ? 3 : 2)) {
		case 0:
			put(t, "SU\003abc", 6);
			break;
		case 1:
			put(t, "l\0\1\2\3", 5);
			break;
		default:
			put_byte(t, '{');
			put_map(t, depth - 1);
			put_byte(t, '}');
		}
	}
}

static void add_tail(sound *s)
{
	s->tail = (slice){ 0, s->memory + s->used, 0 };
	if (below(2)) {
		put(&s->tail, "U\010metadata{", 11);
		put_map(&s->tail, (int)below(4));
		put_byte(&s->tail, '}');
	}
	put_byte(&s->tail, '}');
	s->used += s->tail.len + 16;
}

void make_sound(sound *s, slp_version v)
{
	s->version = v;
	s->entries = s->n = s->used = 0;
	slice *start = add(s, 0x36, block_length(v) + (below(4) ? 0 : below(50)));
	memcpy(start->bytes, &v, 3);
	int listed = reaches(v, 3, 3) && below(2);
	size_t used = listed ? add_codes(s) : 0;
	list_all(s, listed, used);
	add_frames(s);
	for (size_t ends = below(3); ends; ends--)
		add(s, 0x39, end_size(v));
	add_tail(s);
}

/* ---- damage */

static void insert(sound *s, size_t at, slice e)
{
	if (s->n == MOST_EVENTS)
		return;
	memmove(s->events + at + 1, s->events + at, (s->n - at) * sizeof e);
	s->events[at] = e;
	s->n++;
}

static void drop(sound *s, size_t at)
{
	s->n--;
	memmove(s->events + at, s->events + at + 1, (s->n - at) * sizeof *s->events);
}

static void swap_events(sound *s, size_t a, size_t b)
{
	slice e = s->events[a];
	s->events[a] = s->events[b];
	s->events[b] = e;
}

/* One byte of an event's head, or of what a block ends with. */
static void change_head(sound *s, size_t at)
{
	static const size_t places[] = { 0, 1, 2, 3, 3, 4, 4, 5, 5, 512, 513, 514, 515 };
	static const uint8_t values[] = { 0, 1, 2, 3, 4, 5, 255 };
	slice *e = &s->events[at];
	size_t place = places[below(sizeof places / sizeof *places)];
	if (place < e->len && (at || place < 3))
		e->bytes[place] = below(3) ? values[below(sizeof values)] : e->bytes[place] ^ 1;
}

/* Two neighbours of one code change places. */
static void turn(sound *s)
{
	size_t from = below(s->n);
	for (size_t i = from; i + 1 < s->n; i++)
		if (s->events[i].code == s->events[i + 1].code && s->events[i].code != 0x10) {
			swap_events(s, i, i + 1);
			return;
		}
}

static void change_table(sound *s)
{
	static const uint8_t more[] = { 0x3d, 0x10, 0x42, 0x3a, 0x35, 0x3f };
	size_t a = below(s->entries), b = below(s->entries), size = s->sizes[a];
	uint8_t code = s->codes[a];
	switch (below(4)) {
	case 0:
		s->sizes[a] = (size + (below(2) ? 1 : 65535)) % 65536;
		break;
	case 1:
		s->codes[a] = s->codes[b];
		s->sizes[a] = s->sizes[b];
		s->codes[b] = code;
		s->sizes[b] = size;
		break;
	case 2:
		list(s, more[below(sizeof more)], below(2) ? 516 : below(9));
		break;
	default:
		s->entries--;
		memmove(s->codes + a, s->codes + a + 1, s->entries - a);
		memmove(s->sizes + a, s->sizes + a + 1, (s->entries - a) * sizeof *s->sizes);
	}
}

static void change_tail(sound *s)
{
	static const char marks[] = "USl{}\0\1\2";
	static const char *const tails[] = { "}}", "}", "", "U\010metadata{}}", "U\010metadata{}", "U\010metadata{U\1al\1\1\1\1U\1al\1\1\1\1}}", "U\010metadata{{}}}" };
	slice *t = &s->tail;
	switch (below(4)) {
	case 0:
		t->bytes[t->len++] = '}';
		break;
	case 1:
		t->len -= t->len > 0;
		break;
	case 2:
		t->len = 0;
		const char *tail = tails[below(sizeof tails / sizeof *tails)];
		t->bytes = s->memory + sizeof s->memory - 64;
		put(t, tail, strlen(tail));
		break;
	default:
		if (t->len)
			t->bytes[below(t->len)] = (uint8_t)marks[below(sizeof marks)];
	}
}

void damage_sound(sound *s)
{
	size_t a = s->n ? below(s->n) : 0, b = s->n ? below(s->n) : 0;
	switch (s->n ? below(9) : 7 + below(2)) {
	case 0:
		swap_events(s, a, b);
		break;
	case 1:
		insert(s, a, s->events[b]);
		break;
	case 2:
		drop(s, a);
		break;
	case 3:
		turn(s);
		break;
	case 4:
		if (a + 1 < s->n)
			swap_events(s, a, a + 1);
		break;
	case 5:
	case 6:
		change_head(s, a);
		break;
	case 7:
		change_table(s);
		break;
	default:
		change_tail(s);
	}
}

uint8_t *join(const sound *s, size_t *len)
{
	size_t data = 2 + 3 * s->entries;
	for (size_t i = 0; i < s->n; i++)
		data += 1 + s->events[i].len;
	slice f = { 0, take(15 + data + s->tail.len), 0 };
	put(&f, "{U\003raw[$U#l", 11);
	for (int shift = 24; shift >= 0; shift -= 8)
		put_byte(&f, (uint8_t)(data >> shift));
	put_byte(&f, 0x35);
	put_byte(&f, (uint8_t)(3 * s->entries + 1));
	for (size_t i = 0; i < s->entries; i++) {
		put_byte(&f, s->codes[i]);
		put_byte(&f, (uint8_t)(s->sizes[i] >> 8));
		put_byte(&f, (uint8_t)s->sizes[i]);
	}
	for (size_t i = 0; i < s->n; i++) {
		put_byte(&f, s->events[i].code);
		put(&f, s->events[i].bytes, s->events[i].len);
	}
	put(&f, s->tail.bytes, s->tail.len);
	*len = f.len;
	return f.bytes;
}
