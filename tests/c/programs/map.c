/* The metadata map: every refusal with its limits, random maps there and back, damaged bodies and entries against the model.
 *   map --foreign=N     N random maps instead, a line each: their body in hexadecimal, a space, and the map as JSON */
#include <stdio.h>
#include <stdlib.h>
#include <string.h>

#include "check.h"
#include "guard.h"
#include "map.h"

enum { MANY = 20000, TEXTS = 70000, BODY = 140000 };

typedef struct {
	slp_entry entries[MANY];
	size_t n, count;
	uint8_t texts[TEXTS];
	size_t texts_len;
} map;

/* ---- guarded calls */

static slp_written guarded_write_map(const map *m, size_t cells, uint8_t *out, size_t out_len)
{
	loan e = lend(m->entries, cells, 4), t = lend(m->texts, m->texts_len, 1), o = lend(out, out_len, 1);
	slp_written w = slp_write_map(o.data, out_len, (const slp_entry *)(const void *)e.data, cells, t.data, m->texts_len, m->count);
	CHECK(kept(&e, 0));
	CHECK(kept(&t, 0));
	CHECK(w.refused ? w.len == 0 : w.len <= out_len);
	CHECK(kept(&o, w.len));
	if (out_len)
		memcpy(out, o.base + o.front, out_len);
	give_back(&e);
	give_back(&t);
	give_back(&o);
	return w;
}

static slp_map_read guarded_read_map(const uint8_t *body, size_t len, slp_entry *entries, size_t cells)
{
	loan b = lend(body, len, 1), e = lend(entries, cells, 4);
	slp_map_read r = slp_read_map(b.data, len, (slp_entry *)(void *)e.data, cells);
	CHECK(kept(&b, 0));
	CHECK(kept(&e, 20 * r.entries));
	CHECK(!r.refused || (r.count == 0 && r.entries == 0));
	if (cells)
		memcpy(entries, e.base + e.front, 4 * cells);
	give_back(&b);
	give_back(&e);
	return r;
}

/* ---- against the model */

static uint8_t expected[BODY], written[BODY];
static slp_entry model_entries[BODY / 4], read_back[BODY / 4];

/* What the library writes of entries is what the model does; the body's length, or 0. */
static size_t check_write(const map *m, size_t cells, size_t room)
{
	size_t len;
	unsigned refused = model_write_map(m->entries, cells, m->texts, m->texts_len, m->count, room, expected, BODY, &len);
	memset(written, 0x33, room);
	slp_written w = guarded_write_map(m, cells, written, room);
	CHECK_EQ(w.refused, refused);
	if (w.refused || refused)
		return 0;
	CHECK_EQ(w.len, len);
	CHECK(memcmp(written, expected, len) == 0);
	return len;
}

/* What the library reads of a body is what the model does. */
static slp_map_read check_read(const uint8_t *body, size_t len, size_t cells)
{
	slp_map_read r = model_read_map(body, len, model_entries, cells);
	memset(read_back, 0x77, sizeof *read_back * (cells / 5 + 1));
	slp_map_read s = guarded_read_map(body, len, read_back, cells);
	CHECK_EQ(s.refused, r.refused);
	CHECK_EQ(s.place, r.place);
	CHECK_EQ(s.count, r.count);
	CHECK_EQ(s.entries, r.entries);
	if (!r.refused)
		CHECK(memcmp(read_back, model_entries, 20 * r.entries) == 0);
	return s;
}

/* There and back: entries, body, entries in the body, the same body again. */
static void check_round(const map *m)
{
	size_t len = check_write(m, 5 * m->n, SLP_MAX_METADATA);
	static uint8_t body[BODY];
	static map back;
	memcpy(body, written, len);
	slp_map_read r = check_read(body, len, 5 * (len / 4 + 1));
	CHECK_EQ(r.refused, 0);
	CHECK_EQ(r.entries, m->n);
	CHECK_EQ(r.count, m->count);
	back.n = r.entries;
	back.count = r.count;
	back.texts_len = len;
	memcpy(back.texts, body, len);
	memcpy(back.entries, read_back, 20 * r.entries);
	CHECK_EQ(check_write(&back, 5 * back.n, len), len);
	CHECK(memcmp(written, body, len) == 0);
}

/* ---- made maps */

static uint32_t add_text(map *m, const void *from, size_t len)
{
	memcpy(m->texts + m->texts_len, from, len);
	m->texts_len += len;
	return (uint32_t)(m->texts_len - len);
}

static slp_entry *add(map *m, uint32_t kind, const char *key, size_t key_len, uint32_t value, uint32_t len)
{
	m->entries[m->n] = (slp_entry){ kind, add_text(m, key, key_len), (uint32_t)key_len, value, len };
	return &m->entries[m->n++];
}

static void clear(map *m)
{
	m->n = m->count = m->texts_len = 0;
}

/* A map of random entries, at most so many in all. Keys are numbered, so that none stands twice. */
static size_t random_entries(map *m, size_t depth, size_t most, int ascii)
{
	size_t count = below(most < 6 ? most + 1 : 6);
	for (size_t i = 0; i < count && m->n < most; i++) {
		char key[300], text[256];
		size_t len = (size_t)snprintf(key, sizeof key, "%zu", i), long_key = below(20) == 0 ? below(200) : below(6), text_len = below(8) ? below(20) : below(256);
		for (size_t j = 0; j < long_key; j++)
			key[len++] = ascii ? (char)('a' + below(26)) : (char)draw();
		for (size_t j = 0; j < text_len; j++)
			text[j] = ascii ? (char)(' ' + below(95)) : (char)draw();
		size_t kind = below(depth < 8 ? 3 : 2), at = m->n;
		add(m, (uint32_t)kind, key, len, (uint32_t)draw(), 0);
		if (kind == SLP_ENTRY_TEXT) {
			m->entries[at].value = add_text(m, text, text_len);
			m->entries[at].len = (uint32_t)text_len;
		}
		if (kind == SLP_ENTRY_MAP)
			m->entries[at].value = (uint32_t)random_entries(m, depth + 1, most, ascii);
	}
	return count;
}

static map made;

/* Entries whose counts come out: those of the random map that were left out are taken off their counts. */
static size_t settle(map *m, size_t i, uint32_t *count)
{
	uint32_t there = 0;
	while (there < *count && i < m->n) {
		slp_entry *e = &m->entries[i++];
		if (e->kind == SLP_ENTRY_MAP)
			i = settle(m, i, &e->value);
		there++;
	}
	*count = there;
	return i;
}

static void random_map(map *m, size_t most, int ascii)
{
	do {
		clear(m);
		uint32_t count = (uint32_t)random_entries(m, 0, most, ascii);
		size_t used = settle(m, 0, &count);
		m->count = count;
		m->n = used;
	} while (m->n > most);
}

static void wrap(map *m, int depth, uint32_t inner)
{
	for (int i = 0; i < depth; i++)
		add(m, SLP_ENTRY_MAP, "k", 1, i + 1 < depth ? 1 : inner, 0);
}

/* ---- the tests */

static unsigned refusal_of(const map *m)
{
	size_t len = check_write(m, 5 * m->n, SLP_MAX_METADATA);
	(void)len;
	size_t n;
	return model_write_map(m->entries, 5 * m->n, m->texts, m->texts_len, m->count, SLP_MAX_METADATA, expected, BODY, &n);
}

static void limits(void)
{
	static char a[300];
	memset(a, 'a', sizeof a);
	clear(&made);
	CHECK_EQ(refusal_of(&made), 0);
	for (size_t len = 0; len <= 257; len++) {
		clear(&made);
		made.count = 1;
		add(&made, SLP_ENTRY_NUMBER, a, len, 0x80000000u, 0);
		CHECK_EQ(refusal_of(&made), len > 255 ? SLP_LONG_TEXT : 0);
		clear(&made);
		made.count = 1;
		slp_entry *e = add(&made, SLP_ENTRY_TEXT, "", 0, 0, (uint32_t)len);
		e->value = add_text(&made, a, len);
		CHECK_EQ(refusal_of(&made), len > 255 ? SLP_LONG_TEXT : 0);
	}
	for (int depth = 0; depth <= 10; depth++) {
		clear(&made);
		made.count = depth > 0;
		wrap(&made, depth, 0);
		CHECK_EQ(refusal_of(&made), depth > 8 ? SLP_TOO_DEEP : 0);
		for (int same = 0; depth <= 8 && same < 2; same++) {
			clear(&made);
			made.count = depth ? 1 : 3;
			wrap(&made, depth, 3);
			add(&made, SLP_ENTRY_NUMBER, "a", 1, 0x7fffffffu, 0);
			add(&made, SLP_ENTRY_MAP, "b", 1, 0, 0);
			add(&made, SLP_ENTRY_NUMBER, same ? "a" : "c", 1, 0, 0);
			CHECK_EQ(refusal_of(&made), depth == 8 ? SLP_TOO_DEEP : same ? SLP_REPEATED_KEY : 0);
			made.entries[made.n - 2].kind = SLP_ENTRY_NUMBER;
			CHECK_EQ(refusal_of(&made), same ? SLP_REPEATED_KEY : 0);
		}
	}
}

/* The lowest of every set of faults: too deep, too long, a key twice, no map, too long a body, no room. */
static void sets(void)
{
	static char a[256];
	memset(a, 'x', sizeof a);
	for (unsigned set = 0; set < 64; set++) {
		clear(&made);
		if (set & 1) {
			wrap(&made, 9, 0);
			made.count++;
		}
		if (set & 2) {
			add(&made, SLP_ENTRY_NUMBER, a, 256, 0, 0);
			made.count++;
		}
		for (int i = 0; set & 4 && i < 2; i++, made.count++)
			add(&made, SLP_ENTRY_NUMBER, "twice", 5, 0, 0);
		if (set & 8) {
			add(&made, 3, "kind", 4, 0, 0);
			made.count++;
		}
		for (uint32_t i = 0; set & 16 && i < 300; i++, made.count++) {
			uint32_t at = add_text(&made, a, 200);
			char key[8];
			add(&made, SLP_ENTRY_TEXT, key, (size_t)snprintf(key, sizeof key, "%u", i), at, 220);
			made.entries[made.n - 1].value = 0;
			if (made.texts_len < 220)
				add_text(&made, a, 220);
		}
		static const unsigned numbers[] = { SLP_TOO_DEEP, SLP_LONG_TEXT, SLP_REPEATED_KEY, SLP_BAD_BODY, SLP_TOO_MANY, SLP_SHORT_OUTPUT };
		unsigned lowest = 0;
		for (int i = 5; i >= 0; i--)
			if (set >> i & 1)
				lowest = numbers[i];
		size_t len;
		model_write_map(made.entries, 5 * made.n, made.texts, made.texts_len, made.count, BODY, expected, BODY, &len);
		size_t room = set & 32 ? (len ? len - 1 : 0) : BODY / 2 * 2 - 1;
		if ((set & 32) && !len)
			continue;
		slp_written w = guarded_write_map(&made, 5 * made.n, written, room);
		CHECK_EQ(w.refused, lowest);
		check_write(&made, 5 * made.n, room);
	}
}

/* A body of exactly 65,535 and of 65,536 bytes. */
static void longest(void)
{
	static char a[255];
	memset(a, 'y', sizeof a);
	for (size_t target = 65534; target <= 65537; target++) {
		clear(&made);
		uint32_t at = add_text(&made, a, 255);
		size_t len = 0;
		for (uint32_t i = 0; len < target; i++, made.count++) {
			char key[8];
			size_t key_len = (size_t)snprintf(key, sizeof key, "%05u", i), head = 2 + key_len + 3, rest = target - len;
			size_t text = rest < head + 255 + head ? (rest <= head + 255 ? rest - head : rest - 2 * head > 255 ? 255 : rest - 2 * head) : 255;
			add(&made, SLP_ENTRY_TEXT, key, key_len, at, (uint32_t)text);
			len += head + text;
		}
		CHECK_EQ(len, target);
		CHECK_EQ(refusal_of(&made), target > 65535 ? SLP_TOO_MANY : 0);
		size_t n;
		model_write_map(made.entries, 5 * made.n, made.texts, made.texts_len, made.count, BODY, expected, BODY, &n);
		memcpy(written, expected, n);
		CHECK_EQ(check_read(written, n, 5 * made.n).refused, target > 65535 ? SLP_TOO_MANY : 0);
	}
}

/* Random maps, there and back, with an output and a store one too short. */
static void rounds_trip(void)
{
	for (size_t n = rounds(3000, 60); n; n--) {
		random_map(&made, 1 + below(60), 0);
		check_round(&made);
		size_t len = check_write(&made, 5 * made.n, SLP_MAX_METADATA);
		if (len)
			check_write(&made, 5 * made.n, len - 1);
		check_write(&made, 5 * made.n, len);
		if (made.n) {
			memcpy(expected, written, len);
			static uint8_t body[BODY];
			memcpy(body, written, len);
			CHECK_EQ(check_read(body, len, 5 * made.n - 1).refused, SLP_SHORT_OUTPUT);
			CHECK_EQ(check_read(body, len, 5 * made.n).refused, 0);
		}
	}
}

/* Cells that are changed, cut or counted wrongly. */
static void damaged_entries(void)
{
	for (size_t n = rounds(6000, 100); n; n--) {
		random_map(&made, 1 + below(30), 0);
		uint32_t *cells = &made.entries[0].kind;
		for (size_t k = 1 + below(3); made.n && k; k--) {
			uint32_t *cell = &cells[below(5 * made.n)];
			*cell = below(3) ? (uint32_t)below(8) : below(2) ? (uint32_t)draw() : *cell + 1 - 2 * (uint32_t)below(2);
		}
		if (below(6) == 0)
			made.count += 1 - 2 * below(2);
		check_write(&made, below(8) ? 5 * made.n : below(5 * made.n + 1), below(4) ? SLP_MAX_METADATA : below(300));
	}
}

/* Bodies with a byte changed, put in or taken out, and cut after every byte. */
static void damaged_bodies(void)
{
	static const uint8_t marks[] = "UiIlLdDTFZSC[]{}$#N\0\1\xff\x80";
	static uint8_t body[BODY];
	for (size_t n = rounds(1500, 20); n; n--) {
		random_map(&made, 1 + below(20), 0);
		size_t len = check_write(&made, 5 * made.n, SLP_MAX_METADATA);
		memcpy(body, written, len);
		for (size_t k = 0; k <= len; k = k < 200 ? k + 1 : k + 1 + below(40))
			check_read(body, k, 5 * (len + 1));
		for (int k = 0; len && k < 40; k++) {
			size_t at = below(len);
			uint8_t old = body[at];
			body[at] = below(4) ? marks[below(sizeof marks - 1)] : (uint8_t)draw();
			check_read(body, len, 5 * (len + 1));
			body[at] = old;
		}
	}
	for (size_t n = rounds(20000, 300); n; n--) {
		size_t len = below(24);
		for (size_t i = 0; i < len; i++)
			body[i] = below(3) ? marks[below(sizeof marks - 1)] : (uint8_t)below(4);
		check_read(body, len, 5 * (len + 1));
	}
}

/* ---- lines for other readers of UBJSON */

static void print_json_text(const uint8_t *text, size_t len)
{
	putchar('"');
	for (size_t i = 0; i < len; i++)
		printf(text[i] == '"' || text[i] == '\\' ? "\\%c" : "%c", text[i]);
	putchar('"');
}

static size_t print_json(const map *m, size_t i, size_t count)
{
	putchar('{');
	for (size_t k = 0; k < count; k++) {
		const slp_entry *e = &m->entries[i++];
		if (k)
			putchar(',');
		print_json_text(m->texts + e->key, e->key_len);
		putchar(':');
		if (e->kind == SLP_ENTRY_TEXT)
			print_json_text(m->texts + e->value, e->len);
		else if (e->kind == SLP_ENTRY_NUMBER)
			printf("%ld", (long)(int32_t)e->value);
		else
			i = print_json(m, i, e->value);
	}
	putchar('}');
	return i;
}

static void print_maps(size_t n)
{
	for (; n; n--) {
		random_map(&made, 1 + below(40), 1);
		slp_written w = slp_write_map(written, BODY, made.entries, SLP_CELLS(made.n), made.texts, made.texts_len, made.count);
		for (size_t i = 0; i < w.len; i++)
			printf("%02x", written[i]);
		putchar(' ');
		print_json(&made, 0, made.count);
		putchar('\n');
	}
}

int main(int argc, char **argv)
{
	if (argc == 2 && strncmp(argv[1], "--foreign=", 10) == 0) {
		print_maps(strtoul(argv[1] + 10, NULL, 10));
		return 0;
	}
	begin("map", argc, argv);
	test("limits", limits);
	test("sets of faults", sets);
	test("longest bodies", longest);
	test("there and back", rounds_trip);
	test("damaged entries", damaged_entries);
	test("damaged bodies", damaged_bodies);
	return finish();
}
