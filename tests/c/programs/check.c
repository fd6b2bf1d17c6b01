/* The check of files: sound ones with every freedom, a million that are damaged in their structure, each rule broken once, and that of several faults
 * the first in the order 14 to 17, 19, 1, 19, 23 is given. All against a second writing of the rules.
 *   check --foreign=N     tails of N sound files instead, and the same with their last brace gone or one more: `sound` or `not`, and in hexadecimal a map
 *                         with one entry before the tail */
#include "check.h"

#include <stdio.h>
#include <stdlib.h>
#include <string.h>

#include "made.h"
#include "model.h"
#include "pieces.h"
#include "sound.h"
#include "sounds.h"

enum { START = 0x36, PRE_CODE = 0x37, POST_CODE = 0x38, END = 0x39, FRAME = 0x3a, ITEM_CODE = 0x3b, CLOSE = 0x3c, CODES = 0x3d, BLOCK = 0x10,
       FOD_CODE = 0x3f, WHISPY_CODE = 0x40, STADIUM_CODE = 0x41 };

/* How often each number was answered. */
static size_t met[32];

/* The library and the model agree; the refusal. */
static unsigned answer_of(const uint8_t *file, size_t len)
{
	slp_checked c = guarded_check(file, len), should = model_check(file, len);
	CHECK_EQ(c.refused, should.refused);
	CHECK_EQ(c.offset, should.offset);
	met[c.refused & 31]++;
	return c.refused;
}

/* ---- sound files, and damage */

static sound s;

static unsigned answer_joined(void)
{
	size_t len;
	uint8_t *file = join(&s, &len);
	unsigned refused = answer_of(file, len);
	free(file);
	return refused;
}

static void sound_files(void)
{
	for (size_t i = rounds(20000, 200); i; i--) {
		make_sound(&s, random_version());
		CHECK_EQ(answer_joined(), too_new(s.version) ? 1 : 0);
	}
}

/* Bytes alone: one of them, the length, or the file's end. */
static unsigned answer_bytes(void)
{
	size_t len;
	uint8_t *file = join(&s, &len);
	switch (below(4)) {
	case 0:
		file[below(below(3) || len < 60 ? len : 60)] ^= (uint8_t)(1 << below(8));
		break;
	case 1:
		len = below(len + 1);
		break;
	case 2:
		file[14] = (uint8_t)(file[14] + 1 + below(3));
		break;
	default:
		memset(file + 11, 0, below(2) ? 4 : 3);
	}
	unsigned refused = answer_of(file, len);
	free(file);
	return refused;
}

/* Every file has some changes to its structure; one in eight is damaged in its bytes too. */
static void damaged_files(void)
{
	memset(met, 0, sizeof met);
	for (size_t i = rounds(250000, 300); i; i--) {
		make_sound(&s, random_version());
		for (int k = 0; k < 4; k++) {
			damage_sound(&s);
			if (below(8))
				answer_joined();
			else
				answer_bytes();
			if (s.n > MOST_EVENTS - 8 || below(2))
				make_sound(&s, random_version());
		}
	}
	static const unsigned numbers[] = { 0, 1, 14, 15, 16, 17, 19, 23 };
	for (size_t k = 0; k < sizeof numbers / sizeof *numbers; k++)
		CHECK(met[numbers[k]] > (light ? 0 : 100));
}

/* Long games, whose frames are like each other: sound as they are, then with a byte of a record's head changed. */
static void long_games(void)
{
	for (size_t i = rounds(400, 6); i; i--) {
		plan p = random_plan(80);
		p.metadata = 0;
		p.presence = below(3) == 0;
		made m = make_game(&p);
		model_file f = model_write(&m.in);
		CHECK_EQ(answer_of(f.bytes, f.len), 0);
		for (int k = 0; k < 30 && f.events > 2; k++) {
			size_t at = f.ends[below(f.events - 1)] + below(7);
			uint8_t was = f.bytes[at];
			f.bytes[at] = (uint8_t)(below(2) ? was ^ 1 : below(6));
			answer_of(f.bytes, f.len);
			f.bytes[at] = was;
		}
		model_free(&f);
		unmake(&m);
	}
}

/* ---- each rule broken once */

static pieces p;

static unsigned answer(void)
{
	size_t len;
	uint8_t *file = put_together(&p, &len);
	unsigned refused = answer_of(file, len);
	free(file);
	return refused;
}

#define AT(code, k) (&p.events[find(&p, code, k)])

static void set_tail(const char *tail, size_t len)
{
	memcpy(p.tail, tail, p.tail_len = len);
}

/* A game of a version as it is read back, with metadata that is a map's. */
static void whole_of(slp_version v)
{
	take_whole(&p, v);
	set_tail("U\010metadata{U\1aSU\1b}}", 20);
}

/* A player's Pre and Post, both k-th of the game, go before those of another, or are doubled, or go. */
static void move_player(size_t k, size_t to)
{
	move_piece(&p, find(&p, PRE_CODE, k), find(&p, PRE_CODE, to));
	move_piece(&p, find(&p, POST_CODE, k), find(&p, POST_CODE, to));
}

static void double_player(size_t k, size_t to)
{
	double_piece(&p, find(&p, PRE_CODE, k), find(&p, PRE_CODE, to));
	double_piece(&p, find(&p, POST_CODE, k), find(&p, POST_CODE, to));
}

static void drop_player(size_t k)
{
	drop_piece(&p, find(&p, PRE_CODE, k));
	drop_piece(&p, find(&p, POST_CODE, k));
}

static void one_id(void)
{
	for (size_t i = 0; i < p.n; i++)
		if (p.events[i].code >= PRE_CODE && p.events[i].code != END)
			p.events[i].bytes[3] = 7;
}

static void nobody(void)
{
	for (size_t i = p.n; i--;)
		if (p.events[i].code == PRE_CODE || p.events[i].code == POST_CODE)
			drop_piece(&p, i);
}

static void swap_entries(size_t a, size_t b)
{
	uint8_t code = p.codes[a];
	size_t size = p.sizes[a];
	p.codes[a] = p.codes[b];
	p.sizes[a] = p.sizes[b];
	p.codes[b] = code;
	p.sizes[b] = size;
}

static void no_blocks(void) { drop_piece(&p, 2); drop_piece(&p, 1); }

/* What is sound: slots of a frame are 0, 1, 4. */
static void nothing(void) {}
static void ports_descend(void) { move_player(2, 0); }
static void other_order_later(void) { move_player(5, 3); }
static void follower_alone(void) { drop_player(0); }
static void leader_alone(void) { drop_player(1); }
static void same_id(void) { one_id(); }
static void ends_unlike(void) { p.events[p.n - 1].bytes[0] ^= 1; }
static void one_end(void) { p.n--; }
static void no_ends(void) { p.n -= 2; }
static void any_initiator(void) { p.events[p.n - 1].bytes[1] = 77; }
static void any_seat(void) { p.events[0].bytes[101] = 9; }
static void start_longer(void) { resize(&p, START, p.events[0].len + 9); }
static void codes_none(void) { no_blocks(); *listed(&p, CODES) = 0; }
static void codes_unlisted(void) { no_blocks(); unlist(&p, CODES); unlist(&p, BLOCK); }
static void tail_bare(void) { set_tail("}", 1); }
static void tail_empty_map(void) { set_tail("U\010metadata{}}", 13); }

/* What is 19: the table. */
static void entry_more(void) { *listed(&p, 0x42) = 4; }
static void entry_of_codes(void) { *listed(&p, CODES) = 0; *listed(&p, BLOCK) = 516; }
static void entry_gone(void) { nobody(); unlist(&p, POST_CODE); }
static void entries_turned(void) { swap_entries(1, 2); }
static void entry_size(void) { nobody(); *listed(&p, PRE_CODE) = *listed(&p, PRE_CODE) + 1; }
static void start_short(void) { resize(&p, START, p.events[0].len - 1); }
static void pre_size(void) { resize(&p, PRE_CODE, p.events[find(&p, PRE_CODE, 0)].len + 1); }
static void end_size(void) { resize(&p, END, p.events[p.n - 1].len + 1); }
static void codes_size(void) { *listed(&p, CODES) = 601; }
static void codes_alone(void) { codes_unlisted(); *listed(&p, CODES) = 0; }
static void codes_kept(void) { no_blocks(); }
/* places */
static void start_twice(void) { double_piece(&p, 0, 1); }
static void start_late(void) { double_piece(&p, 0, p.n); }
static void no_frame_start(void) { drop_piece(&p, find(&p, FRAME, 1)); }
static void no_close(void) { drop_piece(&p, find(&p, CLOSE, 1)); }
static void two_closes(void) { double_piece(&p, find(&p, CLOSE, 1), find(&p, CLOSE, 1)); }
static void item_before_pre(void) { move_piece(&p, find(&p, ITEM_CODE, 0), find(&p, PRE_CODE, 0)); }
static void item_after_post(void) { move_piece(&p, find(&p, ITEM_CODE, 1), find(&p, POST_CODE, 0)); }
static void fod_after_whispy(void) { move_piece(&p, find(&p, FOD_CODE, 1), find(&p, WHISPY_CODE, 0)); }
static void whispy_after_stadium(void) { move_piece(&p, find(&p, WHISPY_CODE, 1), find(&p, STADIUM_CODE, 0)); }
static void stadium_after_item(void) { move_piece(&p, find(&p, STADIUM_CODE, 1), find(&p, ITEM_CODE, 0)); }
static void end_in_frame(void) { move_piece(&p, find(&p, END, 0), find(&p, POST_CODE, 0)); }
static void frame_after_end(void) { move_piece(&p, find(&p, END, 0), find(&p, PRE_CODE, 8)); }
static void three_ends(void) { double_piece(&p, p.n - 1, p.n); }
/* players */
static void follower_first(void) { move_player(1, 0); }
static void follower_away(void) { move_player(1, 2); }
static void follower_away_later(void) { move_player(4, 5); }
static void player_twice(void) { double_player(0, 0); }
static void player_again(void) { double_player(0, 2); }
static void pre_alone(void) { drop_piece(&p, find(&p, POST_CODE, 1)); }
static void last_pre_alone(void) { drop_piece(&p, find(&p, POST_CODE, 8)); }
static void post_alone(void) { drop_piece(&p, find(&p, PRE_CODE, 1)); }
static void posts_turned(void) { move_piece(&p, find(&p, POST_CODE, 2), find(&p, POST_CODE, 0)); }
static void posts_turned_later(void) { move_piece(&p, find(&p, POST_CODE, 5), find(&p, POST_CODE, 3)); }
static void port_four(void) { AT(PRE_CODE, 2)->bytes[4] = AT(POST_CODE, 2)->bytes[4] = 4; }
static void port_high(void) { AT(PRE_CODE, 8)->bytes[4] = AT(POST_CODE, 8)->bytes[4] = 131; }
static void follower_two(void) { AT(PRE_CODE, 2)->bytes[5] = AT(POST_CODE, 2)->bytes[5] = 2; }
static void post_port(void) { AT(POST_CODE, 2)->bytes[4] = 3; }
/* ids */
static void pre_id(void) { AT(PRE_CODE, 1)->bytes[3] ^= 1; }
static void post_id(void) { AT(POST_CODE, 4)->bytes[0] ^= 128; }
static void item_id(void) { AT(ITEM_CODE, 3)->bytes[2] ^= 1; }
static void stadium_id(void) { AT(STADIUM_CODE, 5)->bytes[3] ^= 1; }
static void close_id(void) { AT(CLOSE, 2)->bytes[3] ^= 1; }
static void frame_id(void) { AT(FRAME, 2)->bytes[3] ^= 1; }
/* blocks */
static void block_code(void) { AT(BLOCK, 0)->bytes[514] = 0x3c; }
static void block_flag(void) { AT(BLOCK, 1)->bytes[515] = 2; }
static void block_first_last(void) { AT(BLOCK, 0)->bytes[515] = 1; }
static void block_never_last(void) { AT(BLOCK, 1)->bytes[515] = 0; }
static void block_of_none(void) { AT(BLOCK, 1)->bytes[513] = 0; *listed(&p, CODES) = 512; }
static void block_of_more(void) { AT(BLOCK, 1)->bytes[512] = 2; AT(BLOCK, 1)->bytes[513] = 1; *listed(&p, CODES) = 1025; }
static void block_not_full(void) { AT(BLOCK, 0)->bytes[512] = 1; AT(BLOCK, 0)->bytes[513] = 255; *listed(&p, CODES) = 599; }
static void block_late(void) { move_piece(&p, 2, 3); }
static void block_too_early(void) { *listed(&p, CODES) = 1; *listed(&p, BLOCK) = 516; memcpy(insert_piece(&p, 1, BLOCK)->bytes + 512, "\0\1\x3d\1", 4); }

/* What is 23. */
static void tail_away(void) { p.tail_len = 0; }
static void tail_two(void) { set_tail("}}", 2); }
static void tail_open(void) { p.tail_len--; }
static void tail_more(void) { p.tail[p.tail_len++] = '}'; }
static void tail_key(void) { p.tail[3] ^= 1; }
static void body_wrong(void) { p.tail[11] = 'T'; }
static void body_twice(void) { set_tail("U\010metadata{U\1al\0\0\0\1U\1al\0\0\0\1}}", 29); }
static void body_longer(void) { set_tail("U\010metadata{}}}", 14); }

/* What is 19 for the first event, and 1. */
static void no_events(void) { p.n = 0; }
static void first_other(void) { move_piece(&p, 0, 1); }
static void start_of_three(void) { resize(&p, START, 3); }
static void too_new_patch(void) { p.events[0].bytes[2] = 1; }
static void too_new_major(void) { p.events[0].bytes[0] = 4; }

typedef struct {
	const char *name;
	unsigned refused;
	uint8_t major, minor;
	void (*change)(void);
} rule;

#define RULE(refused, major, minor, change) { #change, refused, major, minor, change }

static const rule RULES[] = {
	RULE(0, 0, 1, nothing), RULE(0, 2, 1, nothing), RULE(0, 2, 2, nothing), RULE(0, 3, 0, nothing), RULE(0, 3, 3, nothing), RULE(0, 3, 18, nothing),
	RULE(0, 3, 18, ports_descend), RULE(0, 0, 1, ports_descend), RULE(0, 3, 18, other_order_later), RULE(0, 2, 1, other_order_later),
	RULE(0, 3, 18, follower_alone), RULE(0, 0, 1, leader_alone), RULE(0, 0, 1, same_id), RULE(0, 2, 1, same_id), RULE(0, 3, 18, same_id),
	RULE(0, 3, 18, ends_unlike), RULE(0, 0, 1, ends_unlike), RULE(0, 3, 18, one_end), RULE(0, 3, 18, no_ends), RULE(0, 3, 18, any_initiator),
	RULE(0, 3, 18, any_seat), RULE(0, 3, 18, start_longer), RULE(0, 3, 18, codes_none), RULE(0, 3, 18, codes_unlisted), RULE(0, 3, 18, nobody),
	RULE(0, 2, 2, nobody), RULE(0, 0, 1, nobody), RULE(0, 3, 18, tail_bare), RULE(0, 0, 1, tail_empty_map),
	RULE(19, 3, 18, entry_more), RULE(19, 0, 1, entry_more), RULE(19, 3, 2, entry_of_codes), RULE(19, 3, 18, entry_gone), RULE(19, 3, 18, entries_turned),
	RULE(19, 0, 1, entries_turned), RULE(19, 3, 18, entry_size), RULE(19, 3, 18, start_short), RULE(19, 3, 18, pre_size), RULE(19, 3, 18, end_size),
	RULE(19, 3, 3, codes_size), RULE(19, 3, 18, codes_alone), RULE(19, 3, 18, codes_kept),
	RULE(19, 3, 18, start_twice), RULE(19, 3, 18, start_late), RULE(19, 3, 18, no_frame_start), RULE(19, 3, 18, no_close), RULE(19, 3, 18, two_closes),
	RULE(19, 3, 18, item_before_pre), RULE(19, 3, 18, item_after_post), RULE(19, 3, 18, fod_after_whispy), RULE(19, 3, 18, whispy_after_stadium),
	RULE(19, 3, 18, stadium_after_item), RULE(19, 3, 18, end_in_frame), RULE(19, 0, 1, frame_after_end), RULE(19, 3, 18, three_ends), RULE(19, 0, 1, three_ends),
	RULE(19, 3, 18, follower_first), RULE(19, 0, 1, follower_first), RULE(19, 3, 18, follower_away), RULE(19, 0, 1, follower_away),
	RULE(19, 3, 18, follower_away_later), RULE(19, 3, 18, player_twice), RULE(19, 3, 18, player_again), RULE(19, 0, 1, player_again),
	RULE(19, 3, 18, pre_alone), RULE(19, 0, 1, last_pre_alone), RULE(19, 3, 18, post_alone), RULE(19, 3, 18, posts_turned), RULE(19, 0, 1, posts_turned),
	RULE(19, 3, 18, posts_turned_later), RULE(19, 3, 18, port_four), RULE(19, 0, 1, port_high), RULE(19, 3, 18, follower_two), RULE(19, 3, 18, post_port),
	RULE(19, 3, 18, pre_id), RULE(19, 0, 1, pre_id), RULE(19, 3, 18, post_id), RULE(19, 3, 18, item_id), RULE(19, 3, 18, stadium_id), RULE(19, 3, 18, close_id),
	RULE(19, 3, 18, frame_id),
	RULE(19, 3, 3, block_code), RULE(19, 3, 3, block_flag), RULE(19, 3, 3, block_first_last), RULE(19, 3, 3, block_never_last), RULE(19, 3, 3, block_of_none),
	RULE(19, 3, 3, block_of_more), RULE(19, 3, 3, block_not_full), RULE(19, 3, 18, block_late), RULE(19, 3, 2, block_too_early), RULE(19, 0, 1, block_too_early),
	RULE(23, 3, 18, tail_away), RULE(23, 0, 1, tail_two), RULE(23, 3, 18, tail_open), RULE(23, 3, 18, tail_more), RULE(23, 3, 18, tail_key),
	RULE(23, 3, 18, body_wrong), RULE(23, 0, 1, body_twice), RULE(23, 3, 18, body_longer),
	RULE(19, 3, 18, no_events), RULE(19, 3, 18, first_other), RULE(19, 0, 1, start_of_three), RULE(1, 3, 18, too_new_patch), RULE(1, 0, 1, too_new_major),
};

static void each_rule(void)
{
	for (size_t k = 0; k < sizeof RULES / sizeof *RULES; k++) {
		const rule *r = &RULES[k];
		whole_of((slp_version){ r->major, r->minor, 0 });
		r->change();
		check_equal_at(answer(), r->refused, r->name, __FILE__, __LINE__);
	}
}

/* ---- tails by their limits */

/* The answer for a body between its key and two braces. */
static unsigned answer_body(const uint8_t *body, size_t len)
{
	size_t data;
	whole_of((slp_version){ 0, 1, 0 });
	p.tail_len = 0;
	uint8_t *start = put_together(&p, &data), *file = take(data + len + 13);
	memcpy(file, start, data);
	memcpy(file + data, "U\010metadata{", 11);
	memcpy(file + data + 11, body, len);
	memcpy(file + data + 11 + len, "}}", 2);
	unsigned refused = answer_of(file, data + len + 13);
	free(start);
	free(file);
	return refused;
}

/* Entries with texts of 255 bytes, and one that is shorter, so that a body has so many bytes. */
static unsigned answer_long(size_t len)
{
	uint8_t *body = take(len);
	size_t at = 0;
	for (uint8_t key = 0; at < len; key++) {
		size_t text = len - at < 263 + 7 ? len - at - 7 : 255;
		memcpy(body + at, "U\2", 2);
		body[at + 2] = key;
		body[at + 3] = (uint8_t)(at >> 8);
		memcpy(body + at + 4, "SU", 2);
		body[at + 6] = (uint8_t)text;
		memset(body + at + 7, 'x', text);
		at += 7 + text;
	}
	unsigned refused = answer_body(body, len);
	free(body);
	return refused;
}

/* Maps so many deep below the body's own. */
static unsigned answer_deep(size_t depth)
{
	uint8_t body[64];
	for (size_t k = 0; k < depth; k++) {
		memcpy(body + 4 * k, "U\1a{", 4);
		body[4 * depth + k] = '}';
	}
	return answer_body(body, 5 * depth);
}

static void tails(void)
{
	CHECK_EQ(answer_long(65535), 0);
	CHECK_EQ(answer_long(65536), 23);
	CHECK_EQ(answer_long(70000), 23);
	CHECK_EQ(answer_deep(8), 0);
	CHECK_EQ(answer_deep(9), 23);
	CHECK_EQ(answer_body((const uint8_t *)"U\377", 2), 23);
}

/* ---- of several faults the first is given */

enum { FAULTS = 8, FAULT_LENGTH = 3 };
static const unsigned NUMBERS[FAULTS] = { 14, 15, 16, 17, 19, 1, 19, 23 };

static uint8_t *with_faults(unsigned set, size_t *len)
{
	whole_of((slp_version){ 3, 18, 0 });
	if (set & 1 << 7)
		tail_two();
	if (set & 1 << 6)
		posts_turned();
	if (set & 1 << 5)
		too_new_patch();
	if (set & 1 << 4)
		first_other();
	if (set & 1 << 2) {
		insert_piece(&p, 2, 0x98);
		unlist(&p, 0x98);
	}
	uint8_t *file = put_together(&p, len);
	if (set & 1 << FAULT_LENGTH) {
		file[13] = (uint8_t)(file[13] - (file[14] == 0));
		file[14]--;
	}
	file[15] ^= set >> 1 & 1;
	file[0] ^= set & 1;
	return file;
}

static void sets_of_faults(void)
{
	for (unsigned set = 0; set < 1 << FAULTS; set++) {
		unsigned number = 0;
		for (unsigned k = FAULTS; k--;)
			number = set >> k & 1 ? NUMBERS[k] : number;
		size_t len;
		uint8_t *file = with_faults(set, &len);
		CHECK_EQ(answer_of(file, len), number);
		free(file);
	}
}

/* Every cut of a small file, and of one whose length was never filled in. */
static void cuts(void)
{
	size_t len;
	whole_of((slp_version){ 3, 3, 0 });
	uint8_t *file = put_together(&p, &len);
	for (size_t at = 0; at < len; at += light ? 1 + below(40) : 1)
		CHECK(answer_of(file, at) != 0);
	CHECK_EQ(answer_of(file, len), 0);
	memset(file + 11, 0, 4);
	CHECK_EQ(answer_of(file, len), 16);
	CHECK_EQ(answer_of(file, len - p.tail_len), 19);
	free(file);
}

/* ---- for other readers of such maps */

static void print_tail(void)
{
	size_t len;
	uint8_t *file = join(&s, &len);
	printf("%s 7b55037261776c00000000", slp_check(file, len).refused ? "not" : "sound");
	for (size_t i = 0; i < s.tail.len; i++)
		printf("%02x", s.tail.bytes[i]);
	putchar('\n');
	free(file);
}

static void print_tails(size_t n)
{
	while (n--) {
		make_sound(&s, (slp_version){ 0, 1, 0 });
		print_tail();
		s.tail.len--;
		print_tail();
		s.tail.len++;
		s.tail.bytes[s.tail.len++] = '}';
		print_tail();
	}
}

int main(int argc, char **argv)
{
	if (argc == 2 && strncmp(argv[1], "--foreign=", 10) == 0) {
		print_tails(strtoul(argv[1] + 10, NULL, 10));
		return 0;
	}
	begin("check", argc, argv);
	test("sound files", sound_files);
	test("damaged files", damaged_files);
	test("long games", long_games);
	test("each rule", each_rule);
	test("tails", tails);
	test("sets of faults", sets_of_faults);
	test("cuts", cuts);
	return finish();
}
