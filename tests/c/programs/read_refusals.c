/* Columns back from a replay: each reason of 19 by one small file, what is just not a reason, every other refusal with its limits, and that of several
 * faults the first in the order 14 to 17, 19, 1, 19, 2, 12 is given. */
#include <stdlib.h>
#include <string.h>

#include "against.h"
#include "check.h"
#include "made.h"
#include "model.h"
#include "open.h"
#include "pieces.h"
#include "same.h"
#include "space.h"

enum { START = 0x36, PRE_CODE = 0x37, POST_CODE = 0x38, END = 0x39, FRAME = 0x3a, ITEM_CODE = 0x3b, CLOSE = 0x3c, CODES = 0x3d, BLOCK = 0x10,
       FOD_CODE = 0x3f, WHISPY_CODE = 0x40, STADIUM_CODE = 0x41 };

static pieces p;

/* ---- the files that are changed */

static void whole_of(slp_version v)
{
	take_whole(&p, v);
}

static unsigned answer(void)
{
	size_t len;
	uint8_t *file = put_together(&p, &len);
	unsigned refused = check_file(file, len);
	free(file);
	return refused;
}

/* ---- reasons: each changes the pieces of a game of its version */

#define AT(code, k) (&p.events[find(&p, code, k)])

/* A player's Pre and Post, both k-th of the game, go before those of another, or are doubled. */
static void move_player(size_t k, size_t to)
{
	move_piece(&p, find(&p, PRE_CODE, k), find(&p, PRE_CODE, to));
	move_piece(&p, find(&p, POST_CODE, k), find(&p, POST_CODE, to));
}

static void double_player(size_t k)
{
	double_piece(&p, find(&p, PRE_CODE, k), find(&p, PRE_CODE, k));
	double_piece(&p, find(&p, POST_CODE, k), find(&p, POST_CODE, k));
}

static int is_player(const piece *e)
{
	return e->code == PRE_CODE || e->code == POST_CODE;
}

/* Every record gets one frame id. */
static void one_id(void)
{
	for (size_t i = 0; i < p.n; i++)
		if (p.events[i].code >= PRE_CODE && p.events[i].code != END)
			p.events[i].bytes[3] = 7;
}

/* The records of every player go, or of every one with that port and follower. */
static void drop_players(int all, uint8_t port, uint8_t follower)
{
	for (size_t i = p.n; i--;)
		if (is_player(&p.events[i]) && (all || (p.events[i].bytes[4] == port && p.events[i].bytes[5] == follower)))
			drop_piece(&p, i);
}

static void swap_entries(size_t a, size_t b)
{
	uint8_t code = p.codes[a];
	size_t size = p.sizes[a];
	p.codes[a] = p.codes[b];
	p.sizes[a] = p.sizes[b];
	p.codes[b] = code;
	p.sizes[b] = size;
}

static void add_block(void)
{
	*listed(&p, CODES) = 1;
	*listed(&p, BLOCK) = 516;
	memcpy(insert_piece(&p, 1, BLOCK)->bytes + 512, "\0\1\x3d\1", 4);
}

static void no_events(void) { p.n = 0; }
static void first_other(void) { move_piece(&p, 0, 1); }
static void start_of_three(void) { resize(&p, START, 3); }
static void start_short(void) { resize(&p, START, p.events[0].len - 1); }
static void start_twice(void) { double_piece(&p, 0, 1); }
static void start_late(void) { double_piece(&p, 0, p.n); }
static void seat_four(void) { p.events[0].bytes[101 + 36 * 3] = 4; }
static void seat_high(void) { p.events[0].bytes[101] = 255; }

static void no_frame_start(void) { drop_piece(&p, find(&p, FRAME, 1)); }
static void two_frame_starts(void) { double_piece(&p, find(&p, FRAME, 1), find(&p, FRAME, 1)); }
static void no_close(void) { drop_piece(&p, find(&p, CLOSE, 0)); }
static void no_last_close(void) { drop_piece(&p, find(&p, CLOSE, 2)); }
static void two_closes(void) { double_piece(&p, find(&p, CLOSE, 1), find(&p, CLOSE, 1)); }
static void item_first(void) { move_piece(&p, find(&p, ITEM_CODE, 0), find(&p, FRAME, 0)); }
static void item_before_pre(void) { move_piece(&p, find(&p, ITEM_CODE, 0), find(&p, PRE_CODE, 0)); }
static void item_after_post(void) { move_piece(&p, find(&p, ITEM_CODE, 1), find(&p, POST_CODE, 0)); }
static void item_after_close(void) { move_piece(&p, find(&p, ITEM_CODE, 5), find(&p, CLOSE, 2)); }
static void fod_after_whispy(void) { move_piece(&p, find(&p, FOD_CODE, 1), find(&p, WHISPY_CODE, 0)); }
static void whispy_after_stadium(void) { move_piece(&p, find(&p, WHISPY_CODE, 1), find(&p, STADIUM_CODE, 0)); }
static void stadium_after_item(void) { move_piece(&p, find(&p, STADIUM_CODE, 1), find(&p, ITEM_CODE, 0)); }
static void end_before_frames(void) { double_piece(&p, find(&p, END, 0), find(&p, FRAME, 0)); drop_piece(&p, p.n - 1); }
static void end_in_frame(void) { move_piece(&p, find(&p, END, 0), find(&p, POST_CODE, 0)); }
static void frame_after_end(void) { move_piece(&p, find(&p, END, 0), find(&p, FRAME, 2)); }
static void codes_as_event(void) { *listed(&p, CODES) = 600; insert_piece(&p, find(&p, FRAME, 0), CODES); }
static void table_as_event(void) { *listed(&p, 0x35) = 4; insert_piece(&p, find(&p, FRAME, 0), 0x35); }
static void other_code(void) { *listed(&p, 0x99) = 3; insert_piece(&p, find(&p, FRAME, 0), 0x99); }
static void other_code_last(void) { *listed(&p, 0x99) = 0; insert_piece(&p, p.n, 0x99); }
/* a version that does not write them: 2.2 has no items, 2.1 no FrameStart */
static void item_too_early(void) { *listed(&p, ITEM_CODE) = 37; insert_piece(&p, find(&p, POST_CODE, 0), ITEM_CODE)->bytes[3] = 0; }
static void close_too_early(void) { *listed(&p, CLOSE) = 4; insert_piece(&p, find(&p, FRAME, 1), CLOSE); }
static void start_too_early(void) { *listed(&p, FRAME) = 8; insert_piece(&p, find(&p, PRE_CODE, 0), FRAME); }
static void fod_too_early(void) { *listed(&p, FOD_CODE) = 9; insert_piece(&p, find(&p, ITEM_CODE, 0), FOD_CODE); }

/* slots of a frame: 0, 1, 4 */
static void ports_descend(void) { move_player(2, 0); }
static void follower_first(void) { move_player(1, 0); }
static void player_twice(void) { double_player(0); }
static void pre_alone(void) { drop_piece(&p, find(&p, POST_CODE, 1)); }
static void last_pre_alone(void) { drop_piece(&p, find(&p, POST_CODE, 8)); }
static void post_alone(void) { drop_piece(&p, find(&p, PRE_CODE, 1)); }
static void last_post_alone(void) { drop_piece(&p, find(&p, PRE_CODE, 2)); }
static void posts_turned(void) { move_piece(&p, find(&p, POST_CODE, 1), find(&p, POST_CODE, 0)); }
static void post_of_other(void) { AT(POST_CODE, 0)->bytes[5] = 1; }
static void port_four(void) { AT(PRE_CODE, 2)->bytes[4] = AT(POST_CODE, 2)->bytes[4] = 4; }
static void port_high(void) { AT(PRE_CODE, 8)->bytes[4] = AT(POST_CODE, 8)->bytes[4] = 131; }
static void follower_two(void) { AT(PRE_CODE, 2)->bytes[5] = AT(POST_CODE, 2)->bytes[5] = 2; }
static void follower_two_slot(void) { AT(PRE_CODE, 1)->bytes[5] = AT(POST_CODE, 1)->bytes[5] = 2; }

static void pre_size(void) { resize(&p, PRE_CODE, p.events[find(&p, PRE_CODE, 0)].len + 1); }
static void post_size(void) { resize(&p, POST_CODE, p.events[find(&p, POST_CODE, 0)].len - 1); }
static void frame_size(void) { resize(&p, FRAME, 11); }
static void item_size(void) { resize(&p, ITEM_CODE, 45); }
static void close_size(void) { resize(&p, CLOSE, 7); }
static void fod_size(void) { resize(&p, FOD_CODE, 8); }
static void whispy_size(void) { resize(&p, WHISPY_CODE, 6); }
static void stadium_size(void) { resize(&p, STADIUM_CODE, 9); }
static void end_size(void) { resize(&p, END, 7); }
static void end_short(void) { resize(&p, END, 5); }
static void pre_of_none(void) { resize(&p, PRE_CODE, 0); }
static void frame_of_three(void) { resize(&p, FRAME, 3); }

static void pre_id(void) { AT(PRE_CODE, 1)->bytes[3] ^= 1; }
static void post_id(void) { AT(POST_CODE, 4)->bytes[0] ^= 128; }
static void item_id(void) { AT(ITEM_CODE, 3)->bytes[2] ^= 1; }
static void fod_id(void) { AT(FOD_CODE, 0)->bytes[3] ^= 1; }
static void whispy_id(void) { AT(WHISPY_CODE, 0)->bytes[3] ^= 1; }
static void stadium_id(void) { AT(STADIUM_CODE, 5)->bytes[3] ^= 1; }
static void close_id(void) { AT(CLOSE, 2)->bytes[3] ^= 1; }
static void frame_id(void) { AT(FRAME, 2)->bytes[3] ^= 1; }

static void block_unlisted(void) { unlist(&p, CODES); }
static void block_code(void) { AT(BLOCK, 0)->bytes[514] = 0x3c; }
static void block_flag(void) { AT(BLOCK, 1)->bytes[515] = 2; }
static void block_first_last(void) { AT(BLOCK, 0)->bytes[515] = 1; }
static void block_never_last(void) { AT(BLOCK, 1)->bytes[515] = 0; }
static void block_missing_last(void) { drop_piece(&p, 2); *listed(&p, CODES) = 512; }
static void block_of_none(void) { AT(BLOCK, 1)->bytes[513] = 0; *listed(&p, CODES) = 512; }
static void block_of_more(void) { AT(BLOCK, 1)->bytes[512] = 2; AT(BLOCK, 1)->bytes[513] = 1; *listed(&p, CODES) = 1025; }
static void block_not_full(void) { AT(BLOCK, 0)->bytes[512] = 1; AT(BLOCK, 0)->bytes[513] = 255; *listed(&p, CODES) = 599; }
static void block_after_last(void) { double_piece(&p, 2, 3); *listed(&p, CODES) = 688; }
static void block_late(void) { move_piece(&p, 2, 3); }
static void block_size(void) { resize(&p, BLOCK, 517); }
static void block_short(void) { resize(&p, BLOCK, 515); }
static void codes_size(void) { *listed(&p, CODES) = 601; }
static void codes_without(void) { drop_piece(&p, 2); drop_piece(&p, 1); }
static void block_too_early(void) { add_block(); }

static void same_id(void) { one_id(); }
static void three_ends(void) { double_piece(&p, p.n - 1, p.n); }
static void unlike_ends(void) { p.events[p.n - 1].bytes[0] ^= 1; }
static void unlike_placements(void) { p.events[p.n - 1].bytes[5] ^= 1; }
static void initiator_four(void) { p.events[p.n - 1].bytes[1] = p.events[p.n - 2].bytes[1] = 4; }
static void initiator_high(void) { p.events[p.n - 1].bytes[1] = p.events[p.n - 2].bytes[1] = 254; }

typedef struct {
	const char *name;
	uint8_t major, minor;
	void (*change)(void);
} reason;

#define REASON(major, minor, change) { #change, major, minor, change }

static const reason REASONS[] = {
	REASON(3, 18, no_events), REASON(3, 18, first_other), REASON(3, 18, start_of_three), REASON(3, 18, start_short), REASON(0, 1, start_short),
	REASON(3, 18, start_twice), REASON(3, 18, start_late), REASON(3, 18, seat_four), REASON(0, 1, seat_high),
	REASON(3, 18, no_frame_start), REASON(3, 18, two_frame_starts), REASON(3, 18, no_close), REASON(3, 18, no_last_close), REASON(3, 18, two_closes),
	REASON(3, 18, item_first), REASON(3, 18, item_before_pre), REASON(3, 18, item_after_post), REASON(3, 18, item_after_close),
	REASON(3, 18, fod_after_whispy), REASON(3, 18, whispy_after_stadium), REASON(3, 18, stadium_after_item), REASON(3, 18, end_before_frames),
	REASON(3, 18, end_in_frame), REASON(3, 18, frame_after_end), REASON(3, 18, codes_as_event), REASON(3, 18, table_as_event),
	REASON(3, 18, other_code), REASON(0, 1, other_code_last), REASON(2, 2, item_too_early), REASON(2, 2, close_too_early), REASON(2, 1, start_too_early),
	REASON(3, 17, fod_too_early),
	REASON(3, 18, ports_descend), REASON(0, 1, ports_descend), REASON(3, 18, follower_first), REASON(3, 18, player_twice), REASON(0, 1, player_twice),
	REASON(3, 18, pre_alone), REASON(3, 18, last_pre_alone), REASON(0, 1, last_pre_alone), REASON(3, 18, post_alone), REASON(3, 18, last_post_alone),
	REASON(3, 18, posts_turned), REASON(3, 18, post_of_other), REASON(3, 18, port_four), REASON(0, 1, port_high), REASON(3, 18, follower_two),
	REASON(3, 18, follower_two_slot),
	REASON(3, 18, pre_size), REASON(3, 18, post_size), REASON(3, 18, frame_size), REASON(3, 18, item_size), REASON(3, 18, close_size),
	REASON(3, 18, fod_size), REASON(3, 18, whispy_size), REASON(3, 18, stadium_size), REASON(3, 18, end_size), REASON(3, 18, end_short),
	REASON(0, 1, pre_of_none), REASON(2, 2, frame_of_three),
	REASON(3, 18, pre_id), REASON(0, 1, pre_id), REASON(3, 18, post_id), REASON(3, 18, item_id), REASON(3, 18, fod_id), REASON(3, 18, whispy_id),
	REASON(3, 18, stadium_id), REASON(3, 18, close_id), REASON(3, 18, frame_id),
	REASON(3, 18, block_unlisted), REASON(3, 3, block_code), REASON(3, 3, block_flag), REASON(3, 3, block_first_last), REASON(3, 3, block_never_last),
	REASON(3, 3, block_missing_last), REASON(3, 3, block_of_none), REASON(3, 3, block_of_more), REASON(3, 3, block_not_full),
	REASON(3, 3, block_after_last), REASON(3, 3, block_late), REASON(3, 3, block_size), REASON(3, 3, block_short), REASON(3, 3, codes_size),
	REASON(3, 3, codes_without), REASON(3, 2, block_too_early), REASON(0, 1, block_too_early),
	REASON(2, 1, same_id), REASON(0, 1, same_id), REASON(3, 18, three_ends), REASON(0, 1, three_ends), REASON(3, 18, unlike_ends),
	REASON(3, 18, unlike_placements), REASON(3, 18, initiator_four), REASON(2, 0, initiator_high),
};

static void check_reason(const reason *r, unsigned refused)
{
	whole_of((slp_version){ r->major, r->minor, 0 });
	r->change();
	check_equal_at(answer(), refused, r->name, __FILE__, __LINE__);
}

/* A game of 3.18 becomes one of 3.19. */
static void newer(void) { p.events[0].bytes[1] = 19; }

/* There some are no reasons: as the model has it. */
static void check_newer(const reason *r)
{
	whole_of((slp_version){ 3, 18, 0 });
	newer();
	r->change();
	answer();
}

static void each_reason(void)
{
	for (size_t k = 0; k < sizeof REASONS / sizeof *REASONS; k++) {
		check_reason(&REASONS[k], 19);
		if (REASONS[k].minor == 18)
			check_newer(&REASONS[k]);
	}
}

/* ---- what is just not a reason */

static void nothing(void) {}
static void no_frames(void) { while (p.events[1].code != END) drop_piece(&p, 1); *listed(&p, CODES) = 0; }
static void no_ends(void) { p.n -= 2; }
static void one_end(void) { p.n--; }
static void nobody(void) { drop_players(1, 0, 0); }
static void seat_three(void) { p.events[0].bytes[101] = 3; }
static void start_longer(void) { resize(&p, START, p.events[0].len + 9); }
static void initiator_nobody(void) { p.events[p.n - 1].bytes[1] = p.events[p.n - 2].bytes[1] = 255; }
static void codes_listed_early(void) { *listed(&p, CODES) = 1234; }
static void codes_listed_zero(void) { codes_without(); *listed(&p, CODES) = 0; }
static void codes_not_listed(void) { codes_without(); unlist(&p, CODES); }
static void splitter_not_listed(void) { codes_not_listed(); unlist(&p, BLOCK); }
static void sizes_never_used(void) { *listed(&p, 0x99) = 65535; *listed(&p, 0x35) = 0; nobody(); *listed(&p, PRE_CODE) = 1; }
static void table_turned(void) { swap_entries(1, 4); }
static void last_block_full(void) { AT(BLOCK, 1)->bytes[512] = 2; AT(BLOCK, 1)->bytes[513] = 0; *listed(&p, CODES) = 1024; }
static void padding_free(void) { memset(AT(BLOCK, 1)->bytes + 88, 0xff, 512 - 88); }
static void frames_of_one_id(void) { one_id(); }
static void leader_away(void) { drop_players(0, 0, 0); }
static void tail_away(void) { p.tail_len = 0; }
static void tail_odd(void) { memcpy(p.tail, "odd", p.tail_len = 3); }
static void tail_two(void) { memcpy(p.tail, "}}", p.tail_len = 2); }
static void tail_open(void) { p.tail_len--; }
static void tail_more(void) { p.tail[p.tail_len++] = 0x7d; }
static void tail_key(void) { p.tail[3] ^= 1; }

static const reason TAKEN[] = {
	REASON(0, 1, nothing), REASON(2, 1, nothing), REASON(2, 2, nothing), REASON(3, 0, nothing), REASON(3, 3, nothing), REASON(3, 18, nothing),
	REASON(3, 18, no_frames), REASON(0, 1, no_frames), REASON(3, 18, no_ends), REASON(3, 18, one_end), REASON(3, 18, nobody), REASON(2, 2, nobody),
	REASON(3, 18, seat_three), REASON(3, 18, start_longer), REASON(0, 1, start_longer), REASON(2, 0, initiator_nobody),
	REASON(3, 2, codes_listed_early), REASON(0, 1, codes_listed_early), REASON(3, 3, codes_listed_zero), REASON(3, 18, codes_not_listed),
	REASON(3, 18, splitter_not_listed), REASON(3, 18, sizes_never_used), REASON(3, 18, table_turned), REASON(3, 3, last_block_full),
	REASON(3, 3, padding_free), REASON(2, 2, frames_of_one_id), REASON(3, 18, frames_of_one_id), REASON(3, 18, leader_away), REASON(0, 1, leader_away),
	REASON(2, 2, two_frame_starts),
	REASON(3, 18, tail_away), REASON(3, 18, tail_odd), REASON(3, 18, tail_two), REASON(3, 18, tail_open), REASON(3, 18, tail_more), REASON(3, 18, tail_key),
};

static void no_reason(void)
{
	for (size_t k = 0; k < sizeof TAKEN / sizeof *TAKEN; k++) {
		check_reason(&TAKEN[k], 0);
		if (TAKEN[k].minor == 18)
			check_newer(&TAKEN[k]);
	}
}

/* ---- tails */

static void check_tail(const char *body, size_t len, const char *ends, uint8_t tail)
{
	static const char key[] = "U\010metadata{";
	size_t data;
	whole_of((slp_version){ 0, 1, 0 });
	p.tail_len = 0;
	uint8_t *start = put_together(&p, &data), *file = take(data + 11 + len + 3);
	memcpy(file, start, data);
	memcpy(file + data, key, 11);
	memset(file + data + 11, *body, len);
	memcpy(file + data + 11 + len, ends, strlen(ends));
	size_t all = data + 11 + len + strlen(ends);
	opened_file f = check_opening(file, all);
	CHECK_EQ(f.o.refused, 0);
	CHECK_EQ(f.o.places.tail, tail);
	CHECK_EQ(f.o.places.metadata_at, tail == SLP_FILE_TAIL_METADATA ? data + 11 : 0);
	CHECK_EQ(f.o.places.metadata_len, tail == SLP_FILE_TAIL_METADATA ? all - data - 13 : 0);
	CHECK_EQ(f.o.game.metadata_given, tail == SLP_FILE_TAIL_METADATA);
	free_opened(&f);
	free(start);
	free(file);
}

/* A body is any bytes, braces too, but at most 65,535 of them. */
static void tails(void)
{
	check_tail("x", 0, "}}", SLP_FILE_TAIL_METADATA);
	check_tail("x", 1, "}}", SLP_FILE_TAIL_METADATA);
	check_tail("x", 65535, "}}", SLP_FILE_TAIL_METADATA);
	check_tail("x", 65536, "}}", SLP_FILE_TAIL_ODD);
	check_tail("}", 5, "}}", SLP_FILE_TAIL_METADATA);
	check_tail("x", 0, "}", SLP_FILE_TAIL_ODD);
	check_tail("x", 0, "", SLP_FILE_TAIL_ODD);
	check_tail("x", 3, "}", SLP_FILE_TAIL_ODD);
	check_tail("x", 3, "}}x", SLP_FILE_TAIL_ODD);
	check_tail("x", 3, "}}}", SLP_FILE_TAIL_METADATA);
}

/* ---- of several faults the first is given */

enum { FAULTS = 8, FAULT_LENGTH = 3, FAULT_STORE = 7 };
static const unsigned NUMBERS[FAULTS] = { 14, 15, 16, 17, 19, 1, 19, 12 };

static uint8_t *with_faults(unsigned set, size_t *len)
{
	whole_of((slp_version){ 3, 18, 0 });
	if (set & 1 << 6)
		unlike_ends();
	if (set & 1 << 5)
		p.events[0].bytes[0] = 4;
	if (set & 1 << 4)
		first_other();
	if (set & 1 << 2) {
		insert_piece(&p, 2, 0x98);
		unlist(&p, 0x98);
	}
	uint8_t *file = put_together(&p, len);
	if (set & 1 << FAULT_LENGTH) {
		file[13] = (uint8_t)(file[13] - (file[14] == 0));
		file[14]--;
	}
	file[15] ^= set >> 1 & 1;
	file[0] ^= set & 1;
	return file;
}

/* Which number a set of faults has: that of its first fault. */
static unsigned number_of(unsigned set)
{
	for (unsigned k = 0; k < FAULTS; k++)
		if (set >> k & 1)
			return NUMBERS[k];
	return 0;
}

static void check_set(unsigned set, const size_t lens[FILLED_STORES])
{
	size_t len, some[FILLED_STORES];
	uint8_t *file = with_faults(set, &len);
	slp_measured m = guarded_measure(file, len), should = model_measure(file, len);
	CHECK_EQ(m.refused, number_of(set & ~(1u << FAULT_STORE)));
	CHECK(same_measured(&m, &should));
	memcpy(some, lens, sizeof some);
	if (set & 1 << FAULT_STORE)
		some[set % 5]--;
	lent_space l = lend_space(some);
	slp_opened o = guarded_read(file, len, &l, &m.lengths);
	CHECK_EQ(o.refused, number_of(set));
	CHECK_EQ(o.offset, m.offset);
	give_back_space(&l);
	free(file);
}

static void sets_of_faults(void)
{
	size_t len, lens[FILLED_STORES];
	uint8_t *file = with_faults(0, &len);
	slp_measured m = model_measure(file, len);
	each_length(&m.lengths, lens);
	free(file);
	for (unsigned set = 0; set < 1 << FAULTS; set += light ? 1 + (unsigned)below(6) : 1)
		check_set(set, lens);
	for (unsigned k = 0; k < FAULTS; k++)
		check_set(1u << k, lens);
}

/* Each store one element short is refused, and none is touched. */
static void short_stores(void)
{
	size_t len, lens[FILLED_STORES];
	uint8_t *file = with_faults(0, &len);
	slp_measured m = guarded_measure(file, len);
	each_length(&m.lengths, lens);
	for (size_t k = 0; k < FILLED_STORES; k++) {
		CHECK(lens[k] > 0);
		lens[k]--;
		lent_space l = lend_space(lens);
		CHECK_EQ(guarded_read(file, len, &l, &m.lengths).refused, 12);
		give_back_space(&l);
		lens[k]++;
	}
	free(file);
}

/* ---- versions, and a length of zero */

/* Above 3.18.0 a file is partly read; from 4.0.0 on it is not. */
static void newer_versions(void)
{
	static const uint8_t versions[][5] = { { 3, 18, 0, 0, 0 }, { 3, 18, 1, 0, 1 }, { 3, 19, 0, 0, 1 }, { 3, 255, 255, 0, 1 }, { 4, 0, 0, 1, 0 }, { 255, 0, 0, 1, 0 } };
	for (size_t k = 0; k < sizeof versions / sizeof *versions; k++) {
		size_t len;
		whole_of((slp_version){ 3, 18, 0 });
		memcpy(p.events[0].bytes, versions[k], 3);
		uint8_t *file = put_together(&p, &len);
		opened_file f = check_opening(file, len);
		CHECK_EQ(f.o.refused, versions[k][3]);
		CHECK_EQ(f.o.partly, versions[k][4]);
		free_opened(&f);
		free(file);
	}
	/* four bytes of GameStart are enough for 1, and not for a block */
	whole_of((slp_version){ 3, 18, 0 });
	resize(&p, START, 4);
	CHECK_EQ(answer(), 19);
	p.events[0].bytes[0] = 4;
	CHECK_EQ(answer(), 1);
	resize(&p, START, 3);
	CHECK_EQ(answer(), 19);
	/* the version comes before a cut */
	size_t len;
	whole_of((slp_version){ 3, 18, 0 });
	uint8_t *file = put_together(&p, &len);
	CHECK_EQ(check_file(file, len - p.tail_len - 1), 19);
	file[slp_first_place(file, len) + 1] = 4;
	CHECK_EQ(check_file(file, len - p.tail_len - 1), 1);
	CHECK_EQ(check_file(file, slp_first_place(file, len) + 1 + p.events[0].len), 1);
	CHECK_EQ(check_file(file, slp_first_place(file, len) + p.events[0].len), 19);
	free(file);
}

/* With its tail it is refused at the tail, without one it is cut. */
static void zero_lengths(void)
{
	size_t len;
	whole_of((slp_version){ 3, 18, 0 });
	uint8_t *file = put_together(&p, &len);
	memset(file + 11, 0, 4);
	CHECK_EQ(check_file(file, len), 16);
	CHECK_EQ(guarded_measure(file, len).offset, len - p.tail_len);
	CHECK_EQ(check_file(file, len - p.tail_len), 19);
	free(file);
}

/* ---- counts over their maxima */

typedef struct {
	uint8_t *bytes;
	size_t len;
} big;

static void add(big *b, const uint8_t *bytes, size_t len)
{
	memcpy(b->bytes + b->len, bytes, len);
	b->len += len;
}

static void add_event(big *b, const piece *e)
{
	b->bytes[b->len++] = e->code;
	add(b, e->bytes, e->len);
}

/* The pieces, of which event `k` stands there `times` times. */
static big repeated(size_t k, size_t times)
{
	size_t len, each = 1 + p.events[k].len;
	uint8_t *head = put_together(&p, &len);
	big b = { take(len + each * times), 0 };
	add(&b, head, slp_first_place(head, len));
	for (size_t i = 0; i < p.n; i++)
		for (size_t t = i == k ? times : 1; t; t--)
			add_event(&b, &p.events[i]);
	size_t declared = b.len - 15;
	add(&b, p.tail, p.tail_len);
	for (size_t i = 0; i < 4; i++)
		b.bytes[11 + i] = (uint8_t)(declared >> (24 - 8 * i));
	free(head);
	return b;
}

/* With one row more than there may be, 2; with as many, none. Files are large, so the measure alone looks at them. */
static void check_maximum(size_t k, size_t most)
{
	big b = repeated(k, most + 1);
	slp_measured m = slp_measure(b.bytes, b.len), should = { .refused = 2 };
	CHECK_EQ(m.refused, 2);
	CHECK(same_measured(&m, &should));
	free(b.bytes);
	b = repeated(k, most);
	m = slp_measure(b.bytes, b.len);
	should = model_measure(b.bytes, b.len);
	CHECK_EQ(m.refused, 0);
	CHECK(same_measured(&m, &should));
	free(b.bytes);
}

static void one_frame(slp_version v)
{
	whole_of(v);
	while (p.events[1].code == BLOCK)
		drop_piece(&p, 1);
	*listed(&p, CODES) = 0;
	while (p.events[find(&p, END, 0) - 1].bytes[3] != 0)
		drop_piece(&p, find(&p, END, 0) - 1);
}

static void most_rows(void)
{
	static const uint8_t stages[3] = { FOD_CODE, WHISPY_CODE, STADIUM_CODE };
	if (light)
		return;
	for (size_t k = 0; k < 3; k++) {
		one_frame((slp_version){ 3, 18, 0 });
		drop_piece(&p, find(&p, stages[k], 0));
		check_maximum(find(&p, stages[k], 0), SLP_MAX_STAGE_ROWS);
	}
	one_frame((slp_version){ 3, 18, 0 });
	newer();
	resize(&p, WHISPY_CODE, 7);
	drop_piece(&p, find(&p, WHISPY_CODE, 0));
	check_maximum(find(&p, WHISPY_CODE, 0), SLP_MAX_STAGE_ROWS);
	one_frame((slp_version){ 3, 0, 0 });
	drop_piece(&p, find(&p, ITEM_CODE, 0));
	check_maximum(find(&p, ITEM_CODE, 0), SLP_MAX_ITEMS);
	one_frame((slp_version){ 2, 2, 0 });
	nobody();
	check_maximum(find(&p, FRAME, 0), SLP_MAX_FRAMES);
}

/* Codes of one block more than there may be, of a version 3; `change` is a fault besides. */
static unsigned too_many_codes(uint8_t minor, void (*change)(void), size_t blocks)
{
	static const size_t none[FILLED_STORES];
	slp_lengths needed = { 0 };
	whole_of((slp_version){ 3, minor, 0 });
	*listed(&p, CODES) = (512 * blocks + 88) % 65536;
	change();
	big b = repeated(find(&p, BLOCK, 0), blocks);
	lent_space l = lend_space(none);
	unsigned refused = guarded_read(b.bytes, b.len, &l, &needed).refused;
	CHECK_EQ(slp_measure(b.bytes, b.len).refused, refused == 12 ? 0 : refused);
	give_back_space(&l);
	free(b.bytes);
	return refused;
}

static void version_too_new(void) { p.events[0].bytes[0] = 4; }
static void unlisted_last(void) { insert_piece(&p, p.n, 0x98); unlist(&p, 0x98); }

static void most_codes(void)
{
	CHECK_EQ(too_many_codes(3, nothing, 32767), 12);
	CHECK_EQ(too_many_codes(3, nothing, 32768), 2);
	CHECK_EQ(too_many_codes(3, unlike_ends, 32768), 19);
	CHECK_EQ(too_many_codes(3, version_too_new, 32768), 1);
	CHECK_EQ(too_many_codes(3, unlisted_last, 32768), 16);
	CHECK_EQ(too_many_codes(18, newer, 32767), 12);
	CHECK_EQ(too_many_codes(18, newer, 32768), 2);
}

int main(int argc, char **argv)
{
	begin("read_refusals", argc, argv);
	test("each reason", each_reason);
	test("no reason", no_reason);
	test("tails", tails);
	test("sets of faults", sets_of_faults);
	test("short stores", short_stores);
	test("newer versions", newer_versions);
	test("zero lengths", zero_lengths);
	test("most codes", most_codes);
	test("most rows", most_rows);
	return finish();
}
