/* Why files are refused with 19: games with one event wrong in each way, every cut of small games, damaged bytes and structure. All against a second writing
 * of where a replay stands after each event; and that the same fault is found where the file ends behind it, and none where it ends before it. */
#include "fault.h"

#include <stdlib.h>
#include <string.h>

#include "check.h"
#include "made.h"
#include "model.h"
#include "pieces.h"
#include "sounds.h"

enum { START = 0x36, PRE_CODE = 0x37, POST_CODE = 0x38, END = 0x39, FRAME = 0x3a, ITEM_CODE = 0x3b, CLOSE = 0x3c, CODES = 0x3d, BLOCK = 0x10,
       FOD_CODE = 0x3f, WHISPY_CODE = 0x40, STADIUM_CODE = 0x41, OTHER = 0x99, REASONS_END = SLP_FAULT_STRANGE + 1 };

/* How often each reason was answered, and each refusal. */
static size_t met[256], refusals[256];

/* ---- the call, over a lent copy */

static slp_faulted lent_fault(const uint8_t *file, size_t len)
{
	loan f = lend(file, len, 1);
	slp_faulted why = slp_fault(f.data, len);
	CHECK(kept(&f, 0));
	give_back(&f);
	return why;
}

static void check_same(slp_faulted is, slp_faulted should)
{
	CHECK_EQ(is.refused, should.refused);
	CHECK_EQ(is.reason, should.reason);
	CHECK_EQ(is.event, should.event);
	CHECK_EQ(is.offset, should.offset);
}

static void set_length(uint8_t *file, size_t length)
{
	for (int i = 0; i < 4; i++)
		file[11 + i] = (uint8_t)(length >> (24 - 8 * i));
}

/* The events before the fault are those of a replay that is not finished or not whole, at the same place; with the faulty one, and nothing behind it, the
 * fault is the same. */
static void check_place(const uint8_t *file, slp_faulted why, size_t next)
{
	uint8_t *copy = take(next);
	memcpy(copy, file, next);
	set_length(copy, next - 15);
	check_same(lent_fault(copy, next), why);
	set_length(copy, 0);
	slp_faulted before = lent_fault(copy, why.offset);
	CHECK(before.reason == SLP_FAULT_CUT || before.reason == SLP_FAULT_LENGTH);
	CHECK(before.event == why.event && before.offset == why.offset);
	free(copy);
}

/* No beginning that repair keeps has the faulty event. */
static void check_kept(const uint8_t *file, size_t len, slp_faulted why)
{
	slp_repaired r = slp_measure_repair(file, len);
	CHECK(r.refused || r.events <= why.event);
}

/* Whether the first event says a version above 3.18.0. */
static int is_newer(const uint8_t *file, size_t len)
{
	slp_step s = model_step(file, len, 16 + (size_t)file[16]);
	if (s.kind != SLP_STEP_EVENT || s.code != START || s.len < 4)
		return 0;
	return too_new((slp_version){ file[s.payload], file[s.payload + 1], file[s.payload + 2] });
}

static slp_faulted check_fault(const uint8_t *file, size_t len)
{
	slp_faulted why = lent_fault(file, len);
	check_same(why, model_fault(file, len));
	CHECK_EQ(why.refused, slp_measure(file, len).refused);
	CHECK(why.reason < REASONS_END);
	CHECK_EQ(why.reason != 0, why.refused == SLP_BAD_EVENTS && !is_newer(file, len));
	if (why.reason && why.reason != SLP_FAULT_CUT && why.reason != SLP_FAULT_LENGTH) {
		check_place(file, why, model_step(file, len, why.offset).next);
		check_kept(file, len, why);
	}
	met[why.reason]++;
	refusals[why.refused]++;
	return why;
}

/* ---- games with one event wrong */

static pieces p;

#define AT(code, k) (&p.events[find(&p, code, k)])

static slp_faulted fault_of_pieces(void)
{
	size_t len;
	uint8_t *file = put_together(&p, &len);
	slp_faulted why = check_fault(file, len);
	free(file);
	return why;
}

static void move_player(size_t k, size_t to)
{
	move_piece(&p, find(&p, PRE_CODE, k), find(&p, PRE_CODE, to));
	move_piece(&p, find(&p, POST_CODE, k), find(&p, POST_CODE, to));
}

static void one_id(void)
{
	for (size_t i = 0; i < p.n; i++)
		if (p.events[i].code >= PRE_CODE && p.events[i].code != END)
			p.events[i].bytes[3] = 7;
}

static void add_block(void)
{
	*listed(&p, CODES) = 1;
	*listed(&p, BLOCK) = 516;
	memcpy(insert_piece(&p, 1, BLOCK)->bytes + 512, "\0\1\x3d\1", 4);
}

/* the slots of a frame are 0, 1, 4; every family has two rows in each of the three frames */
static void no_events(void) { p.n = 0; }
static void first_other(void) { move_piece(&p, 0, 1); }
static void start_of_three(void) { resize(&p, START, 3); }
static void start_short(void) { resize(&p, START, p.events[0].len - 1); }
static void start_twice(void) { double_piece(&p, 0, 1); }
static void start_late(void) { double_piece(&p, 0, p.n); }
static void seat_four(void) { p.events[0].bytes[101 + 36 * 3] = 4; }
static void ports_swapped(void) { move_player(5, 3); }
static void posts_swapped(void) { move_piece(&p, find(&p, POST_CODE, 5), find(&p, POST_CODE, 3)); }
static void follower_first(void) { move_player(1, 0); }
static void post_id(void) { AT(POST_CODE, 4)->bytes[3] ^= 1; }
static void pre_id(void) { AT(PRE_CODE, 1)->bytes[3] ^= 1; }
static void item_id(void) { AT(ITEM_CODE, 3)->bytes[0] ^= 128; }
static void close_id(void) { AT(CLOSE, 2)->bytes[3] ^= 1; }
static void initiator_nine(void) { p.events[p.n - 1].bytes[1] = p.events[p.n - 2].bytes[1] = 9; }
static void pre_dropped(void) { drop_piece(&p, find(&p, PRE_CODE, 4)); }
static void post_dropped(void) { drop_piece(&p, find(&p, POST_CODE, 4)); }
static void last_post_dropped(void) { drop_piece(&p, find(&p, POST_CODE, 8)); }
static void all_posts_dropped(void) { for (int k = 0; k < 3; k++) drop_piece(&p, find(&p, POST_CODE, 6)); }
static void player_twice(void) { double_piece(&p, find(&p, PRE_CODE, 2), find(&p, PRE_CODE, 2)); }
static void post_twice(void) { double_piece(&p, find(&p, POST_CODE, 2), find(&p, POST_CODE, 2)); }
static void port_four(void) { AT(PRE_CODE, 2)->bytes[4] = AT(POST_CODE, 2)->bytes[4] = 4; }
static void post_port(void) { AT(POST_CODE, 7)->bytes[4] = 132; }
static void follower_two(void) { AT(PRE_CODE, 1)->bytes[5] = AT(POST_CODE, 1)->bytes[5] = 2; }
static void post_follower(void) { AT(POST_CODE, 7)->bytes[5] = 255; }
static void port_and_follower(void) { AT(PRE_CODE, 1)->bytes[4] = 4; AT(PRE_CODE, 1)->bytes[5] = 2; }
static void block_code(void) { AT(BLOCK, 0)->bytes[514] = 0x3c; }
static void block_flag(void) { AT(BLOCK, 1)->bytes[515] = 2; }
static void block_not_full(void) { AT(BLOCK, 0)->bytes[513] = 255; }
static void block_of_none(void) { AT(BLOCK, 1)->bytes[512] = AT(BLOCK, 1)->bytes[513] = 0; }
static void block_of_more(void) { AT(BLOCK, 1)->bytes[512] = 2; AT(BLOCK, 1)->bytes[513] = 1; }
static void block_size(void) { resize(&p, BLOCK, 517); }
static void block_unlisted(void) { unlist(&p, CODES); }
static void block_first_last(void) { AT(BLOCK, 0)->bytes[515] = 1; }
static void block_missing(void) { drop_piece(&p, 2); }
static void block_after_last(void) { double_piece(&p, 2, 3); }
static void block_late(void) { move_piece(&p, 2, 3); }
static void block_too_early(void) { add_block(); }
static void codes_size(void) { *listed(&p, CODES) = 601; }
static void codes_without(void) { drop_piece(&p, 2); drop_piece(&p, 1); }
static void third_end(void) { double_piece(&p, p.n - 1, p.n); }
static void unlike_ends(void) { p.events[p.n - 1].bytes[0] ^= 1; }
static void unlike_placements(void) { p.events[p.n - 1].bytes[5] ^= 1; }
static void end_size(void) { resize(&p, END, 7); }
static void end_in_frame(void) { move_piece(&p, find(&p, END, 0), find(&p, CLOSE, 1)); }
static void end_before_post(void) { move_piece(&p, find(&p, END, 0), find(&p, POST_CODE, 3)); }
static void frame_after_end(void) { move_piece(&p, find(&p, END, 0), find(&p, FRAME, 2)); }
static void frame_after_ends(void) { move_piece(&p, find(&p, FRAME, 2), p.n - 1); }
static void no_frame_start(void) { drop_piece(&p, find(&p, FRAME, 1)); }
static void two_frame_starts(void) { double_piece(&p, find(&p, FRAME, 1), find(&p, FRAME, 1)); }
static void close_dropped(void) { drop_piece(&p, find(&p, CLOSE, 0)); }
static void closes_twice(void) { double_piece(&p, find(&p, CLOSE, 1), find(&p, CLOSE, 1)); }
static void item_before_pre(void) { move_piece(&p, find(&p, ITEM_CODE, 0), find(&p, PRE_CODE, 0)); }
static void fod_after_whispy(void) { move_piece(&p, find(&p, FOD_CODE, 1), find(&p, WHISPY_CODE, 0)); }
static void whispy_after_stadium(void) { move_piece(&p, find(&p, WHISPY_CODE, 1), find(&p, STADIUM_CODE, 0)); }
static void unfinished(void) { p.n = find(&p, POST_CODE, 7); }
static void unclosed(void) { p.n = find(&p, CLOSE, 2); }
static void other_listed(void) { *listed(&p, OTHER) = 3; insert_piece(&p, find(&p, FRAME, 1), OTHER); }
static void other_last(void) { *listed(&p, OTHER) = 0; insert_piece(&p, p.n, OTHER); }
static void table_as_event(void) { *listed(&p, 0x35) = 4; insert_piece(&p, find(&p, FRAME, 0), 0x35); }
static void other_among_blocks(void) { *listed(&p, OTHER) = 3; insert_piece(&p, 2, OTHER); }
static void pre_size(void) { resize(&p, PRE_CODE, p.events[find(&p, PRE_CODE, 0)].len + 1); }
static void post_size(void) { resize(&p, POST_CODE, p.events[find(&p, POST_CODE, 0)].len - 1); }
static void frame_of_three(void) { resize(&p, FRAME, 3); }
static void item_too_early(void) { *listed(&p, ITEM_CODE) = 37; insert_piece(&p, find(&p, POST_CODE, 0), ITEM_CODE); }
static void close_too_early(void) { *listed(&p, CLOSE) = 4; insert_piece(&p, find(&p, FRAME, 1), CLOSE); }
static void start_too_early(void) { *listed(&p, FRAME) = 8; insert_piece(&p, find(&p, PRE_CODE, 0), FRAME); }
static void same_id(void) { one_id(); }

/* The fault is the k-th event of a code, after the change; with a code of 0 the k-th event of all, LAST their end. */
enum { LAST = 9999 };

typedef struct {
	const char *name;
	uint8_t major, minor;
	void (*change)(void);
	uint8_t reason, code;
	size_t k;
} wrong;

#define WRONG(major, minor, change, reason, code, k) { #change, major, minor, change, SLP_FAULT_##reason, code, k }

static const wrong WRONGS[] = {
	WRONG(3, 18, no_events, CUT, 0, LAST), WRONG(3, 18, first_other, START, 0, 0), WRONG(0, 1, start_of_three, START, 0, 0),
	WRONG(3, 18, start_short, SHORT, 0, 0), WRONG(0, 1, start_short, SHORT, 0, 0), WRONG(3, 18, seat_four, SEAT, 0, 0), WRONG(0, 1, seat_four, SEAT, 0, 0),
	WRONG(3, 2, start_twice, ORDER, 0, 1), WRONG(3, 18, start_twice, LISTED, 0, 1), WRONG(3, 18, start_late, ORDER, START, 1),
	WRONG(3, 18, ports_swapped, PORTS, PRE_CODE, 4), WRONG(0, 1, ports_swapped, PORTS, PRE_CODE, 4), WRONG(3, 18, posts_swapped, PORTS, POST_CODE, 3),
	WRONG(3, 18, follower_first, PORTS, PRE_CODE, 1), WRONG(0, 1, posts_swapped, PORTS, POST_CODE, 3),
	WRONG(3, 18, post_id, ID, POST_CODE, 4), WRONG(0, 1, post_id, ID, POST_CODE, 4), WRONG(3, 18, pre_id, ID, PRE_CODE, 1), WRONG(0, 1, pre_id, ID, PRE_CODE, 1),
	WRONG(3, 18, item_id, ID, ITEM_CODE, 3), WRONG(3, 18, close_id, ID, CLOSE, 2),
	WRONG(3, 18, initiator_nine, INITIATOR, END, 0), WRONG(2, 0, initiator_nine, INITIATOR, END, 0),
	WRONG(3, 18, pre_dropped, POST, POST_CODE, 4), WRONG(0, 1, pre_dropped, POST, POST_CODE, 4), WRONG(3, 18, post_dropped, PORTS, POST_CODE, 4),
	WRONG(3, 18, last_post_dropped, PRE, CLOSE, 2), WRONG(2, 2, last_post_dropped, PRE, END, 0), WRONG(0, 1, last_post_dropped, PRE, END, 0),
	WRONG(3, 18, all_posts_dropped, PRE, CLOSE, 2), WRONG(3, 18, player_twice, TWICE, PRE_CODE, 3), WRONG(0, 1, player_twice, TWICE, PRE_CODE, 3),
	WRONG(3, 18, post_twice, POST, POST_CODE, 3), WRONG(3, 18, port_four, PORT, PRE_CODE, 2), WRONG(0, 1, port_four, PORT, PRE_CODE, 2),
	WRONG(3, 18, post_port, PORT, POST_CODE, 7), WRONG(3, 18, follower_two, FOLLOWER, PRE_CODE, 1), WRONG(0, 1, follower_two, FOLLOWER, PRE_CODE, 1),
	WRONG(3, 18, post_follower, FOLLOWER, POST_CODE, 7), WRONG(3, 18, port_and_follower, PORT, PRE_CODE, 1),
	WRONG(3, 3, block_code, BLOCK, BLOCK, 0), WRONG(3, 3, block_flag, BLOCK, BLOCK, 1), WRONG(3, 18, block_not_full, BLOCK, BLOCK, 0),
	WRONG(3, 3, block_of_none, BLOCK, BLOCK, 1), WRONG(3, 3, block_of_more, BLOCK, BLOCK, 1), WRONG(3, 3, block_size, SIZE, BLOCK, 0),
	WRONG(3, 18, block_unlisted, LISTED, BLOCK, 0), WRONG(3, 18, block_first_last, LISTED, BLOCK, 0), WRONG(3, 18, block_missing, ORDER, FRAME, 0),
	WRONG(3, 3, block_after_last, ORDER, BLOCK, 2), WRONG(3, 3, block_late, ORDER, FRAME, 0), WRONG(3, 2, block_too_early, VERSION, BLOCK, 0),
	WRONG(3, 18, codes_size, LISTED, BLOCK, 1), WRONG(3, 18, codes_without, LISTED, 0, 1),
	WRONG(3, 18, third_end, THIRD, END, 2), WRONG(0, 1, third_end, THIRD, END, 2), WRONG(3, 18, unlike_ends, UNLIKE, END, 1), WRONG(0, 1, unlike_ends, UNLIKE, END, 1),
	WRONG(3, 18, unlike_placements, UNLIKE, END, 1), WRONG(3, 18, end_size, SIZE, END, 0), WRONG(3, 18, end_in_frame, ORDER, END, 0),
	WRONG(3, 18, end_before_post, PRE, END, 0), WRONG(3, 18, frame_after_end, ORDER, FRAME, 2), WRONG(3, 18, frame_after_ends, ORDER, PRE_CODE, 6),
	WRONG(3, 18, no_frame_start, ORDER, PRE_CODE, 3), WRONG(3, 18, two_frame_starts, ORDER, FRAME, 2), WRONG(3, 18, close_dropped, ORDER, FRAME, 1),
	WRONG(3, 18, closes_twice, ORDER, CLOSE, 2), WRONG(3, 18, item_before_pre, ORDER, PRE_CODE, 0), WRONG(3, 18, fod_after_whispy, ORDER, FOD_CODE, 1),
	WRONG(3, 18, whispy_after_stadium, ORDER, WHISPY_CODE, 1),
	WRONG(3, 18, unfinished, CUT, 0, LAST), WRONG(0, 1, unfinished, CUT, 0, LAST), WRONG(3, 18, unclosed, CUT, 0, LAST),
	WRONG(3, 18, other_listed, STRANGE, OTHER, 0), WRONG(3, 18, other_last, STRANGE, OTHER, 0), WRONG(0, 1, other_last, STRANGE, OTHER, 0),
	WRONG(3, 18, table_as_event, STRANGE, 0x35, 0), WRONG(3, 3, other_among_blocks, STRANGE, OTHER, 0),
	WRONG(3, 18, pre_size, SIZE, PRE_CODE, 0), WRONG(3, 18, post_size, SIZE, POST_CODE, 0), WRONG(2, 2, frame_of_three, SIZE, FRAME, 0),
	WRONG(2, 2, item_too_early, VERSION, ITEM_CODE, 0), WRONG(2, 2, close_too_early, VERSION, CLOSE, 0), WRONG(2, 1, start_too_early, VERSION, FRAME, 0),
	WRONG(2, 1, same_id, SAME, PRE_CODE, 3), WRONG(0, 1, same_id, SAME, PRE_CODE, 3),
};

static size_t byte_of(size_t n)
{
	size_t at = 17 + 3 * p.entries;
	for (size_t i = 0; i < n; i++)
		at += 1 + p.events[i].len;
	return at;
}

static void each_wrong(void)
{
	for (size_t i = 0; i < sizeof WRONGS / sizeof *WRONGS; i++) {
		const wrong *w = &WRONGS[i];
		take_whole(&p, (slp_version){ w->major, w->minor, 0 });
		w->change();
		size_t n = w->code ? find(&p, w->code, w->k) : w->k == LAST ? p.n : w->k;
		slp_faulted why = fault_of_pieces();
		check_equal_at(why.reason, w->reason, w->name, __FILE__, __LINE__);
		check_equal_at(why.event, n, w->name, __FILE__, __LINE__);
		check_equal_at(why.offset, byte_of(n), w->name, __FILE__, __LINE__);
	}
}

/* A newer recorder's file: nothing is told of it, but where its first event is no start. */
static void newer_recorders(void)
{
	for (size_t i = 0; i < sizeof WRONGS / sizeof *WRONGS; i++)
		if (WRONGS[i].minor == 18) {
			take_whole(&p, (slp_version){ 3, 18, 0 });
			p.events[0].bytes[1] = 19;
			WRONGS[i].change();
			slp_faulted why = fault_of_pieces();
			CHECK(why.reason == 0 || why.reason == SLP_FAULT_START || why.event == 0);
		}
}

/* Games with one event that is dropped, doubled, moved, of another code, or with a byte of its head changed. */
static void change_one(void)
{
	size_t at = below(p.n), to = below(p.n);
	piece *e = &p.events[at];
	switch (below(5)) {
	case 0: drop_piece(&p, at); break;
	case 1: double_piece(&p, at, to); break;
	case 2: move_piece(&p, at, to); break;
	case 3:
		e->code = p.codes[below(p.entries)];
		e->len = *listed(&p, e->code) < LONGEST_PIECE ? *listed(&p, e->code) : e->len;
		break;
	default: e->bytes[below(e->len < 6 ? e->len : 6)] = (uint8_t)(below(2) ? below(6) : draw()); break;
	}
}

static const slp_version VERSIONS[] = { { 0, 1, 0 }, { 1, 0, 0 }, { 2, 1, 0 }, { 2, 2, 0 }, { 3, 0, 0 }, { 3, 3, 0 }, { 3, 7, 0 }, { 3, 18, 0 } };
enum { VERSIONS_LEN = sizeof VERSIONS / sizeof *VERSIONS };

static void changed_events(void)
{
	static pieces whole;
	for (size_t k = 0; k < VERSIONS_LEN; k += light ? 7 : 1) {
		take_whole(&whole, VERSIONS[k]);
		for (size_t i = rounds(2500, 20); i; i--) {
			p = whole;
			for (size_t n = 1 + below(2); n; n--)
				change_one();
			fault_of_pieces();
		}
	}
}

/* ---- cuts, lengths, damage */

static model_file small_file(slp_version v)
{
	plan q = random_plan(3);
	q.version = v;
	made g = make_returning(q);
	model_file f = model_write(&g.in);
	unmake(&g);
	return f;
}

/* With the length that it had, with none, and with one that says that it ends there. */
static void every_cut(void)
{
	for (size_t k = 0; k < VERSIONS_LEN; k += light ? 7 : 1) {
		model_file f = small_file(VERSIONS[k]);
		for (size_t cut = 0; cut <= f.len; cut += light ? 97 : 1)
			for (int i = 0; i < 3; i++) {
				set_length(f.bytes, i == 0 ? f.data_end - 15 : i == 1 || cut < 15 ? 0 : cut - 15);
				check_fault(f.bytes, cut);
			}
		model_free(&f);
	}
}

/* All events, and a length that was never filled in or says one byte more than there are: only that is wrong. */
static void lengths(void)
{
	for (size_t i = rounds(300, 6); i; i--) {
		model_file f = small_file(random_version());
		CHECK_EQ(check_fault(f.bytes, f.len).refused, 0);
		for (int k = 0; k < 2; k++) {
			set_length(f.bytes, k ? f.data_end - 14 : 0);
			slp_faulted why = check_fault(f.bytes, f.data_end);
			CHECK_EQ(why.reason, SLP_FAULT_LENGTH);
			CHECK_EQ(why.event, f.events);
			CHECK_EQ(why.offset, f.data_end);
		}
		model_free(&f);
	}
}

static void damaged_bytes(void)
{
	for (size_t i = rounds(4000, 20); i; i--) {
		model_file f = small_file(random_version());
		for (int k = 0; k < 8; k++) {
			size_t at = below(2) || f.events < 2 ? below(f.len) : f.ends[below(f.events - 1)] + below(7);
			uint8_t was = f.bytes[at];
			f.bytes[at] = (uint8_t)(below(2) ? was ^ 1u << below(8) : below(6));
			check_fault(f.bytes, below(4) ? f.len : below(f.len + 1));
			f.bytes[at] = was;
		}
		model_free(&f);
	}
}

static sound s;

/* Files of any writer, with changes to their structure. */
static void damaged_files(void)
{
	for (size_t i = rounds(10000, 30); i; i--) {
		size_t len;
		make_sound(&s, random_version());
		for (size_t k = below(4); k; k--)
			damage_sound(&s);
		uint8_t *file = join(&s, &len);
		check_fault(file, below(4) ? len : below(len + 1));
		free(file);
	}
}

/* ---- words */

static void words(void)
{
	const slp_words unknown = slp_fault_words(255);
	for (unsigned n = 0; n < 256; n++) {
		slp_words w = slp_fault_words((uint8_t)n);
		size_t len = strlen(w.text);
		CHECK(len > 0 && len < sizeof w.text);
		for (size_t i = len; i < sizeof w.text; i++)
			CHECK_EQ(w.text[i], 0);
		CHECK_EQ(strcmp(w.text, unknown.text) == 0, n >= REASONS_END);
		for (unsigned m = 0; m < n && n < REASONS_END; m++)
			CHECK(strcmp(w.text, slp_fault_words((uint8_t)m).text) != 0);
	}
	CHECK(strcmp(slp_fault_words(0).text, "no fault") == 0);
	CHECK(strcmp(slp_fault_words(SLP_FAULT_POST).text, "a player's Post without its Pre") == 0);
}

static void all_met(void)
{
	static const unsigned numbers[] = { 0, 1, 14, 15, 16, 17, 19 };
	for (unsigned reason = 0; reason < REASONS_END; reason++)
		CHECK(met[reason] > 0);
	for (size_t k = 0; k < sizeof numbers / sizeof *numbers; k++)
		CHECK(light || refusals[numbers[k]] > 0);
}

int main(int argc, char **argv)
{
	begin("fault", argc, argv);
	test("each wrong", each_wrong);
	test("newer recorders", newer_recorders);
	test("changed events", changed_events);
	test("every cut", every_cut);
	test("lengths", lengths);
	test("damaged bytes", damaged_bytes);
	test("damaged files", damaged_files);
	test("words", words);
	test("all met", all_met);
	return finish();
}
