/* Why a file is refused with 19: the events one after another, and the first that may not come where the replay stands. */
#include "fault.h"

#include <string.h>

#include "columns.h"
#include "model.h"
#include "open.h"

enum { CODES_LAST = 0x3d, BLOCK_LEN = 516, MOST_DUE = 8 };

typedef enum { CODING, FRAMING, ENDED, OVER } phase;

/* The parts of a frame, in the order in which they stand there. */
typedef enum { NO_PART, A_START, A_PRE, A_FOD, A_WHISPY, A_STADIUM, AN_ITEM, A_POST, AN_END } part;

typedef struct {
	slp_version version;
	size_t listed;             /* how many bytes the table lists for codes, and one more; 0 where it lists none */
	phase stands;
	size_t blocks;             /* full blocks of codes so far */
	size_t frames;             /* how many were begun */
	part last;                 /* of the frame: its last event's part, and its id */
	uint32_t id;
	size_t due[MOST_DUE], n;   /* the players whose Post is to come, in the order of their Pres */
	const uint8_t *end;        /* the first end's payload */
} replay;

typedef struct {
	uint8_t code;
	const uint8_t *payload;
	size_t len;
} event;

static uint32_t number(const uint8_t *at, size_t width)
{
	uint32_t n = 0;
	for (size_t i = 0; i < width; i++)
		n = n << 8 | at[i];
	return n;
}

static part part_of(uint8_t code, family *f)
{
	switch (code) {
	case SLP_EVENT_FRAME_START: *f = FRAME_START; return A_START;
	case SLP_EVENT_FRAME_PRE: *f = PRE; return A_PRE;
	case SLP_EVENT_FOD_PLATFORM: *f = FOD; return A_FOD;
	case SLP_EVENT_DREAMLAND_WHISPY: *f = WHISPY; return A_WHISPY;
	case SLP_EVENT_STADIUM_TRANSFORMATION: *f = STADIUM; return A_STADIUM;
	case SLP_EVENT_ITEM: *f = ITEM; return AN_ITEM;
	case SLP_EVENT_FRAME_POST: *f = POST; return A_POST;
	case SLP_EVENT_FRAME_END: *f = FRAME_END; return AN_END;
	default: return NO_PART;
	}
}

/* ---- what is no frame's */

static unsigned misplaced(uint8_t code)
{
	family f;
	int known = part_of(code, &f) != NO_PART || code == SLP_EVENT_GAME_START || code == SLP_EVENT_MESSAGE_SPLITTER || code == SLP_EVENT_GAME_END;
	return known ? SLP_FAULT_ORDER : SLP_FAULT_STRANGE;
}

/* Whether codes of so many bytes, in blocks or in none, are there as the table lists them. */
static int as_listed(const replay *r, int any, size_t bytes)
{
	if (!reaches(r->version, 3, 3) || !r->listed)
		return !any;
	return r->listed == 1 + bytes % 65536;
}

static unsigned take_block(replay *r, const event *e)
{
	if (!reaches(r->version, 3, 3))
		return SLP_FAULT_VERSION;
	if (e->len != BLOCK_LEN)
		return SLP_FAULT_SIZE;
	if (!r->listed)
		return SLP_FAULT_LISTED;
	size_t used = number(e->payload + 512, 2);
	int last = e->payload[515] == 1;
	if (e->payload[514] != CODES_LAST || e->payload[515] > 1 || (last ? used == 0 || used > 512 : used != 512))
		return SLP_FAULT_BLOCK;
	if (last && !as_listed(r, 1, 512 * r->blocks + used))
		return SLP_FAULT_LISTED;
	r->blocks++;
	if (last)
		r->stands = FRAMING;
	return 0;
}

/* Whether no frame is open. */
static int is_closed(const replay *r)
{
	return r->n == 0 && (!has_family(FRAME_END, r->version) || r->last == AN_END);
}

/* What an open frame lacks first: a Post, or its end. */
static unsigned left_open(const replay *r)
{
	return r->n ? SLP_FAULT_PRE : SLP_FAULT_ORDER;
}

static unsigned take_end(replay *r, const event *e)
{
	size_t size = reaches(r->version, 3, 13) ? 6 : reaches(r->version, 2, 0) ? 2 : 1;
	if (r->stands == OVER)
		return SLP_FAULT_THIRD;
	if (e->len != size)
		return SLP_FAULT_SIZE;
	if (r->stands == ENDED) {
		if (memcmp(r->end, e->payload, size) != 0)
			return SLP_FAULT_UNLIKE;
		r->stands = OVER;
		return 0;
	}
	if (!is_closed(r))
		return left_open(r);
	if (reaches(r->version, 2, 0) && e->payload[1] > 3 && e->payload[1] != 255)
		return SLP_FAULT_INITIATOR;
	r->stands = ENDED;
	r->end = e->payload;
	return 0;
}

/* ---- frames */

/* Why an event is not in the frame: what comes later in a frame came already, or it has another id; else 0. */
static unsigned not_in_frame(const replay *r, part limit, const event *e)
{
	if (r->last > limit)
		return SLP_FAULT_ORDER;
	return r->id == number(e->payload, 4) ? 0 : SLP_FAULT_ID;
}

static unsigned no_player(const event *e)
{
	if (e->payload[4] > 3)
		return SLP_FAULT_PORT;
	return e->payload[5] > 1 ? SLP_FAULT_FOLLOWER : 0;
}

static size_t slot_of(const event *e)
{
	return 2u * e->payload[4] + e->payload[5];
}

static int is_due(const replay *r, size_t slot)
{
	for (size_t i = 0; i < r->n; i++)
		if (r->due[i] == slot)
			return 1;
	return 0;
}

/* A Pre: of the frame, or before 2.2 the first of the next one. */
static unsigned take_pre(replay *r, const event *e)
{
	unsigned outside = not_in_frame(r, A_PRE, e);
	if (outside && (has_family(FRAME_START, r->version) || !is_closed(r)))
		return outside;
	if (no_player(e))
		return no_player(e);
	size_t slot = slot_of(e);
	if (is_due(r, slot))
		return SLP_FAULT_TWICE;
	if (r->n && r->due[r->n - 1] > slot)
		return SLP_FAULT_PORTS;
	if (outside && r->frames && r->id == number(e->payload, 4))
		return SLP_FAULT_SAME;
	r->frames += outside != 0;
	r->due[r->n++] = slot;
	return 0;
}

static unsigned take_post(replay *r, const event *e)
{
	unsigned outside = not_in_frame(r, A_POST, e);
	if (outside || no_player(e))
		return outside ? outside : no_player(e);
	if (!is_due(r, slot_of(e)))
		return SLP_FAULT_POST;
	if (r->due[0] != slot_of(e))
		return SLP_FAULT_PORTS;
	memmove(r->due, r->due + 1, --r->n * sizeof *r->due);
	return 0;
}

static unsigned take_part(replay *r, part p, const event *e)
{
	unsigned outside;
	switch (p) {
	case A_START:
		r->frames++;
		return is_closed(r) ? 0 : left_open(r);
	case A_PRE: return take_pre(r, e);
	case A_POST: return take_post(r, e);
	case AN_END:
		outside = not_in_frame(r, A_POST, e);
		return outside ? outside : r->n ? SLP_FAULT_PRE : 0;
	default: return not_in_frame(r, p, e);
	}
}

static unsigned take_row(replay *r, part p, family f, const event *e)
{
	if (!has_family(f, r->version))
		return SLP_FAULT_VERSION;
	if (e->len != (f == PRE || f == POST ? 6 : 4) + bytes_of(f, r->version))
		return SLP_FAULT_SIZE;
	unsigned reason = take_part(r, p, e);
	r->last = p;
	r->id = number(e->payload, 4);
	return reason;
}

/* ---- any event: 0, or why it may not come */

static unsigned take_event(replay *r, const event *e)
{
	family f;
	part p = part_of(e->code, &f);
	if (r->stands == CODING && e->code == SLP_EVENT_MESSAGE_SPLITTER)
		return take_block(r, e);
	if (r->stands == CODING && r->blocks)
		return misplaced(e->code);
	if (r->stands == CODING && !as_listed(r, 0, 0))
		return SLP_FAULT_LISTED;
	if (r->stands == CODING)
		r->stands = FRAMING;
	if (e->code == SLP_EVENT_GAME_END)
		return take_end(r, e);
	if (p == NO_PART || r->stands != FRAMING)
		return misplaced(e->code);
	return take_row(r, p, f, e);
}

/* Whether a replay may end here. */
static int is_finished(const replay *r)
{
	switch (r->stands) {
	case CODING: return r->blocks == 0 && as_listed(r, 0, 0);
	case FRAMING: return is_closed(r);
	default: return 1;
	}
}

/* ---- a file */

static unsigned start_reason(const replay *r, const event *e)
{
	if (e->len < block_length(r->version))
		return SLP_FAULT_SHORT;
	for (size_t n = 0; n < 4; n++)
		if (e->payload[101 + 36 * n] > 3)
			return SLP_FAULT_SEAT;
	return 0;
}

static size_t listed_codes(const uint8_t *file)
{
	for (size_t entry = 17; entry < 16 + (size_t)file[16]; entry += 3)
		if (file[entry] == CODES_LAST)
			return 1 + number(file + entry + 1, 2);
	return 0;
}

/* Of the start, the first event: 0, why it is none, or -1 for a newer recorder's. */
static int take_start(replay *r, const event *e)
{
	if (e->code != SLP_EVENT_GAME_START || e->len < 4)
		return SLP_FAULT_START;
	memcpy(&r->version, e->payload, 3);
	return too_new(r->version) ? -1 : (int)start_reason(r, e);
}

slp_faulted model_fault(const uint8_t *file, size_t len)
{
	slp_faulted why = { .refused = model_measure(file, len).refused };
	if (why.refused != SLP_BAD_EVENTS)
		return why;
	replay r = { .listed = listed_codes(file), .last = AN_END };
	slp_step s = { .next = 16 + (size_t)file[16] };
	size_t n = 0, at = s.next;
	for (; (s = model_step(file, len, at)).kind == SLP_STEP_EVENT; n++, at = s.next) {
		event e = { s.code, file + s.payload, s.len };
		int reason = n ? (int)take_event(&r, &e) : take_start(&r, &e);
		if (reason < 0)
			return why;
		if (reason)
			return (slp_faulted){ why.refused, (uint8_t)reason, n, at };
	}
	why.reason = n && is_finished(&r) ? (s.kind == SLP_STEP_ENDS ? 0 : SLP_FAULT_LENGTH) : SLP_FAULT_CUT;
	why.event = n;
	why.offset = at;
	return why;
}
