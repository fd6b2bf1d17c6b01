/* The file of a game. */
#include <stdlib.h>
#include <string.h>

#include "columns.h"
#include "model.h"

static void *grown(void *old, size_t bytes)
{
	void *p = realloc(old, bytes);
	if (!p)
		abort();
	return p;
}

static void put(model_file *f, const void *bytes, size_t n)
{
	if (f->len + n > f->room)
		f->bytes = grown(f->bytes, f->room = 2 * (f->len + n) + 64);
	if (n)
		memcpy(f->bytes + f->len, bytes, n);
	f->len += n;
}

static void put_number(model_file *f, uint64_t value, size_t width)
{
	uint8_t b[8];
	for (size_t i = 0; i < width; i++)
		b[i] = (uint8_t)(value >> 8 * (width - 1 - i));
	put(f, b, width);
}

static void end_event(model_file *f)
{
	if (f->events == f->ends_room)
		f->ends = grown(f->ends, sizeof *f->ends * (f->ends_room = 2 * f->ends_room + 16));
	f->ends[f->events++] = f->len;
}

/* ---- the table */

typedef struct {
	uint8_t code;
	size_t size;
} entry;

static size_t entries_of(const input *in, entry e[12])
{
	slp_version v = in->game.frames.version;
	size_t n = 0;
	e[n++] = (entry){ 0x36, in->block.len };
	e[n++] = (entry){ 0x37, 6 + bytes_of(PRE, v) };
	e[n++] = (entry){ 0x38, 6 + bytes_of(POST, v) };
	e[n++] = (entry){ 0x39, reaches(v, 3, 13) ? 6 : reaches(v, 2, 0) ? 2 : 1 };
	if (reaches(v, 2, 2))
		e[n++] = (entry){ 0x3a, 4 + bytes_of(FRAME_START, v) };
	if (reaches(v, 3, 0)) {
		e[n++] = (entry){ 0x3b, 4 + bytes_of(ITEM, v) };
		e[n++] = (entry){ 0x3c, 4 + bytes_of(FRAME_END, v) };
	}
	if (in->game.codes_given) {
		e[n++] = (entry){ 0x3d, in->game.actual_size % 65536 };
		e[n++] = (entry){ 0x10, 516 };
	}
	if (reaches(v, 3, 18)) {
		e[n++] = (entry){ 0x3f, 4 + bytes_of(FOD, v) };
		e[n++] = (entry){ 0x40, 4 + bytes_of(WHISPY, v) };
		e[n++] = (entry){ 0x41, 4 + bytes_of(STADIUM, v) };
	}
	return n;
}

static void put_table(model_file *f, const input *in)
{
	entry e[12];
	size_t n = entries_of(in, e);
	put_number(f, 0x35, 1);
	put_number(f, 3 * n + 1, 1);
	for (size_t i = 0; i < n; i++) {
		put_number(f, e[i].code, 1);
		put_number(f, e[i].size, 2);
	}
}

/* ---- the start block */

static void set(uint8_t *b, size_t at, uint64_t value, size_t width)
{
	for (size_t i = 0; i < width; i++)
		b[at + i] = (uint8_t)(value >> 8 * (width - 1 - i));
}

static void set_text(uint8_t *b, size_t at, const slp_text *t, size_t width)
{
	memset(b + at, 0, width);
	memcpy(b + at, t->bytes, t->len);
}

static void set_seat(uint8_t *b, const slp_seat *p)
{
	b[0] = p->character;
	b[1] = p->kind;
	b[2] = p->stocks;
	b[3] = p->costume;
	if (p->team.given) {
		b[7] = p->team.shade;
		b[9] = p->team.color;
	}
	b[8] = p->handicap;
	b[12] = p->bitfield;
	if (p->kind == SLP_CPU)
		b[15] = p->cpu_level.value;
	set(b, 16, p->damage_start, 2);
	set(b, 18, p->damage_spawn, 2);
	set(b, 24, p->offense_ratio, 4);
	set(b, 28, p->defense_ratio, 4);
	set(b, 32, p->model_scale, 4);
}

/* What came to a seat with later versions, and stands apart from it. */
static void set_seat_extras(uint8_t *b, slp_version v, size_t n, const slp_seat *p)
{
	if (reaches(v, 1, 0)) {
		set(b, 320 + 8 * n, p->ucf.dash_back, 4);
		set(b, 324 + 8 * n, p->ucf.shield_drop, 4);
	}
	if (reaches(v, 1, 3))
		set_text(b, 352 + 16 * n, &p->name_tag, 16);
	if (reaches(v, 3, 9)) {
		set_text(b, 420 + 31 * n, &p->netplay.name, 31);
		set_text(b, 544 + 10 * n, &p->netplay.code, 10);
	}
	if (reaches(v, 3, 11))
		set_text(b, 584 + 29 * n, &p->netplay.suid, 29);
}

static uint8_t mark(uint8_t m)
{
	return m != 0;
}

static void set_fields(uint8_t *b, slp_version v, const slp_start *s)
{
	b[0] = v.major;
	b[1] = v.minor;
	b[2] = v.patch;
	memcpy(b + 4, s->bitfield, 4);
	b[10] = mark(s->is_raining_bombs);
	b[12] = mark(s->is_teams);
	b[15] = s->item_spawn_frequency;
	b[16] = s->self_destruct_score;
	set(b, 18, s->stage, 2);
	set(b, 20, s->timer, 4);
	memcpy(b + 39, s->item_spawn_bitfield, 5);
	set(b, 52, s->damage_ratio, 4);
	set(b, 316, s->random_seed, 4);
}

static void set_later_fields(uint8_t *b, slp_version v, const slp_start *s)
{
	if (reaches(v, 1, 5))
		b[416] = mark(s->is_pal.value);
	if (reaches(v, 2, 0))
		b[417] = mark(s->is_frozen_ps.value);
	if (reaches(v, 3, 7)) {
		b[418] = s->scene.minor;
		b[419] = s->scene.major;
	}
	if (reaches(v, 3, 12))
		b[700] = s->language.value;
	if (reaches(v, 3, 14)) {
		memcpy(b + 701, s->match_info.id.bytes, s->match_info.id.len);
		b[701 + s->match_info.id.len] = 0;
		if (s->match_info.tail == SLP_TAIL_CLEARED)
			memset(b + 702 + s->match_info.id.len, 0, 50 - s->match_info.id.len);
		set(b, 752, s->match_info.game, 4);
		set(b, 756, s->match_info.tiebreaker, 4);
	}
}

static void put_start(model_file *f, const input *in)
{
	const slp_start *s = &in->game.start;
	slp_version v = in->game.frames.version;
	put_number(f, 0x36, 1);
	size_t at = f->len;
	put(f, in->block.p, in->block.len);
	uint8_t *b = f->bytes + at;
	set_fields(b, v, s);
	for (size_t n = 0; n < 4; n++)
		if (s->seats[n].given) {
			set_seat(b + 100 + 36 * n, &s->seats[n]);
			set_seat_extras(b, v, n, &s->seats[n]);
		}
	set_later_fields(b, v, s);
	end_event(f);
}

/* ---- codes, frames, ends */

static void put_codes(model_file *f, const input *in)
{
	size_t actual = in->game.actual_size;
	for (size_t at = 0; in->game.codes_given && at < actual; at += 512) {
		put_number(f, 0x10, 1);
		put(f, in->codes.p + at, 512);
		put_number(f, actual - at < 512 ? actual - at : 512, 2);
		put_number(f, 0x3d, 1);
		put_number(f, at + 512 >= actual, 1);
		end_event(f);
	}
}

/* The cells of a row; `rows` cells lie between a column and the next. */
static void put_row(model_file *f, family k, slp_version v, const uint32_t *cells, size_t rows, size_t row)
{
	uint8_t widths[MOST_COLUMNS];
	size_t n = widths_of(k, v, widths);
	for (size_t c = 0; c < n; c++)
		put_number(f, cells[c * rows + row], widths[c]);
	end_event(f);
}

static int present(const uint8_t *bits, size_t len, size_t i)
{
	return len == 0 || (bits[i / 8] >> i % 8 & 1);
}

static void put_slot(model_file *f, const input *in, family k, const slp_port_column *p, int follower, size_t slot, size_t frame)
{
	slp_version v = in->game.frames.version;
	size_t frames = in->game.frames.counts.frames;
	const slp_cells *c = k == PRE ? &in->stores.pres : &in->stores.posts;
	put_number(f, k == PRE ? 0x37 : 0x38, 1);
	put_number(f, in->stores.ids.p[frame], 4);
	put_number(f, p->port, 1);
	put_number(f, (uint64_t)follower, 1);
	put_row(f, k, v, c->p + slot * columns_of(k, v) * frames, frames, frame);
}

static void put_players(model_file *f, const input *in, family k, size_t frame)
{
	const uint8_t *bits = in->stores.presence.p;
	size_t slot = 0;
	for (size_t i = 0; i < in->game.frames.port_count; i++) {
		const slp_port_column *p = &in->game.frames.ports[i];
		if (present(bits, p->leader_presence, frame))
			put_slot(f, in, k, p, 0, slot, frame);
		bits = p->leader_presence ? bits + p->leader_presence : bits;
		slot++;
		if (!p->follower)
			continue;
		if (present(bits, p->follower_presence, frame))
			put_slot(f, in, k, p, 1, slot, frame);
		bits = p->follower_presence ? bits + p->follower_presence : bits;
		slot++;
	}
}

static void put_rows(model_file *f, const input *in, family k, uint8_t code, slp_cells cells, slp_cells offsets, size_t rows, size_t frame)
{
	if (!has_family(k, in->game.frames.version))
		return;
	for (size_t r = offsets.p[frame]; r < offsets.p[frame + 1]; r++) {
		put_number(f, code, 1);
		put_number(f, in->stores.ids.p[frame], 4);
		put_row(f, k, in->game.frames.version, cells.p, rows, r);
	}
}

static void put_frame(model_file *f, const input *in, size_t frame)
{
	slp_version v = in->game.frames.version;
	const slp_counts *c = &in->game.frames.counts;
	const slp_stores *s = &in->stores;
	if (has_family(FRAME_START, v)) {
		put_number(f, 0x3a, 1);
		put_number(f, s->ids.p[frame], 4);
		put_row(f, FRAME_START, v, s->starts.p, c->frames, frame);
	}
	put_players(f, in, PRE, frame);
	put_rows(f, in, FOD, 0x3f, s->fods, s->fod_offsets, c->fods, frame);
	put_rows(f, in, WHISPY, 0x40, s->whispys, s->whispy_offsets, c->whispys, frame);
	put_rows(f, in, STADIUM, 0x41, s->stadiums, s->stadium_offsets, c->stadiums, frame);
	put_rows(f, in, ITEM, 0x3b, s->items, s->item_offsets, c->items, frame);
	put_players(f, in, POST, frame);
	if (has_family(FRAME_END, v)) {
		put_number(f, 0x3c, 1);
		put_number(f, s->ids.p[frame], 4);
		put_row(f, FRAME_END, v, s->ends.p, c->frames, frame);
	}
}

static void put_end(model_file *f, const input *in)
{
	slp_version v = in->game.frames.version;
	const slp_end *e = &in->game.end;
	put_number(f, 0x39, 1);
	put_number(f, e->method, 1);
	if (reaches(v, 2, 0))
		put_number(f, e->initiator, 1);
	for (size_t n = 0; reaches(v, 3, 13) && n < 4; n++)
		put_number(f, e->placed[n] ? e->placements[n] : 0xff, 1);
	end_event(f);
}

static void put_tail(model_file *f, const input *in)
{
	static const uint8_t opening[11] = { 0x55, 0x08, 0x6d, 0x65, 0x74, 0x61, 0x64, 0x61, 0x74, 0x61, 0x7b };
	if (in->game.metadata_given) {
		put(f, opening, sizeof opening);
		put(f, in->metadata.p, in->metadata.len);
		put_number(f, 0x7d, 1);
	}
	put_number(f, 0x7d, 1);
}

model_file model_write(const input *in)
{
	static const uint8_t head[15] = { 0x7b, 0x55, 0x03, 0x72, 0x61, 0x77, 0x5b, 0x24, 0x55, 0x23, 0x6c };
	model_file f = { 0 };
	put(&f, head, sizeof head);
	put_table(&f, in);
	put_start(&f, in);
	put_codes(&f, in);
	for (size_t i = 0; i < in->game.frames.counts.frames; i++)
		put_frame(&f, in, i);
	for (int n = 0; in->game.end.given && n < (in->game.double_end ? 2 : 1); n++)
		put_end(&f, in);
	f.data_end = f.len;
	set(f.bytes, 11, f.len - 15, 4);
	put_tail(&f, in);
	return f;
}

model_file model_run(const input *in, size_t a, size_t b)
{
	model_file f = { 0 };
	for (size_t i = a; i < b; i++)
		put_frame(&f, in, i);
	return f;
}

/* Codes, metadata, start and end do not matter to a run. */
unsigned model_run_refusal(const input *in, size_t room, size_t place, size_t a, size_t b)
{
	input frames = *in;
	frames.game.codes_given = frames.game.metadata_given = 0;
	unsigned n = model_refusal(&frames);
	if (n >= 1 && n <= 7)
		return n;
	if (a > b || b > in->game.frames.counts.frames)
		return 13;
	model_file f = model_run(in, a, b);
	size_t len = f.len;
	model_free(&f);
	return place > room || room - place < len ? 12 : 0;
}

void model_free(model_file *f)
{
	free(f->bytes);
	free(f->ends);
}
