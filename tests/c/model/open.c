/* A replay read back into columns. The events are listed first; then a frame is taken part by part, as the format has its parts. */
#include "open.h"

#include <stdlib.h>
#include <string.h>

#include "check.h"
#include "columns.h"
#include "model.h"

typedef struct {
	uint8_t code;
	const uint8_t *payload;
	size_t len;
} event;

/* A frame by the numbers of its events: where each of its parts begins. */
typedef struct {
	uint32_t id;
	size_t start, pres, fods, whispys, stadiums, items, posts, end;
} frame;

typedef struct {
	const uint8_t *file;
	size_t len, stop;             /* stop: where the event data ends */
	slp_version version;
	int partly;                   /* above 3.18.0: its events are those that 3.18 knows */
	size_t sizes[FAMILIES];       /* of payloads */
	event *events;
	size_t n;
	int listed;                   /* whether the table has 3D, and its size there */
	size_t listed_size;
	size_t blocks, used;          /* code blocks, from event 1 on; how many of their bytes are codes */
	frame *frames;
	size_t frame_count, frame_room;
	size_t ends;                  /* the first of the ends */
} replay;

static const uint8_t CODES[FAMILIES] = { 0x37, 0x38, 0x3a, 0x3b, 0x3c, 0x3f, 0x40, 0x41 };

static uint32_t number(const uint8_t *at, size_t width)
{
	uint32_t n = 0;
	for (size_t i = 0; i < width; i++)
		n = n << 8 | at[i];
	return n;
}

/* ---- events */

static void list_events(replay *r, size_t count)
{
	size_t place = 16 + (size_t)r->file[16];
	r->events = take(count * sizeof *r->events);
	for (r->n = 0; r->n < count; r->n++) {
		const uint8_t *at = r->file + place;
		event *e = &r->events[r->n];
		*e = (event){ .code = at[0], .payload = at + 1 };
		for (size_t entry = 17; entry < 16 + (size_t)r->file[16]; entry += 3)
			if (r->file[entry] == at[0])
				e->len = number(r->file + entry + 1, 2);
		place += 1 + e->len;
	}
}

static void look_for_codes(replay *r)
{
	for (size_t entry = 17; entry < 16 + (size_t)r->file[16]; entry += 3)
		if (r->file[entry] == 0x3d) {
			r->listed = 1;
			r->listed_size = number(r->file + entry + 1, 2);
		}
}

/* ---- a newer recorder's events */

/* How many bytes 3.18 knows of an event's payload, of the start block all that there are; or SIZE_MAX where it does not know the code at all. The table's own
 * code and that of the codes are known, though no event has them. */
static size_t known_size(const replay *r, const event *e)
{
	for (family k = PRE; k < FAMILIES; k++)
		if (e->code == CODES[k])
			return r->sizes[k];
	switch (e->code) {
	case 0x35: case 0x36: case 0x3d: return e->len;
	case 0x39: return 6;
	case 0x10: return 516;
	default: return SIZE_MAX;
	}
}

/* The others go, and what is longer is cut. */
static void keep_known(replay *r)
{
	size_t kept = 0;
	for (size_t i = 0; i < r->n; i++) {
		event e = r->events[i];
		size_t size = known_size(r, &e);
		if (size == SIZE_MAX)
			continue;
		e.len = e.len < size ? e.len : size;
		r->events[kept++] = e;
	}
	r->n = kept;
}

/* ---- the start block and the code blocks */

static int good_start(const replay *r)
{
	const event *e = &r->events[0];
	if (e->len < block_length(r->version))
		return 0;
	for (size_t n = 0; n < 4; n++)
		if (e->payload[101 + 36 * n] > 3)
			return 0;
	return 1;
}

/* A block may stand here: 512 bytes, how many are codes, 3D, and whether it is the last. */
static int good_block(const event *e)
{
	size_t used = e->len == 516 ? number(e->payload + 512, 2) : 0;
	if (e->len != 516 || e->payload[514] != 0x3d || e->payload[515] > 1)
		return 0;
	return e->payload[515] ? used >= 1 && used <= 512 : used == 512;
}

static int good_codes(replay *r)
{
	int last = 0;
	size_t i = 1;
	for (; i < r->n && r->events[i].code == 0x10 && !last; i++) {
		if (!good_block(&r->events[i]))
			return 0;
		r->used += number(r->events[i].payload + 512, 2);
		last = r->events[i].payload[515];
	}
	r->blocks = i - 1;
	if (!reaches(r->version, 3, 3))
		return r->blocks == 0;
	if (r->blocks && (!last || !r->listed))
		return 0;
	return !r->listed || r->listed_size == r->used % 65536;
}

/* ---- frames */

/* Whether event i is a record of the family, of its size. */
static int is_record(const replay *r, size_t i, family k)
{
	return i < r->n && r->events[i].code == CODES[k] && has_family(k, r->version) && r->events[i].len == r->sizes[k];
}

static int is_of(const replay *r, size_t i, family k, uint32_t id)
{
	return is_record(r, i, k) && number(r->events[i].payload, 4) == id;
}

/* A player's slot, or 8 where there is no such player. */
static size_t slot_of(const event *e)
{
	return e->payload[4] > 3 || e->payload[5] > 1 ? 8 : 2u * e->payload[4] + e->payload[5];
}

static size_t after_rows(const replay *r, size_t i, family k, uint32_t id)
{
	while (is_of(r, i, k, id))
		i++;
	return i;
}

/* Pres of ascending slots. */
static size_t after_pres(const replay *r, size_t i, uint32_t id)
{
	for (size_t least = 0; is_of(r, i, PRE, id); i++) {
		size_t slot = slot_of(&r->events[i]);
		if (slot == 8 || slot < least)
			break;
		least = slot + 1;
	}
	return i;
}

/* The Posts of the same players, or 0. */
static size_t after_posts(const replay *r, const frame *f)
{
	size_t players = f->fods - f->pres;
	for (size_t k = 0; k < players; k++)
		if (!is_of(r, f->posts + k, POST, f->id) || slot_of(&r->events[f->posts + k]) != slot_of(&r->events[f->pres + k]))
			return 0;
	return f->posts + players;
}

/* The frame at event i; where the next one begins, or 0 where there is none. */
static size_t take_frame(const replay *r, size_t i, frame *f)
{
	int has_start = has_family(FRAME_START, r->version), has_end = has_family(FRAME_END, r->version);
	if (!is_record(r, i, has_start ? FRAME_START : PRE))
		return 0;
	f->id = number(r->events[i].payload, 4);
	f->start = i;
	f->pres = has_start ? i + 1 : i;
	f->fods = after_pres(r, f->pres, f->id);
	f->whispys = after_rows(r, f->fods, FOD, f->id);
	f->stadiums = after_rows(r, f->whispys, WHISPY, f->id);
	f->items = after_rows(r, f->stadiums, STADIUM, f->id);
	f->posts = after_rows(r, f->items, ITEM, f->id);
	f->end = after_posts(r, f);
	if (!f->end || (!has_start && f->fods == f->pres))
		return 0;
	if (has_end && !is_of(r, f->end, FRAME_END, f->id))
		return 0;
	return has_end ? f->end + 1 : f->end;
}

static void keep_frame(replay *r, frame f)
{
	if (r->frame_count == r->frame_room) {
		r->frame_room = 2 * r->frame_room + 16;
		r->frames = realloc(r->frames, r->frame_room * sizeof f);
		if (!r->frames)
			abort();
	}
	r->frames[r->frame_count++] = f;
}

/* All frames; before 2.2 the next one begins where the id changes. */
static int good_frames(replay *r)
{
	frame f = { 0 };
	size_t i = 1 + r->blocks, next;
	while ((next = take_frame(r, i, &f)) != 0) {
		if (!has_family(FRAME_START, r->version) && r->frame_count && r->frames[r->frame_count - 1].id == f.id)
			return 0;
		keep_frame(r, f);
		i = next;
	}
	r->ends = i;
	return 1;
}

/* ---- ends */

static int good_ends(const replay *r)
{
	slp_version v = r->version;
	size_t size = reaches(v, 3, 13) ? 6 : reaches(v, 2, 0) ? 2 : 1;
	if (r->n - r->ends > 2)
		return 0;
	for (size_t i = r->ends; i < r->n; i++) {
		const event *e = &r->events[i];
		if (e->code != 0x39 || e->len != size || memcmp(e->payload, r->events[r->ends].payload, size) != 0)
			return 0;
		if (reaches(v, 2, 0) && e->payload[1] > 3 && e->payload[1] != 255)
			return 0;
	}
	return 1;
}

/* ---- what the tree says */

static size_t rows_in(const frame *f, family k)
{
	switch (k) {
	case FOD: return f->whispys - f->fods;
	case WHISPY: return f->stadiums - f->whispys;
	case STADIUM: return f->items - f->stadiums;
	case ITEM: return f->posts - f->items;
	default: return 1;
	}
}

static size_t first_row(const frame *f, family k)
{
	switch (k) {
	case FOD: return f->fods;
	case WHISPY: return f->whispys;
	case STADIUM: return f->stadiums;
	case ITEM: return f->items;
	case FRAME_START: return f->start;
	default: return f->end;
	}
}

static size_t count_rows(const replay *r, family k)
{
	size_t n = 0;
	for (size_t i = 0; has_family(k, r->version) && i < r->frame_count; i++)
		n += rows_in(&r->frames[i], k);
	return n;
}

/* Where a player's record stands behind its head, or NULL where the player is not in the frame. */
static const uint8_t *player_row(const replay *r, const frame *f, family k, size_t slot)
{
	for (size_t i = 0; i < f->fods - f->pres; i++)
		if (slot_of(&r->events[f->pres + i]) == slot)
			return r->events[(k == PRE ? f->pres : f->posts) + i].payload + 6;
	return NULL;
}

static int ever_there(const replay *r, size_t slot)
{
	for (size_t i = 0; i < r->frame_count; i++)
		if (player_row(r, &r->frames[i], PRE, slot))
			return 1;
	return 0;
}

static slp_frames frames_of(const replay *r)
{
	slp_frames f = { .version = r->version };
	size_t bytes = (r->frame_count + 7) / 8;
	f.counts = (slp_counts){ r->frame_count, count_rows(r, ITEM), count_rows(r, FOD), count_rows(r, WHISPY), count_rows(r, STADIUM) };
	for (size_t port = 0; port < 4; port++) {
		int follower = ever_there(r, 2 * port + 1);
		if (follower || ever_there(r, 2 * port))
			f.ports[f.port_count++] = (slp_port_column){ (uint8_t)port, (uint8_t)follower, bytes, follower ? bytes : 0 };
	}
	return f;
}

/* ---- reading */

/* 0, or the refusal of a file: 14 to 17, 19, 1, 19, 2. */
static unsigned open_replay(replay *r, const uint8_t *file, size_t len, size_t *offset)
{
	slp_walked w = model_walk(file, len);
	*r = (replay){ .file = file, .len = len };
	*offset = w.offset;
	if (w.refused)
		return w.refused;
	r->stop = w.place;
	list_events(r, w.events);
	look_for_codes(r);
	if (r->n == 0 || r->events[0].code != 0x36 || r->events[0].len < 4)
		return 19;
	memcpy(&r->version, r->events[0].payload, 3);
	if (r->version.major > 3)
		return 1;
	for (family k = PRE; k < FAMILIES; k++)
		r->sizes[k] = (k == PRE || k == POST ? 6 : 4) + bytes_of(k, r->version);
	r->partly = too_new(r->version);
	if (r->partly)
		keep_known(r);
	if (!w.whole || !good_start(r) || !good_codes(r) || !good_frames(r) || !good_ends(r))
		return 19;
	slp_counts c = { r->frame_count, count_rows(r, ITEM), count_rows(r, FOD), count_rows(r, WHISPY), count_rows(r, STADIUM) };
	return too_many(&c, 512 * r->blocks, 0) ? 2 : 0;
}

static void close_replay(replay *r)
{
	free(r->events);
	free(r->frames);
}

static slp_places places_of(const replay *r)
{
	static const uint8_t key[11] = { 0x55, 0x08, 0x6d, 0x65, 0x74, 0x61, 0x64, 0x61, 0x74, 0x61, 0x7b };
	const uint8_t *tail = r->file + r->stop;
	size_t len = r->len - r->stop;
	slp_places p = { .block_at = (size_t)(r->events[0].payload - r->file), .block_len = r->events[0].len, .tail = SLP_FILE_TAIL_ODD };
	if (len == 1 && tail[0] == 0x7d)
		p.tail = SLP_FILE_TAIL_NONE;
	if (len >= 13 && len - 13 <= 65535 && memcmp(tail, key, 11) == 0 && tail[len - 2] == 0x7d && tail[len - 1] == 0x7d) {
		p.tail = SLP_FILE_TAIL_METADATA;
		p.metadata_at = r->stop + 11;
		p.metadata_len = len - 13;
	}
	return p;
}

static size_t offsets_length(const replay *r, family k)
{
	return has_family(k, r->version) ? r->frame_count + 1 : 0;
}

static slp_lengths lengths_of(const replay *r, const slp_frames *f)
{
	slp_version v = r->version;
	size_t n = r->frame_count, slots = slots_of(f);
	return (slp_lengths){
		.ids = n, .starts = columns_of(FRAME_START, v) * n, .pres = slots * columns_of(PRE, v) * n, .posts = slots * columns_of(POST, v) * n,
		.ends = columns_of(FRAME_END, v) * n, .items = columns_of(ITEM, v) * f->counts.items, .fods = columns_of(FOD, v) * f->counts.fods,
		.whispys = columns_of(WHISPY, v) * f->counts.whispys, .stadiums = columns_of(STADIUM, v) * f->counts.stadiums,
		.item_offsets = offsets_length(r, ITEM), .fod_offsets = offsets_length(r, FOD), .whispy_offsets = offsets_length(r, WHISPY),
		.stadium_offsets = offsets_length(r, STADIUM), .presence = slots * ((n + 7) / 8), .codes = 512 * r->blocks,
	};
}

static uint8_t codes_given(const replay *r)
{
	return reaches(r->version, 3, 3) && r->listed;
}

slp_measured model_measure(const uint8_t *file, size_t len)
{
	replay r;
	slp_measured m = { 0 };
	m.refused = (uint8_t)open_replay(&r, file, len, &m.offset);
	if (!m.refused) {
		m.partly = (uint8_t)r.partly;
		m.frames = frames_of(&r);
		m.codes_given = codes_given(&r);
		m.actual_size = (uint32_t)r.used;
		m.lengths = lengths_of(&r, &m.frames);
		m.places = places_of(&r);
	}
	close_replay(&r);
	return m;
}

/* ---- cells */

/* Rows of bytes as columns one after another, from a place on; a row of NULL is zeros. The place behind them. */
static uint32_t *put_columns(uint32_t *to, const replay *r, family k, const uint8_t **rows, size_t n)
{
	uint8_t widths[MOST_COLUMNS];
	size_t columns = widths_of(k, r->version, widths), at = 0;
	for (size_t c = 0; c < columns; c++) {
		for (size_t i = 0; i < n; i++)
			*to++ = rows[i] ? number(rows[i] + at, widths[c]) : 0;
		at += widths[c];
	}
	return to;
}

/* All rows of a family that is no player's. */
static void put_rows(slp_cell_space s, const replay *r, family k)
{
	size_t n = 0;
	const uint8_t **rows = take(count_rows(r, k) * sizeof *rows);
	for (size_t i = 0; has_family(k, r->version) && i < r->frame_count; i++)
		for (size_t j = 0; j < rows_in(&r->frames[i], k); j++)
			rows[n++] = r->events[first_row(&r->frames[i], k) + j].payload + 4;
	put_columns(s.p, r, k, rows, n);
	free(rows);
}

static uint32_t *put_slot(uint32_t *to, const replay *r, family k, size_t slot)
{
	const uint8_t **rows = take(r->frame_count * sizeof *rows);
	for (size_t i = 0; i < r->frame_count; i++)
		rows[i] = player_row(r, &r->frames[i], k, slot);
	to = put_columns(to, r, k, rows, r->frame_count);
	free(rows);
	return to;
}

static void put_players(slp_cell_space s, const replay *r, const slp_frames *f, family k)
{
	uint32_t *to = s.p;
	for (size_t p = 0; p < f->port_count; p++) {
		to = put_slot(to, r, k, 2u * f->ports[p].port);
		if (f->ports[p].follower)
			to = put_slot(to, r, k, 2u * f->ports[p].port + 1);
	}
}

/* ---- the other stores */

static void put_offsets(slp_cell_space s, const replay *r, family k)
{
	uint32_t sum = 0;
	for (size_t i = 0; i < offsets_length(r, k); i++) {
		s.p[i] = sum;
		sum += i < r->frame_count ? (uint32_t)rows_in(&r->frames[i], k) : 0;
	}
}

static uint8_t *put_bits(uint8_t *to, const replay *r, size_t slot)
{
	size_t bytes = (r->frame_count + 7) / 8;
	for (size_t j = 0; j < bytes; j++) {
		to[j] = 0;
		for (size_t i = 8 * j; i < 8 * j + 8 && i < r->frame_count; i++)
			if (player_row(r, &r->frames[i], PRE, slot))
				to[j] |= (uint8_t)(1 << i % 8);
	}
	return bytes ? to + bytes : to;
}

static void put_presence(slp_byte_space s, const replay *r, const slp_frames *f)
{
	uint8_t *to = s.p;
	for (size_t p = 0; p < f->port_count; p++) {
		to = put_bits(to, r, 2u * f->ports[p].port);
		if (f->ports[p].follower)
			to = put_bits(to, r, 2u * f->ports[p].port + 1);
	}
}

static void put_stores(const slp_space *s, const replay *r, const slp_frames *f)
{
	for (size_t i = 0; i < r->frame_count; i++)
		s->ids.p[i] = r->frames[i].id;
	put_rows(s->starts, r, FRAME_START);
	put_players(s->pres, r, f, PRE);
	put_players(s->posts, r, f, POST);
	put_rows(s->ends, r, FRAME_END);
	put_rows(s->items, r, ITEM);
	put_rows(s->fods, r, FOD);
	put_rows(s->whispys, r, WHISPY);
	put_rows(s->stadiums, r, STADIUM);
	put_offsets(s->item_offsets, r, ITEM);
	put_offsets(s->fod_offsets, r, FOD);
	put_offsets(s->whispy_offsets, r, WHISPY);
	put_offsets(s->stadium_offsets, r, STADIUM);
	put_presence(s->presence, r, f);
	for (size_t i = 0; i < r->blocks; i++)
		memcpy(s->codes.p + 512 * i, r->events[1 + i].payload, 512);
}

static int too_short(const slp_space *s, const slp_lengths *n)
{
	return s->ids.len < n->ids || s->starts.len < n->starts || s->pres.len < n->pres || s->posts.len < n->posts || s->ends.len < n->ends ||
	       s->items.len < n->items || s->fods.len < n->fods || s->whispys.len < n->whispys || s->stadiums.len < n->stadiums ||
	       s->item_offsets.len < n->item_offsets || s->fod_offsets.len < n->fod_offsets || s->whispy_offsets.len < n->whispy_offsets ||
	       s->stadium_offsets.len < n->stadium_offsets || s->presence.len < n->presence || s->codes.len < n->codes;
}

/* ---- the start and the end */

static slp_text text_at(const uint8_t *at, size_t limit)
{
	slp_text t = { .len = 0 };
	while (t.len < limit && at[t.len])
		t.len++;
	memcpy(t.bytes, at, t.len);
	return t;
}

static slp_optional flag_at(const uint8_t *b, size_t at)
{
	return (slp_optional){ 1, b[at] != 0 };
}

/* What came to a seat with later versions, and stands apart from it. */
static void add_extras(slp_seat *p, const uint8_t *b, slp_version v, size_t n)
{
	if (reaches(v, 1, 0))
		p->ucf = (slp_ucf){ 1, number(b + 320 + 8 * n, 4), number(b + 324 + 8 * n, 4) };
	if (reaches(v, 1, 3)) {
		p->name_tag_given = 1;
		p->name_tag = text_at(b + 352 + 16 * n, 16);
	}
	if (reaches(v, 3, 9)) {
		p->netplay.given = 1;
		p->netplay.name = text_at(b + 420 + 31 * n, 30);
		p->netplay.code = text_at(b + 544 + 10 * n, 9);
	}
	if (reaches(v, 3, 11)) {
		p->netplay.suid_given = 1;
		p->netplay.suid = text_at(b + 584 + 29 * n, 28);
	}
}

/* A seat of type 3 is empty. */
static slp_seat seat_of(const uint8_t *b, slp_version v, size_t n)
{
	const uint8_t *s = b + 100 + 36 * n;
	slp_seat p = { .given = s[1] != 3 };
	if (!p.given)
		return p;
	p.character = s[0];
	p.kind = s[1];
	p.stocks = s[2];
	p.costume = s[3];
	if (b[12])
		p.team = (slp_team){ .given = 1, .color = s[9], .shade = s[7] };
	p.handicap = s[8];
	p.bitfield = s[12];
	if (p.kind == SLP_CPU)
		p.cpu_level = (slp_optional){ 1, s[15] };
	p.damage_start = (uint16_t)number(s + 16, 2);
	p.damage_spawn = (uint16_t)number(s + 18, 2);
	p.offense_ratio = number(s + 24, 4);
	p.defense_ratio = number(s + 28, 4);
	p.model_scale = number(s + 32, 4);
	add_extras(&p, b, v, n);
	return p;
}

static slp_start start_of(const uint8_t *b, slp_version v)
{
	slp_start s = { .is_raining_bombs = b[10] != 0, .is_teams = b[12] != 0, .item_spawn_frequency = b[15], .self_destruct_score = b[16] };
	memcpy(s.bitfield, b + 4, 4);
	s.stage = (uint16_t)number(b + 18, 2);
	s.timer = number(b + 20, 4);
	memcpy(s.item_spawn_bitfield, b + 39, 5);
	s.damage_ratio = number(b + 52, 4);
	for (size_t n = 0; n < 4; n++)
		s.seats[n] = seat_of(b, v, n);
	s.random_seed = number(b + 316, 4);
	if (reaches(v, 1, 5))
		s.is_pal = flag_at(b, 416);
	if (reaches(v, 2, 0))
		s.is_frozen_ps = flag_at(b, 417);
	if (reaches(v, 3, 7))
		s.scene = (slp_scene){ .given = 1, .minor = b[418], .major = b[419] };
	if (reaches(v, 3, 12))
		s.language = (slp_optional){ 1, b[700] };
	if (reaches(v, 3, 14))
		s.match_info = (slp_match){ .given = 1, .tail = SLP_TAIL_KEPT, .id = text_at(b + 701, 50), .game = number(b + 752, 4),
		                            .tiebreaker = number(b + 756, 4) };
	return s;
}

static slp_end end_of(const replay *r)
{
	slp_end e = { 0 };
	if (r->ends == r->n)
		return e;
	const uint8_t *b = r->events[r->ends].payload;
	e.given = 1;
	e.method = b[0];
	e.initiator = reaches(r->version, 2, 0) ? b[1] : 255;
	for (size_t n = 0; n < 4 && reaches(r->version, 3, 13); n++)
		if (b[2 + n] != 255) {
			e.placed[n] = 1;
			e.placements[n] = b[2 + n];
		}
	return e;
}

static slp_game game_of(const replay *r, slp_places p)
{
	slp_game g = { .frames = frames_of(r), .start = start_of(r->events[0].payload, r->version), .end = end_of(r) };
	g.double_end = r->n - r->ends == 2;
	g.codes_given = codes_given(r);
	g.metadata_given = p.tail == SLP_FILE_TAIL_METADATA;
	g.actual_size = (uint32_t)r->used;
	return g;
}

slp_opened model_read(const uint8_t *file, size_t len, const slp_space *s)
{
	replay r;
	slp_opened o = { 0 };
	o.refused = (uint8_t)open_replay(&r, file, len, &o.offset);
	if (!o.refused) {
		slp_frames f = frames_of(&r);
		slp_lengths n = lengths_of(&r, &f);
		if (too_short(s, &n)) {
			o.refused = 12;
		} else {
			put_stores(s, &r, &f);
			o.partly = (uint8_t)r.partly;
			o.places = places_of(&r);
			o.game = game_of(&r, o.places);
		}
	}
	close_replay(&r);
	return o;
}
