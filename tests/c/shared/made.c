#include "made.h"

#include <stdlib.h>
#include <string.h>

#include "check.h"
#include "columns.h"

static uint32_t *new_cells(made *m, size_t store, size_t len)
{
	slp_cells *c = cell_store(&m->in.stores, store);
	m->cells[store] = take((len + SPARE_CELLS) * 4);
	memset(m->cells[store] + len, 0, SPARE_CELLS * 4);
	*c = (slp_cells){ m->cells[store], len };
	return m->cells[store];
}

static uint8_t *new_bytes(slp_bytes *b, size_t len)
{
	uint8_t *p = take(len + SPARE_BYTES);
	draw_bytes(p, len + SPARE_BYTES);
	*b = (slp_bytes){ p, len };
	return p;
}

/* Cells that fit their widths, the largest ones among them. */
static void make_cells(made *m, size_t store, family k, size_t blocks, size_t rows)
{
	uint8_t widths[MOST_COLUMNS];
	size_t columns = widths_of(k, m->in.game.frames.version, widths);
	uint32_t *to = new_cells(m, store, blocks * columns * rows);
	for (size_t i = 0; i < blocks * columns * rows; i++) {
		uint32_t limit = most(widths[i / rows % columns]);
		to[i] = below(16) ? (uint32_t)draw() & limit : limit;
	}
}

static void make_offsets(made *m, size_t store, family k, size_t rows)
{
	slp_frames *f = &m->in.game.frames;
	size_t n = has_family(k, f->version) ? f->counts.frames + 1 : 0, at = 0;
	uint32_t *to = new_cells(m, store, n);
	for (size_t i = 0; i < n; i++) {
		to[i] = (uint32_t)at;
		at = i + 2 >= n ? rows : at + below(rows - at + 1) / 2;
	}
}

static void make_ids(made *m)
{
	size_t n = m->in.game.frames.counts.frames;
	uint32_t *to = new_cells(m, 0, n), id = (uint32_t)SLP_FIRST_FRAME_ID;
	for (size_t i = 0; i < n; i++) {
		to[i] = id;
		id = below(4) ? id + 1 : id - (uint32_t)below(id + 124 < 7 ? id + 124 : 7);
	}
}

static size_t presence_len(const plan *p)
{
	return p->presence && below(2) ? (p->frames + 7) / 8 : 0;
}

/* The port columns, their ports shuffled; how many slots they have. */
static size_t make_ports(made *m, const plan *p)
{
	slp_frames *f = &m->in.game.frames;
	size_t slots = 0, bits = 0, turn = below(4);
	f->port_count = p->ports;
	for (size_t i = 0; i < p->ports; i++) {
		slp_port_column *c = &f->ports[i];
		c->port = (uint8_t)((turn + 3 * i) % 4);
		c->follower = p->followers >> i & 1 ? (uint8_t)(1 + below(255)) : 0;
		c->leader_presence = presence_len(p);
		c->follower_presence = c->follower ? presence_len(p) : 0;
		bits += c->leader_presence + c->follower_presence;
		slots += c->follower ? 2 : 1;
	}
	m->presence = new_bytes(&m->in.stores.presence, bits);
	return slots;
}

static void make_frames(made *m, const plan *p)
{
	slp_frames *f = &m->in.game.frames;
	int items = has_family(ITEM, p->version), stages = has_family(FOD, p->version);
	f->version = p->version;
	f->counts.frames = p->frames;
	f->counts.items = items && p->frames ? p->items : 0;
	f->counts.fods = stages && p->frames ? p->fods : 0;
	f->counts.whispys = stages && p->frames ? p->whispys : 0;
	f->counts.stadiums = stages && p->frames ? p->stadiums : 0;
	size_t slots = make_ports(m, p);
	make_ids(m);
	make_cells(m, 1, FRAME_START, 1, p->frames);
	make_cells(m, 2, PRE, slots, p->frames);
	make_cells(m, 3, POST, slots, p->frames);
	make_cells(m, 4, FRAME_END, 1, p->frames);
	make_cells(m, 5, ITEM, 1, f->counts.items);
	make_cells(m, 6, FOD, 1, f->counts.fods);
	make_cells(m, 7, WHISPY, 1, f->counts.whispys);
	make_cells(m, 8, STADIUM, 1, f->counts.stadiums);
	make_offsets(m, 9, ITEM, f->counts.items);
	make_offsets(m, 10, FOD, f->counts.fods);
	make_offsets(m, 11, WHISPY, f->counts.whispys);
	make_offsets(m, 12, STADIUM, f->counts.stadiums);
}

/* ---- the start */

static uint8_t yes(void)
{
	return (uint8_t)(1 + below(255));
}

/* No zero as far as the limit, anything after that. */
static void make_text(slp_text *t, size_t limit)
{
	draw_bytes(t->bytes, sizeof t->bytes);
	for (size_t i = 0; i < limit; i++)
		t->bytes[i] = t->bytes[i] ? t->bytes[i] : yes();
	t->len = below(4) ? below(limit + 1) : limit;
}

static void make_seat(slp_seat *s)
{
	draw_bytes(&s->character, 1);
	s->given = yes();
	s->kind = (uint8_t)below(3);
	s->stocks = (uint8_t)draw();
	s->costume = (uint8_t)draw();
	s->team = (slp_team){ below(2) ? yes() : 0, (uint8_t)draw(), (uint8_t)draw() };
	s->handicap = (uint8_t)draw();
	s->bitfield = (uint8_t)draw();
	s->cpu_level = (slp_optional){ s->kind == SLP_CPU || below(2) ? yes() : 0, (uint8_t)draw() };
	s->damage_start = (uint16_t)draw();
	s->damage_spawn = (uint16_t)draw();
	s->offense_ratio = (uint32_t)draw();
	s->defense_ratio = (uint32_t)draw();
	s->model_scale = (uint32_t)draw();
	s->ucf.given = yes();
	s->ucf.dash_back = (uint32_t)draw();
	s->ucf.shield_drop = (uint32_t)draw();
	s->name_tag_given = yes();
	make_text(&s->name_tag, 16);
	s->netplay.given = yes();
	make_text(&s->netplay.name, 30);
	make_text(&s->netplay.code, 9);
	s->netplay.suid_given = yes();
	make_text(&s->netplay.suid, 28);
}

static void make_start(slp_start *s, int seats)
{
	draw_bytes(s->bitfield, sizeof s->bitfield);
	s->is_raining_bombs = (uint8_t)draw();
	s->is_teams = (uint8_t)below(2);
	s->item_spawn_frequency = (uint8_t)draw();
	s->self_destruct_score = (uint8_t)draw();
	s->stage = (uint16_t)draw();
	s->timer = (uint32_t)draw();
	draw_bytes(s->item_spawn_bitfield, sizeof s->item_spawn_bitfield);
	s->damage_ratio = (uint32_t)draw();
	s->random_seed = (uint32_t)draw();
	for (int n = 0, first = (int)below(4); n < seats; n++)
		make_seat(&s->seats[(first + n) % 4]);
	s->is_pal = (slp_optional){ yes(), (uint8_t)draw() };
	s->is_frozen_ps = (slp_optional){ yes(), (uint8_t)below(2) };
	s->scene = (slp_scene){ yes(), (uint8_t)draw(), (uint8_t)draw() };
	s->language = (slp_optional){ yes(), (uint8_t)draw() };
	s->match_info.given = yes();
	s->match_info.tail = below(2) ? yes() : SLP_TAIL_CLEARED;
	make_text(&s->match_info.id, 50);
	s->match_info.game = (uint32_t)draw();
	s->match_info.tiebreaker = (uint32_t)draw();
}

static void make_end(slp_end *e)
{
	static const uint8_t initiators[5] = { 0, 1, 2, 3, 255 };
	e->given = yes();
	e->method = (uint8_t)draw();
	e->initiator = initiators[below(5)];
	for (size_t n = 0; n < 4; n++) {
		e->placed[n] = (uint8_t)(below(2) * draw());
		e->placements[n] = (uint8_t)draw();
	}
}

made make_game(const plan *p)
{
	made m;
	memset(&m, 0, sizeof m);
	slp_game *g = &m.in.game;
	int codes = p->codes && reaches(p->version, 3, 3);
	make_frames(&m, p);
	make_start(&g->start, p->seats);
	if (p->end)
		make_end(&g->end);
	g->double_end = p->end && p->double_end ? yes() : 0;
	g->codes_given = codes ? yes() : 0;
	g->metadata_given = p->metadata ? yes() : 0;
	g->actual_size = p->actual_size;
	m.block = new_bytes(&m.in.block, block_length(p->version) + p->block_more);
	m.codes = new_bytes(&m.in.codes, codes ? ((size_t)p->actual_size + 511) / 512 * 512 : below(3));
	m.metadata = new_bytes(&m.in.metadata, p->metadata_len);
	m.whole = m.in;
	return m;
}

/* ---- games that come back */

int is_present(const input *in, size_t slot, size_t frame)
{
	const uint8_t *bits = in->stores.presence.p;
	for (size_t p = 0, k = 0; p < in->game.frames.port_count; p++) {
		const slp_port_column *c = &in->game.frames.ports[p];
		const size_t lens[2] = { c->leader_presence, c->follower_presence };
		for (size_t f = 0; f < (c->follower ? 2u : 1u); f++, k++) {
			if (k == slot)
				return lens[f] == 0 || (bits[frame / 8] >> frame % 8 & 1);
			bits = lens[f] ? bits + lens[f] : bits;
		}
	}
	return 0;
}

static int is_empty(const input *in, size_t frame)
{
	for (size_t slot = 0; slot < 8; slot++)
		if (is_present(in, slot, frame))
			return 0;
	return 1;
}

static void sort_ports(slp_frames *f)
{
	for (size_t i = 0; i < f->port_count; i++)
		for (size_t j = 0; j < i; j++)
			if (f->ports[i].port < f->ports[j].port) {
				uint8_t port = f->ports[i].port;
				f->ports[i].port = f->ports[j].port;
				f->ports[j].port = port;
			}
}

/* Where there is no FrameStart, a frame shows by its players and by its id. */
static void tell_frames_apart(made *m)
{
	for (size_t i = 0; i < m->in.game.frames.counts.frames; i++) {
		if (i && m->cells[0][i] == m->cells[0][i - 1])
			m->cells[0][i]++;
		if (is_empty(&m->in, i))
			m->presence[i / 8] |= (uint8_t)(1 << i % 8);
	}
}

made make_returning(plan p)
{
	int starts = has_family(FRAME_START, p.version);
	if (!starts && p.ports == 0)
		p.frames = 0;
	made m = make_game(&p);
	sort_ports(&m.in.game.frames);
	for (size_t n = 0; n < 4; n++)
		if (!m.in.game.start.seats[n].given)
			m.block[101 + 36 * n] = 3;
	if (!starts)
		tell_frames_apart(&m);
	m.whole = m.in;
	return m;
}

void unmake(made *m)
{
	for (size_t k = 0; k < CELL_STORES; k++)
		free(m->cells[k]);
	free(m->presence);
	free(m->block);
	free(m->codes);
	free(m->metadata);
}

/* ---- plans */

slp_version random_version(void)
{
	static const uint8_t minors[4] = { 3, 6, 3, 19 };
	slp_version v = { (uint8_t)below(4), 0, (uint8_t)draw() };
	v.minor = (uint8_t)below(minors[v.major]);
	if (v.major < 3 && below(8) == 0)
		v.minor = 255;
	if (below(3) == 0)
		v = (slp_version){ 3, (uint8_t)(14 + below(5)), 0 };
	if (v.major == 3 && v.minor == 18)
		v.patch = 0;
	return v;
}

plan random_plan(size_t most_frames)
{
	plan p = { .version = random_version(), .frames = below(most_frames + 1), .ports = below(5), .followers = below(16) };
	p.items = below(6);
	p.fods = below(4);
	p.whispys = below(4);
	p.stadiums = below(4);
	p.presence = below(4) != 0;
	p.seats = (int)below(5);
	p.codes = below(3) == 0;
	p.actual_size = (uint32_t)below(1600);
	p.metadata = (int)below(2);
	p.metadata_len = below(64);
	p.end = below(4) != 0;
	p.double_end = below(4) == 0;
	p.block_more = below(8) ? 0 : below(100);
	return p;
}

plan one_frame_plan(void)
{
	return (plan){ .version = { 3, 18, 0 }, .frames = 1, .ports = 1, .seats = 1, .end = 1 };
}

plan rich_plan(void)
{
	return (plan){ .version = { 3, 18, 0 }, .frames = 9, .items = 5, .fods = 2, .whispys = 2, .stadiums = 2, .ports = 3, .followers = 5,
	               .presence = 1, .seats = 4, .codes = 1, .actual_size = 700, .metadata = 1, .metadata_len = 40, .end = 1 };
}
