#include "damage.h"

#include "check.h"

const size_t far_numbers[FAR_NUMBERS] = { 9, 10, 16, 1u << 31, UINT32_MAX, (size_t)UINT32_MAX + 1, SIZE_MAX / 2 + 1, SIZE_MAX };

size_t odd_number(size_t near)
{
	static const size_t limits[] = {
		0, 1, 4, 5, 50, 51, 255, 65535, 65536, SLP_MAX_FRAMES, SLP_MAX_FRAMES + 1, SLP_MAX_ITEMS, SLP_MAX_ITEMS + 1,
		UINT32_MAX, (size_t)UINT32_MAX + 1, SIZE_MAX / 2 + 1, SIZE_MAX,
	};
	switch (below(4)) {
	case 0: return near + 1;
	case 1: return near - 1;
	case 2: return limits[below(sizeof limits / sizeof *limits)];
	default: return below(20);
	}
}

static void damage_count(made *m)
{
	slp_counts *c = &m->in.game.frames.counts;
	size_t *counts[5] = { &c->frames, &c->items, &c->fods, &c->whispys, &c->stadiums };
	size_t *n = counts[below(5)];
	*n = odd_number(*n);
}

static size_t *length_of(input *in, size_t store)
{
	slp_bytes *bytes[4] = { &in->stores.presence, &in->block, &in->codes, &in->metadata };
	return store < CELL_STORES ? &cell_store(&in->stores, store)->len : &bytes[store - CELL_STORES]->len;
}

/* Shorter than it was made, or longer by a little of the spare memory. */
static void damage_len(made *m)
{
	size_t k = below(CELL_STORES + 4), was = *length_of(&m->whole, k), more = k < CELL_STORES ? SPARE_CELLS : SPARE_BYTES;
	*length_of(&m->in, k) = below(2) ? below(was + 1) : was + below(more + 1);
}

static void damage_cell(made *m)
{
	size_t k = below(CELL_STORES), n = cell_store(&m->in.stores, k)->len;
	static const uint32_t odd[] = { 0, 1, 255, 256, 65535, 65536, UINT32_MAX };
	if (n)
		m->cells[k][below(n)] = below(2) ? odd[below(sizeof odd / sizeof *odd)] : (uint32_t)draw();
}

static void damage_port(made *m)
{
	slp_frames *f = &m->in.game.frames;
	slp_port_column *p = &f->ports[below(4)];
	switch (below(5)) {
	case 0: p->port = (uint8_t)below(6); break;
	case 1: p->follower = (uint8_t)below(2); break;
	case 2: p->leader_presence = odd_number(p->leader_presence); break;
	case 3: p->follower_presence = odd_number(p->follower_presence); break;
	default: f->port_count = odd_number(f->port_count); break;
	}
}

static void damage_seat(slp_seat *s)
{
	slp_text *texts[4] = { &s->name_tag, &s->netplay.name, &s->netplay.code, &s->netplay.suid };
	slp_text *t = texts[below(4)];
	uint8_t *marks[6] = { &s->given, &s->cpu_level.given, &s->ucf.given, &s->name_tag_given, &s->netplay.given, &s->netplay.suid_given };
	switch (below(4)) {
	case 0: t->len = odd_number(t->len); break;
	case 1: t->bytes[below(sizeof t->bytes)] = 0; break;
	case 2: s->kind = (uint8_t)below(5); break;
	default: *marks[below(6)] = (uint8_t)below(2); break;
	}
}

static void damage_start(made *m)
{
	slp_start *s = &m->in.game.start;
	uint8_t *marks[5] = { &s->is_pal.given, &s->is_frozen_ps.given, &s->scene.given, &s->language.given, &s->match_info.given };
	switch (below(4)) {
	case 0: *marks[below(5)] = 0; break;
	case 1: s->match_info.id.len = odd_number(s->match_info.id.len); break;
	case 2: s->match_info.id.bytes[below(sizeof s->match_info.id.bytes)] = 0; break;
	default: damage_seat(&s->seats[below(4)]); break;
	}
}

static void damage_rest(made *m)
{
	slp_game *g = &m->in.game;
	switch (below(7)) {
	case 0: g->frames.version = random_version(); break;
	case 1: g->frames.version = (slp_version){ (uint8_t)below(5), (uint8_t)draw(), (uint8_t)draw() }; break;
	case 2: g->end.given = (uint8_t)below(2); break;
	case 3: g->end.initiator = (uint8_t)draw(); break;
	case 4: g->double_end = (uint8_t)below(2); break;
	case 5: g->codes_given = (uint8_t)below(2); break;
	default: g->actual_size = (uint32_t)odd_number(g->actual_size); break;
	}
}

void damage(made *m)
{
	switch (below(6)) {
	case 0: damage_count(m); break;
	case 1: damage_len(m); break;
	case 2: damage_cell(m); break;
	case 3: damage_port(m); break;
	case 4: damage_start(m); break;
	default: damage_rest(m); break;
	}
}

void fault_frames(made *m, unsigned number)
{
	switch (number) {
	case 1: m->in.game.frames.version.patch = 1; break;
	case 2: m->in.game.frames.counts.whispys = SLP_MAX_STAGE_ROWS + 1; break;
	case 3: m->in.stores.ids.len--; break;
	case 4: m->cells[3][0] = 256; break;
	case 5: m->cells[9][0] = 1; break;
	case 6: m->in.stores.presence.len++; break;
	case 7: m->in.game.frames.ports[1].port = 4; break;
	default: break;
	}
}
