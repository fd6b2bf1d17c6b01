/* What the row calls answer, as lists of numbers. */
#include "flat.h"

#include <string.h>

#include "check.h"

static void field(flat *f, uint32_t value)
{
	f->fields[f->n++] = value;
}

static void float_field(flat *f, float value)
{
	f->is_float[f->n] = 1;
	memcpy(&f->fields[f->n++], &value, sizeof value);
}

static void position(flat *f, slp_position p)
{
	float_field(f, p.x);
	float_field(f, p.y);
}

/* A number that is no cell. */
static void plain(flat *f, uint64_t value)
{
	field(f, (uint32_t)value);
	f->odd |= value > UINT32_MAX;
	f->cells[f->n_cells++] = (uint32_t)value;
}

/* The raw cells of a record with so many columns, after its fields; the rest of them is zero. */
static void record(flat *f, slp_version is, slp_version should, const uint32_t bits[32], size_t columns)
{
	f->odd |= memcmp(&is, &should, sizeof is) != 0;
	for (size_t i = 0; i < 32; i++)
		if (i < columns)
			f->cells[f->n_cells++] = bits[i];
		else
			f->odd |= bits[i] != 0;
	f->odd |= f->n != f->n_cells;
}

static void mark(flat *f, uint8_t present)
{
	f->marks[f->n_marks++] = present;
}

static void pre(flat *f, const slp_pre *p, slp_version v)
{
	field(f, p->random_seed);
	field(f, p->state);
	position(f, p->position);
	float_field(f, p->direction);
	position(f, p->joystick);
	position(f, p->cstick);
	float_field(f, p->triggers);
	field(f, p->buttons);
	field(f, p->buttons_physical);
	float_field(f, p->triggers_physical.l);
	float_field(f, p->triggers_physical.r);
	field(f, (uint8_t)p->raw_analog_x);
	float_field(f, p->percent);
	field(f, (uint8_t)p->raw_analog_y);
	field(f, (uint8_t)p->raw_analog_cstick_x);
	field(f, (uint8_t)p->raw_analog_cstick_y);
	record(f, p->version, v, p->bits, 19);
}

static void post_later(flat *f, const slp_post *p)
{
	float_field(f, p->state_age);
	for (size_t i = 0; i < 5; i++)
		field(f, p->state_flags[i]);
	float_field(f, p->misc_as);
	field(f, p->airborne);
	field(f, p->ground);
	field(f, p->jumps);
	field(f, p->l_cancel);
	field(f, p->hurtbox_state);
	float_field(f, p->velocities.self_x_air);
	float_field(f, p->velocities.self_y);
	float_field(f, p->velocities.knockback_x);
	float_field(f, p->velocities.knockback_y);
	float_field(f, p->velocities.self_x_ground);
	float_field(f, p->hitlag);
	field(f, p->animation_index);
	field(f, p->last_hit_by_instance);
	field(f, p->instance_id);
}

static void post(flat *f, const slp_post *p, slp_version v)
{
	field(f, p->character);
	field(f, p->state);
	position(f, p->position);
	float_field(f, p->direction);
	float_field(f, p->percent);
	float_field(f, p->shield);
	field(f, p->last_attack_landed);
	field(f, p->combo_count);
	field(f, p->last_hit_by);
	field(f, p->stocks);
	post_later(f, p);
	record(f, p->version, v, p->bits, 32);
}

static void item(flat *f, const slp_item *p, slp_version v)
{
	field(f, p->type_id);
	field(f, p->state);
	float_field(f, p->direction);
	float_field(f, p->velocity.x);
	float_field(f, p->velocity.y);
	position(f, p->position);
	field(f, p->damage);
	float_field(f, p->timer);
	field(f, p->id);
	for (size_t i = 0; i < 4; i++)
		field(f, p->misc[i]);
	field(f, (uint8_t)p->owner);
	field(f, p->instance_id);
	record(f, p->version, v, p->bits, 16);
}

static void fod(flat *f, const slp_fod_platform *p, slp_version v)
{
	field(f, p->platform);
	float_field(f, p->height);
	record(f, p->version, v, p->bits, 2);
}

static void whispy(flat *f, const slp_dreamland_whispy *p, slp_version v)
{
	field(f, p->direction);
	record(f, p->version, v, p->bits, 1);
}

static void stadium(flat *f, const slp_stadium_transformation *p, slp_version v)
{
	field(f, p->event);
	field(f, p->type_id);
	record(f, p->version, v, p->bits, 2);
}

static void frame_start(flat *f, const slp_frame_start *r, slp_version v)
{
	field(f, r->random_seed);
	field(f, r->scene_frame_counter);
	record(f, r->version, v, r->bits, 2);
}

static void frame_end(flat *f, const slp_frame_end *r, slp_version v)
{
	field(f, (uint32_t)r->latest_finalized_frame);
	record(f, r->version, v, r->bits, 1);
}

/* ---- a frame */

static void data(flat *f, const slp_data *d, slp_version v)
{
	mark(f, d->present);
	f->odd |= d->pre.present != d->present || d->post.present != d->present;
	pre(f, &d->pre, v);
	post(f, &d->post, v);
}

/* A player who is not there: nothing of that is in the lists. */
static void no_data(flat *f, const slp_data *d)
{
	flat none = { 0 };
	data(&none, d, (slp_version){ 0, 0, 0 });
	f->odd |= !flat_is_zero(&none);
}

static void port(flat *f, const slp_port_data *p, slp_version v)
{
	plain(f, p->port);
	plain(f, p->follower_given);
	data(f, &p->leader, v);
	if (p->follower_given)
		data(f, &p->follower, v);
	else
		no_data(f, &p->follower);
}

static void no_port(flat *f, const slp_port_data *p)
{
	f->odd |= p->port || p->follower_given;
	no_data(f, &p->leader);
	no_data(f, &p->follower);
}

static void range(flat *f, slp_range r)
{
	plain(f, r.first);
	plain(f, r.count);
}

static void frame(flat *f, const slp_frame *r, slp_version v)
{
	f->odd |= r->version.major != v.major || r->version.minor != v.minor || r->version.patch != v.patch;
	plain(f, (uint32_t)r->id);
	plain(f, r->port_count);
	for (size_t i = 0; i < 4; i++)
		if (i < r->port_count)
			port(f, &r->ports[i], v);
		else
			no_port(f, &r->ports[i]);
	frame_start(f, &r->start, v);
	frame_end(f, &r->end, v);
	range(f, r->items);
	range(f, r->fod_platforms);
	range(f, r->dreamland_whispys);
	range(f, r->stadium_transformations);
}

/* ---- the calls */

/* The version that a row should carry: none where it is refused. */
static slp_version carried(flat *f, const input *in, unsigned refused)
{
	f->refused = refused;
	return refused ? (slp_version){ 0, 0, 0 } : in->game.frames.version;
}

static void stage_row(flat *f, const input *in, row_kind kind, size_t index)
{
	const slp_frames *g = &in->game.frames;
	const slp_stores *s = &in->stores;
	if (kind == FOD_ROW) {
		slp_fod_platform_answer a = slp_fod_platform_row(*g, SLP_STORES(s), index);
		fod(f, &a.row, carried(f, in, a.refused));
	} else if (kind == WHISPY_ROW) {
		slp_dreamland_whispy_answer a = slp_dreamland_whispy_row(*g, SLP_STORES(s), index);
		whispy(f, &a.row, carried(f, in, a.refused));
	} else {
		slp_stadium_transformation_answer a = slp_stadium_transformation_row(*g, SLP_STORES(s), index);
		stadium(f, &a.row, carried(f, in, a.refused));
	}
}

static void any_row(flat *f, const input *in, row_kind kind, size_t slot, size_t index)
{
	const slp_frames *g = &in->game.frames;
	const slp_stores *s = &in->stores;
	if (kind == FRAME_ROW) {
		slp_frame_answer a = slp_frame_row(*g, SLP_STORES(s), index);
		frame(f, &a.row, carried(f, in, a.refused));
	} else if (kind == PRE_ROW) {
		slp_pre_answer a = slp_pre_row(*g, SLP_STORES(s), slot, index);
		mark(f, a.row.present);
		pre(f, &a.row, carried(f, in, a.refused));
	} else if (kind == POST_ROW) {
		slp_post_answer a = slp_post_row(*g, SLP_STORES(s), slot, index);
		mark(f, a.row.present);
		post(f, &a.row, carried(f, in, a.refused));
	} else if (kind == ITEM_ROW) {
		slp_item_answer a = slp_item_row(*g, SLP_STORES(s), index);
		item(f, &a.row, carried(f, in, a.refused));
	} else {
		stage_row(f, in, kind, index);
	}
}

flat guarded_row(const input *in, row_kind kind, size_t slot, size_t index)
{
	input lent = *in;
	loan loans[LOANS];
	flat f;
	memset(&f, 0, sizeof f);
	lend_input(&lent, loans);
	any_row(&f, &lent, kind, slot, index);
	take_back(loans);
	return f;
}

/* ---- rows of cells */

static void given_stage(flat *f, uint8_t number, const uint32_t *cells, size_t len, slp_version v)
{
	if (number == SLP_FAMILY_FOD_PLATFORM) {
		slp_fod_platform r = slp_fod_platform_of(cells, len, v);
		fod(f, &r, v);
	} else if (number == SLP_FAMILY_DREAMLAND_WHISPY) {
		slp_dreamland_whispy r = slp_dreamland_whispy_of(cells, len, v);
		whispy(f, &r, v);
	} else {
		slp_stadium_transformation r = slp_stadium_transformation_of(cells, len, v);
		stadium(f, &r, v);
	}
}

static void given(flat *f, uint8_t number, const uint32_t *cells, size_t len, slp_version v, uint32_t present)
{
	if (number == SLP_FAMILY_PRE) {
		slp_pre r = slp_pre_of(cells, len, v, present);
		mark(f, r.present);
		pre(f, &r, v);
	} else if (number == SLP_FAMILY_POST) {
		slp_post r = slp_post_of(cells, len, v, present);
		mark(f, r.present);
		post(f, &r, v);
	} else if (number == SLP_FAMILY_ITEM) {
		slp_item r = slp_item_of(cells, len, v);
		item(f, &r, v);
	} else if (number == SLP_FAMILY_FRAME_START) {
		slp_frame_start r = slp_frame_start_of(cells, len, v);
		frame_start(f, &r, v);
	} else if (number == SLP_FAMILY_FRAME_END) {
		slp_frame_end r = slp_frame_end_of(cells, len, v);
		frame_end(f, &r, v);
	} else {
		given_stage(f, number, cells, len, v);
	}
}

flat given_row(uint8_t number, const uint32_t *cells, size_t len, slp_version version, uint32_t present)
{
	flat f;
	memset(&f, 0, sizeof f);
	loan l = lend(cells, len, 4);
	given(&f, number, (const uint32_t *)(const void *)l.data, len, version, present);
	CHECK(kept(&l, 0));
	give_back(&l);
	return f;
}

/* ---- comparing */

static int is_nan(uint32_t bits)
{
	return (bits & 0x7fffffff) > 0x7f800000;
}

int flat_is(const flat *f, const uint32_t *should, size_t n)
{
	if (f->refused || f->odd || f->n != n || f->n_cells != n)
		return 0;
	for (size_t i = 0; i < n; i++) {
		int any_nan = f->is_float[i] && is_nan(should[i]) && is_nan(f->fields[i]);
		if (f->cells[i] != should[i] || (f->fields[i] != should[i] && !any_nan))
			return 0;
	}
	return 1;
}

int flat_marked(const flat *f, const uint8_t *marks, size_t n)
{
	return f->n_marks == n && memcmp(f->marks, marks, n) == 0;
}

int flat_is_zero(const flat *f)
{
	int any = f->odd;
	for (size_t i = 0; i < f->n_marks; i++)
		any |= f->marks[i] != 0;
	for (size_t i = 0; i < f->n; i++)
		any |= f->fields[i] != 0 || f->cells[i] != 0;
	return !any;
}
