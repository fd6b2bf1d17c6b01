/* slp demo: a short match of the newest version, written and walked. */
#include <stdio.h>
#include <string.h>

#include "tool.h"

/* The length of the newest version's start block, where the type of a seat stands in it, and that of one where nobody sits. */
enum { BLOCK = 760, SEATS = 4, FIRST_TYPE = 101, BETWEEN_TYPES = 36, NOBODY = 3 };

/* Characters have one number when they are chosen and another in the game; so have the ways to stand there. */
enum { CHOSEN_FOX = 2, CHOSEN_MARTH = 9, FOX = 1, MARTH = 18, FOX_LASER = 0x36, FINAL_DESTINATION = 32, HIT_BY_NOBODY = 6, BUTTON_A = 0x100, BUTTON_B = 0x200 };
enum { DEAD = 0, REBORN = 12, STANDING = 14, WALKING = 17, FLYING = 87 };

/* What happens, by the id of its frame: a player is hit, for so many percent; or loses a stock; or the first player fires a laser, which hits LASER_FLIGHT
 * frames later. */
typedef enum { HIT, FALL, LASER } deed;

typedef struct {
	int at;
	deed what;
	int whom;
	float percent;
} happening;

enum { SLOTS = 2, STOCKS = 4, LASER_FLIGHT = 8, LASER_PERCENT = 3 };

static const happening SCRIPT[] = {
	{ 60, LASER, 1, LASER_PERCENT }, { 84, LASER, 1, LASER_PERCENT }, { 108, LASER, 1, LASER_PERCENT }, { 132, HIT, 1, 12 }, { 150, HIT, 1, 9 },
	{ 168, HIT, 1, 14 }, { 190, HIT, 0, 11 }, { 226, HIT, 1, 18 }, { 262, HIT, 1, 16 }, { 290, FALL, 1, 0 },
	{ 330, HIT, 0, 13 }, { 352, HIT, 0, 15 }, { 396, LASER, 1, LASER_PERCENT }, { 420, HIT, 0, 20 }, { 452, HIT, 0, 19 }, { 478, FALL, 0, 0 },
	{ 560, HIT, 1, 12 }, { 580, HIT, 1, 14 }, { 604, HIT, 0, 10 }, { 640, HIT, 1, 21 }, { 668, HIT, 1, 17 }, { 690, FALL, 1, 0 },
	{ 760, HIT, 0, 12 }, { 778, HIT, 0, 12 }, { 800, LASER, 1, LASER_PERCENT }, { 820, LASER, 1, LASER_PERCENT }, { 850, HIT, 0, 22 },
	{ 880, HIT, 0, 24 }, { 902, FALL, 0, 0 }, { 970, HIT, 1, 15 }, { 990, HIT, 1, 13 }, { 1012, HIT, 0, 16 }, { 1030, HIT, 0, 18 },
	{ 1056, HIT, 1, 19 }, { 1090, HIT, 1, 20 }, { 1112, FALL, 1, 0 }, { 1170, HIT, 0, 21 }, { 1190, HIT, 0, 17 }, { 1214, FALL, 0, 0 },
	{ 1280, LASER, 1, LASER_PERCENT }, { 1300, HIT, 1, 16 }, { 1320, HIT, 1, 18 }, { 1344, HIT, 0, 14 }, { 1372, HIT, 1, 20 }, { 1400, HIT, 1, 15 },
	{ 1439, FALL, 1, 0 },
};
enum { HAPPENINGS = sizeof SCRIPT / sizeof *SCRIPT, LAST_ID = 1439 };

/* Where the console guessed what the other one pressed, and played so many frames again when it knew. */
static const struct {
	int at, frames;
} ROLLBACKS[] = { { 166, 4 }, { 666, 7 }, { 1186, 6 } };
enum { ROLLBACK_COUNT = sizeof ROLLBACKS / sizeof *ROLLBACKS, REPEATED = 4 + 7 + 6 };

enum { FRAMES = LAST_ID + 1 - SLP_FIRST_FRAME_ID + REPEATED, MOST_ITEMS = 256, ROOM = 1 << 20 };

typedef struct {
	uint32_t ids[FRAMES], starts[SLP_FRAME_START_COLUMNS * FRAMES], ends[SLP_FRAME_END_COLUMNS * FRAMES];
	uint32_t pres[SLOTS * SLP_PRE_COLUMNS * FRAMES], posts[SLOTS * SLP_POST_COLUMNS * FRAMES];
	uint32_t items[SLP_ITEM_COLUMNS * MOST_ITEMS], item_offsets[FRAMES + 1], no_offsets[FRAMES + 1];
	uint8_t block[BLOCK];
} cells;

/* A player between two frames: `since` counts the frames of its state. */
typedef struct {
	float x, y, speed, percent;
	uint32_t stocks, state, hit_by;
	int since, stick;
} fighter;

/* The metadata: startAt, lastFrame and playedOn, by where their keys and texts stand. */
static const char TEXTS[] = "startAt2001-12-03T12:00:00ZlastFrameplayedOndemo";
static const slp_entry ENTRIES[] = {
	{ SLP_ENTRY_TEXT, 0, 7, 7, 20 },
	{ SLP_ENTRY_NUMBER, 27, 9, LAST_ID, 0 },
	{ SLP_ENTRY_TEXT, 36, 8, 44, 4 },
};
enum { ENTRY_COUNT = sizeof ENTRIES / sizeof *ENTRIES, BODY = 256 };

static uint32_t bits(float value)
{
	uint32_t b;
	memcpy(&b, &value, sizeof b);
	return b;
}

/* ---- the match */

static void enter(fighter *f, uint32_t state)
{
	f->state = state;
	f->since = 0;
}

/* Who is hit flies away from the other one; who falls is out of sight, and then stands in the middle again, up in the air. */
static void suffer(fighter *f, const happening *h, float from)
{
	if (h->what == FALL) {
		f->stocks--;
		f->percent = 0;
		f->y = -110.0f;
		enter(f, DEAD);
		return;
	}
	f->percent += h->percent;
	f->hit_by = (uint32_t)(1 - h->whom);
	if (h->what == HIT) {
		f->speed = (f->x < from ? -0.03f : 0.03f) * (f->percent + 20.0f);
		enter(f, FLYING);
	}
}

/* Everybody walks to and fro, a second and a half at a time. */
static void walk_on(fighter *f, int slot, int id)
{
	f->stick = id < 0 ? 0 : (id / 90 + slot) % 3 - 1;
	f->x += 0.6f * (float)f->stick;
	f->x = f->x > 60.0f ? 60.0f : f->x < -60.0f ? -60.0f : f->x;
	f->state = f->stick ? WALKING : STANDING;
}

static void move(fighter *f, int slot, int id)
{
	f->since++;
	f->stick = 0;
	if (f->state == DEAD && f->since > 40) {
		f->x = 0;
		f->y = 50.0f;
		enter(f, REBORN);
	} else if (f->state == FLYING) {
		f->x += f->speed;
		f->y = f->since < 12 ? f->y + 1.5f : f->y > 1.5f ? f->y - 1.5f : 0;
		f->speed *= 0.9f;
	}
	if (f->state == REBORN && f->since > 30)
		f->y = 0;
	if ((f->state == FLYING || f->state == REBORN) && f->since > 30)
		enter(f, STANDING);
	if (f->state == STANDING || f->state == WALKING)
		walk_on(f, slot, id);
}

/* A frame of the match; a guessed one has nothing in it that happens. */
static void play(fighter *players, int id, int guessed)
{
	for (int slot = 0; slot < SLOTS; slot++)
		move(&players[slot], slot, id);
	for (int k = 0; k < HAPPENINGS && !guessed; k++)
		if (SCRIPT[k].at + (SCRIPT[k].what == LASER ? LASER_FLIGHT : 0) == id)
			suffer(&players[SCRIPT[k].whom], &SCRIPT[k], players[1 - SCRIPT[k].whom].x);
}

/* What a player presses: the one who hits, A for the four frames up to it; the one who fires, B. */
static uint32_t pressed(int slot, int id)
{
	for (int k = 0; k < HAPPENINGS; k++) {
		int by = 1 - SCRIPT[k].whom, ago = SCRIPT[k].at - id;
		if (by == slot && SCRIPT[k].what != FALL && ago >= 0 && ago < 4)
			return SCRIPT[k].what == LASER ? BUTTON_B : BUTTON_A;
	}
	return 0;
}

/* ---- its columns; cells that are not filled are zero */

static void fill_player(cells *c, int slot, int i, const fighter *f)
{
	int id = (int)(int32_t)c->ids[i];
	uint32_t *pre = c->pres + slot * SLP_PRE_COLUMNS * FRAMES + i, *post = c->posts + slot * SLP_POST_COLUMNS * FRAMES + i;
	pre[SLP_PRE_STATE * FRAMES] = post[SLP_POST_STATE * FRAMES] = f->state;
	pre[SLP_PRE_POSITION_X * FRAMES] = post[SLP_POST_POSITION_X * FRAMES] = bits(f->x);
	pre[SLP_PRE_POSITION_Y * FRAMES] = post[SLP_POST_POSITION_Y * FRAMES] = bits(f->y);
	pre[SLP_PRE_DIRECTION * FRAMES] = post[SLP_POST_DIRECTION * FRAMES] = bits(slot ? -1.0f : 1.0f);
	pre[SLP_PRE_JOYSTICK_X * FRAMES] = bits((float)f->stick);
	pre[SLP_PRE_BUTTONS * FRAMES] = pre[SLP_PRE_BUTTONS_PHYSICAL * FRAMES] = pressed(slot, id);
	pre[SLP_PRE_PERCENT * FRAMES] = post[SLP_POST_PERCENT * FRAMES] = bits(f->percent);
	post[SLP_POST_CHARACTER * FRAMES] = slot ? MARTH : FOX;
	post[SLP_POST_SHIELD * FRAMES] = bits(60.0f);
	post[SLP_POST_LAST_HIT_BY * FRAMES] = f->hit_by;
	post[SLP_POST_STOCKS * FRAMES] = f->stocks;
	post[SLP_POST_STATE_AGE * FRAMES] = bits((float)f->since);
	post[SLP_POST_AIRBORNE * FRAMES] = f->y > 0;
	if (f->state == FLYING)
		post[SLP_POST_VELOCITIES_KNOCKBACK_X * FRAMES] = bits(f->speed);
}

static void fill_frame(cells *c, int i, int id, const fighter *players)
{
	c->ids[i] = (uint32_t)id;
	c->ends[i] = (uint32_t)id;
	c->starts[SLP_FRAME_START_RANDOM_SEED * FRAMES + i] = 0x12345678u + 0x9e3779b9u * (uint32_t)i;
	c->starts[SLP_FRAME_START_SCENE_FRAME_COUNTER * FRAMES + i] = (uint32_t)(id - SLP_FIRST_FRAME_ID);
	for (int slot = 0; slot < SLOTS; slot++)
		fill_player(c, slot, i, &players[slot]);
}

/* The frames that are guessed at an id, from what was before it; how many. */
static int fill_guesses(cells *c, int i, int id, const fighter *players)
{
	fighter guess[SLOTS];
	memcpy(guess, players, sizeof guess);
	for (int r = 0; r < ROLLBACK_COUNT; r++)
		if (ROLLBACKS[r].at == id) {
			for (int k = 0; k < ROLLBACKS[r].frames; k++) {
				play(guess, id + k, 1);
				fill_frame(c, i + k, id + k, guess);
			}
			return ROLLBACKS[r].frames;
		}
	return 0;
}

static void fill_frames(cells *c)
{
	fighter players[SLOTS] = { { .x = -40.0f }, { .x = 40.0f } };
	for (int slot = 0; slot < SLOTS; slot++) {
		players[slot].stocks = STOCKS;
		players[slot].state = STANDING;
		players[slot].hit_by = HIT_BY_NOBODY;
	}
	for (int i = 0, id = SLP_FIRST_FRAME_ID; id <= LAST_ID; id++) {
		i += fill_guesses(c, i, id, players);
		play(players, id, 0);
		fill_frame(c, i++, id, players);
	}
}

/* The lasers in the air in a frame, from row `row` on, where they have a place; how many. */
static int lasers(cells *c, int i, int row, size_t rows)
{
	int found = 0;
	for (int k = 0; k < HAPPENINGS; k++) {
		int age = (int)(int32_t)c->ids[i] - SCRIPT[k].at;
		if (SCRIPT[k].what != LASER || age < 0 || age >= LASER_FLIGHT)
			continue;
		if (rows) {
			uint32_t *item = c->items + row + found;
			item[SLP_ITEM_TYPE * rows] = FOX_LASER;
			item[SLP_ITEM_DIRECTION * rows] = bits(1.0f);
			item[SLP_ITEM_VELOCITY_X * rows] = bits(7.0f);
			item[SLP_ITEM_POSITION_X * rows] = bits(-30.0f + 7.0f * (float)age);
			item[SLP_ITEM_POSITION_Y * rows] = bits(8.0f);
			item[SLP_ITEM_ID * rows] = (uint32_t)k;
		}
		found++;
	}
	return found;
}

/* How many rows of items there are is known before the first is put: its columns stand that far apart. */
static size_t fill_items(cells *c)
{
	for (int i = 0; i < FRAMES; i++)
		c->item_offsets[i + 1] = c->item_offsets[i] + (uint32_t)lasers(c, i, 0, 0);
	size_t rows = c->item_offsets[FRAMES];
	for (int i = 0; i < FRAMES; i++)
		lasers(c, i, (int)c->item_offsets[i], rows);
	return rows;
}

static size_t fill(cells *c)
{
	fill_frames(c);
	for (int seat = SLOTS; seat < SEATS; seat++)
		c->block[FIRST_TYPE + BETWEEN_TYPES * seat] = NOBODY;
	return fill_items(c);
}

/* ---- its file */

static slp_text text(const char *words)
{
	slp_text t = { .len = strlen(words) };
	memcpy(t.bytes, words, t.len);
	return t;
}

static slp_seat seat(uint8_t character, const char *tag, const char *name, const char *code)
{
	slp_seat s = { .given = 1, .character = character, .kind = SLP_HUMAN, .stocks = STOCKS, .handicap = 9 };
	s.offense_ratio = s.defense_ratio = s.model_scale = bits(1.0f);
	s.ucf = (slp_ucf){ 1, 1, 1 };
	s.name_tag_given = s.netplay.given = s.netplay.suid_given = 1;
	s.name_tag = text(tag);
	s.netplay.name = text(name);
	s.netplay.code = text(code);
	s.netplay.suid = text("demo");
	return s;
}

static slp_game game_of(size_t items)
{
	slp_game g = { .frames = { .version = { 3, 18, 0 }, .counts = { .frames = FRAMES, .items = items }, .port_count = SLOTS } };
	for (uint8_t p = 0; p < SLOTS; p++)
		g.frames.ports[p].port = p;
	g.start = (slp_start){ .stage = FINAL_DESTINATION, .timer = 480, .damage_ratio = bits(1.0f), .random_seed = 0x12345678u };
	g.start.seats[0] = seat(CHOSEN_FOX, "AL", "Al", "DEMO#1");
	g.start.seats[1] = seat(CHOSEN_MARTH, "BOB", "Bob", "DEMO#2");
	g.start.is_pal.given = g.start.is_frozen_ps.given = g.start.language.given = g.start.scene.given = 1;
	g.start.language.value = 1;
	g.start.match_info = (slp_match){ .given = 1, .id = text("mode.demo-2001-12-03"), .game = 1 };
	g.end = (slp_end){ .given = 1, .method = 2, .initiator = 255, .placed = { 1, 1 }, .placements = { 0, 1 } };
	g.metadata_given = 1;
	return g;
}

static slp_stores stores_of(const cells *c, size_t items)
{
	slp_cells none = { c->no_offsets, FRAMES + 1 };
	return (slp_stores){
		.ids = { c->ids, FRAMES }, .starts = { c->starts, SLP_FRAME_START_COLUMNS * FRAMES }, .ends = { c->ends, SLP_FRAME_END_COLUMNS * FRAMES },
		.pres = { c->pres, SLOTS * SLP_PRE_COLUMNS * FRAMES }, .posts = { c->posts, SLOTS * SLP_POST_COLUMNS * FRAMES },
		.items = { c->items, SLP_ITEM_COLUMNS * items }, .item_offsets = { c->item_offsets, FRAMES + 1 },
		.fod_offsets = none, .whispy_offsets = none, .stadium_offsets = none,
	};
}

/* How many frames were replaced by a later one of the same id. */
static size_t replaced(const cells *c)
{
	uint8_t mask[FRAMES], scratch[FRAMES];
	size_t n = 0;
	if (slp_rollbacks(c->ids, FRAMES, SLP_EXCEPT_LAST, mask, FRAMES, scratch, FRAMES) != SLP_OK)
		return 0;
	for (int i = 0; i < FRAMES; i++)
		n += mask[i];
	return n;
}

static void report(const char *path, const cells *c, slp_written file, slp_written metadata, slp_walked w)
{
	FILE *to = say_wrote(path, file.len);
	fprintf(to, "\n  version   3.18.0\n");
	fprintf(to, "  players   Al, Fox on port 0, and Bob, Marth on port 1\n");
	fprintf(to, "  frames    %d, of which rollbacks replaced %zu\n", FRAMES, replaced(c));
	fprintf(to, "  items     lasers, %u rows\n", (unsigned)c->item_offsets[FRAMES]);
	fprintf(to, "  end       one, with placements\n");
	fprintf(to, "  metadata  %zu bytes\n", metadata.len);
	fprintf(to, "walked it: %zu events, %zu stray bytes, %s\n", w.events, w.stray, w.whole ? "whole" : "cut");
}

/* Whether the library took what it was given. */
static int taken(slp_written w)
{
	if (w.refused)
		complain("demo", "refused %u: %s", w.refused, REFUSAL_WORDS(w.refused));
	return !w.refused;
}

int write_demo(const request *q)
{
	const char *path = q->files[0];
	static cells c;
	static uint8_t out[ROOM];
	size_t items = fill(&c);
	slp_game g = game_of(items);
	slp_stores s = stores_of(&c, items);
	uint8_t body[BODY];
	slp_written m = slp_write_map(body, BODY, ENTRIES, SLP_CELLS(ENTRY_COUNT), (const uint8_t *)TEXTS, sizeof TEXTS - 1, ENTRY_COUNT);
	if (!taken(m))
		return FAILED;
	slp_bytes block = { c.block, BLOCK }, none = { NULL, 0 }, metadata = { body, m.len };
	slp_written w = slp_write_game(out, ROOM, &g, &s, block, none, metadata);
	if (!taken(w))
		return FAILED;
	int wrong = save(path, q->force, out, w.len);
	if (wrong) {
		complain(output_name(path), "%s", strerror(wrong));
		return FAILED;
	}
	slp_walked k = slp_walk(out, w.len);
	report(path, &c, w, m, k);
	return k.refused || !k.whole ? FAILED : WELL;
}
