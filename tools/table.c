/* slp table: the records of a replay as CSV. Of a player's families a line for each frame and player who is in it, of a frame's own a line for each
 * frame, of the others a line for each row; with --final those of the last row of each frame id alone. */
#include <stdio.h>
#include <stdlib.h>
#include <string.h>
#include <unistd.h>

#include "shortest.h"
#include "tool.h"

/* What a column has: something of the line itself; or a cell, as a number, as one with a sign, of a byte or of all four, or as a float. */
typedef enum { ID, PORT, FOLLOWER, REPLACED, WHOLE, SIGNED, LONG_SIGNED, REAL } kind;

/* The longest prefix, an underscore, and a name. */
enum { NAME = 64 };

typedef struct {
	char name[NAME];
	kind as;
} column;

/* What every line begins with; the two in the middle are a player's. */
static const column OWN[] = { { "id", ID }, { "port", PORT }, { "follower", FOLLOWER }, { "replaced", REPLACED } };
enum { OWN_COLUMNS = sizeof OWN / sizeof *OWN };

/* What a table has a line for. */
typedef enum { A_PLAYER, A_FRAME, A_ROW } unit;

/* A table that can be asked for: its families by their numbers, one or two. */
typedef struct {
	const char *name;
	unit unit;
	uint8_t families[2];
	int count;
} choice;

static const choice CHOICES[] = {
	{ "", A_PLAYER, { SLP_FAMILY_PRE, SLP_FAMILY_POST }, 2 },
	{ "pre", A_PLAYER, { SLP_FAMILY_PRE }, 1 },
	{ "post", A_PLAYER, { SLP_FAMILY_POST }, 1 },
	{ "start", A_FRAME, { SLP_FAMILY_FRAME_START }, 1 },
	{ "end", A_FRAME, { SLP_FAMILY_FRAME_END }, 1 },
	{ "item", A_ROW, { SLP_FAMILY_ITEM }, 1 },
	{ "fod", A_ROW, { SLP_FAMILY_FOD_PLATFORM }, 1 },
	{ "whispy", A_ROW, { SLP_FAMILY_DREAMLAND_WHISPY }, 1 },
	{ "stadium", A_ROW, { SLP_FAMILY_STADIUM_TRANSFORMATION }, 1 },
};

/* What the names of a family's columns begin with. */
static const char *const PREFIXES[] = {
	[SLP_FAMILY_FRAME_START] = "frame_start", [SLP_FAMILY_PRE] = "pre", [SLP_FAMILY_POST] = "post", [SLP_FAMILY_FRAME_END] = "frame_end",
	[SLP_FAMILY_ITEM] = "item", [SLP_FAMILY_FOD_PLATFORM] = "fod_platform", [SLP_FAMILY_DREAMLAND_WHISPY] = "dreamland_whispy",
	[SLP_FAMILY_STADIUM_TRANSFORMATION] = "stadium_transformation",
};

/* More columns than any table has, and than can be asked for. */
enum { MOST_COLUMNS = 128 };

/* A column that is shown: its cells, and how far it is from a slot's to the next one's. */
typedef struct {
	column of;
	const uint32_t *cells;
	size_t stride;
} shown;

/* A replay as a table; the mask of its frames which a later one of the same id replaced, NULL where there is none, and whether they are passed over;
 * and its columns. */
typedef struct {
	replay replay;
	uint8_t *replaced;
	int final;
	const choice *choice;
	int comma;
	shown columns[MOST_COLUMNS];
	size_t count;
} table;

/* What a line is of: `at` is the frame or the row whose cells it has. */
typedef struct {
	size_t frame, at, slot;
	unsigned port;
	int follower;
} line;

/* ---- a line */

static void put_real(uint32_t cell, int comma)
{
	char text[SHORTEST_ROOM];
	size_t len = shortest(cell, text);
	char *point = comma ? memchr(text, '.', len) : NULL;
	if (point)
		*point = ',';
	fwrite(text, 1, len, stdout);
}

static void put_cell(const table *t, const shown *c, const line *l)
{
	uint32_t cell = c->cells[l->slot * c->stride + l->at];
	if (c->of.as == REAL)
		put_real(cell, t->comma);
	else if (c->of.as == SIGNED)
		printf("%d", (int)(int8_t)(uint8_t)cell);
	else if (c->of.as == LONG_SIGNED)
		printf("%ld", (long)(int32_t)cell);
	else
		printf("%lu", (unsigned long)cell);
}

static void put_column(const table *t, const shown *c, const line *l)
{
	switch (c->of.as) {
	case ID: printf("%ld", (long)(int32_t)t->replay.space.ids.p[l->frame]); break;
	case PORT: printf("%u", l->port); break;
	case FOLLOWER: printf("%d", l->follower); break;
	case REPLACED:
		if (t->replaced)
			putchar('0' + t->replaced[l->frame]);
		break;
	default: put_cell(t, c, l);
	}
}

static void put_line(const table *t, const line *l)
{
	for (size_t k = 0; k < t->count; k++) {
		if (k)
			putchar(t->comma ? ';' : ',');
		put_column(t, &t->columns[k], l);
	}
	putchar('\n');
}

static void put_names(const table *t)
{
	for (size_t k = 0; k < t->count; k++)
		printf("%s%s", k == 0 ? "" : t->comma ? ";" : ",", t->columns[k].of.name);
	putchar('\n');
}

/* ---- the lines of a frame */

static void put_player_line(const table *t, size_t frame, size_t slot, unsigned port, int follower)
{
	line l = { frame, frame, slot, port, follower };
	if (is_present(&t->replay, slot, frame))
		put_line(t, &l);
}

static void put_players(const table *t, size_t frame)
{
	const slp_frames *f = &t->replay.opened.game.frames;
	size_t slot = 0;
	for (size_t p = 0; p < f->port_count; p++) {
		put_player_line(t, frame, slot++, f->ports[p].port, 0);
		if (f->ports[p].follower)
			put_player_line(t, frame, slot++, f->ports[p].port, 1);
	}
}

static const uint32_t *offsets_of(const table *t)
{
	const slp_space *s = &t->replay.space;
	switch (t->choice->families[0]) {
	case SLP_FAMILY_ITEM: return s->item_offsets.p;
	case SLP_FAMILY_FOD_PLATFORM: return s->fod_offsets.p;
	case SLP_FAMILY_DREAMLAND_WHISPY: return s->whispy_offsets.p;
	default: return s->stadium_offsets.p;
	}
}

static void put_rows(const table *t, size_t frame)
{
	const uint32_t *offsets = offsets_of(t);
	for (size_t row = offsets[frame]; row < offsets[frame + 1]; row++) {
		line l = { .frame = frame, .at = row };
		put_line(t, &l);
	}
}

static void put_frame(const table *t, size_t frame)
{
	line l = { .frame = frame, .at = frame };
	if (t->choice->unit == A_PLAYER)
		put_players(t, frame);
	else if (t->choice->unit == A_ROW)
		put_rows(t, frame);
	else
		put_line(t, &l);
}

/* The bar goes by the file's bytes, as if each frame had as many. */
static void put_frames(const table *t)
{
	size_t frames = t->replay.opened.game.frames.counts.frames, done = 0;
	for (size_t i = 0; i < frames && !ferror(stdout); i++) {
		if (!t->final || !t->replaced[i])
			put_frame(t, i);
		size_t now = (size_t)((uint64_t)t->replay.file.len * (i + 1) / frames);
		progress_add(now - done);
		done = now;
	}
}

/* ---- which columns */

static slp_cell_space store_of(const slp_space *s, uint8_t family)
{
	const slp_cell_space stores[] = {
		[SLP_FAMILY_FRAME_START] = s->starts, [SLP_FAMILY_PRE] = s->pres, [SLP_FAMILY_POST] = s->posts, [SLP_FAMILY_FRAME_END] = s->ends,
		[SLP_FAMILY_ITEM] = s->items, [SLP_FAMILY_FOD_PLATFORM] = s->fods, [SLP_FAMILY_DREAMLAND_WHISPY] = s->whispys,
		[SLP_FAMILY_STADIUM_TRANSFORMATION] = s->stadiums,
	};
	return stores[family];
}

static size_t rows_of(const slp_counts *n, uint8_t family)
{
	switch (family) {
	case SLP_FAMILY_ITEM: return n->items;
	case SLP_FAMILY_FOD_PLATFORM: return n->fods;
	case SLP_FAMILY_DREAMLAND_WHISPY: return n->whispys;
	case SLP_FAMILY_STADIUM_TRANSFORMATION: return n->stadiums;
	default: return n->frames;
	}
}

static kind kind_of(const slp_column_answer *c)
{
	return c->kind == SLP_FLOAT ? REAL : c->kind == SLP_UNSIGNED ? WHOLE : c->width == 1 ? SIGNED : LONG_SIGNED;
}

/* Column n of a family under the name that it has in a table; 0 where there is none. */
static int find_column(uint8_t family, size_t n, column *found)
{
	slp_column_answer c = slp_column(family, n);
	if (c.refused)
		return 0;
	snprintf(found->name, sizeof found->name, "%s_%s", PREFIXES[family], c.name);
	found->as = kind_of(&c);
	return 1;
}

static void add_family(table *t, uint8_t family)
{
	const slp_frames *f = &t->replay.opened.game.frames;
	size_t columns = slp_columns(f->version, family), rows = rows_of(&f->counts, family);
	const uint32_t *cells = store_of(&t->replay.space, family).p;
	for (size_t c = 0; c < columns; c++) {
		shown *to = &t->columns[t->count++];
		find_column(family, c, &to->of);
		to->cells = cells + c * rows;
		to->stride = columns * rows;
	}
}

/* Whether a table's lines have a column of their own. */
static int begins_with(const choice *c, const column *own)
{
	return c->unit == A_PLAYER || own->as == ID || own->as == REPLACED;
}

static void add_all(table *t)
{
	for (int k = 0; k < OWN_COLUMNS; k++)
		if (begins_with(t->choice, &OWN[k]))
			t->columns[t->count++] = (shown){ OWN[k], NULL, 0 };
	for (int k = 0; k < t->choice->count; k++)
		add_family(t, t->choice->families[k]);
}

/* The next name of a list with commas between, which is moved on; NULL behind the last. */
static const char *next_name(const char **list, size_t *len)
{
	const char *name = *list;
	if (!name)
		return NULL;
	*len = strcspn(name, ",");
	*list = name[*len] ? name + *len + 1 : NULL;
	return name;
}

static int is_called(const char *full, const char *name, size_t len)
{
	return strlen(full) == len && memcmp(full, name, len) == 0;
}

/* The columns that were asked for alone, in their order. */
static int pick_columns(const char *file, table *t, const char *list)
{
	shown all[MOST_COLUMNS];
	size_t had = t->count, len;
	memcpy(all, t->columns, sizeof all);
	t->count = 0;
	for (const char *name; (name = next_name(&list, &len)) != NULL;) {
		size_t k = 0;
		while (k < had && !is_called(all[k].of.name, name, len))
			k++;
		if (k == had) {
			complain(file, "its version has no column %.*s", (int)len, name);
			return FAILED;
		}
		t->columns[t->count++] = all[k];
	}
	return WELL;
}

/* ---- what is asked for, before a file is read */

static const choice *find_choice(const char *family)
{
	for (size_t k = 0; k < sizeof CHOICES / sizeof *CHOICES; k++)
		if (strcmp(CHOICES[k].name, family ? family : "") == 0 && (!family || *family))
			return &CHOICES[k];
	return NULL;
}

/* Whether a column is in a table, of some version. */
static int has_column(const choice *c, const char *name, size_t len)
{
	for (int k = 0; k < OWN_COLUMNS; k++)
		if (begins_with(c, &OWN[k]) && is_called(OWN[k].name, name, len))
			return 1;
	column in;
	for (int f = 0; f < c->count; f++)
		for (size_t k = 0; find_column(c->families[f], k, &in); k++)
			if (is_called(in.name, name, len))
				return 1;
	return 0;
}

const char *table_wish_wrong(const request *q, const char **which)
{
	const choice *c = find_choice(q->family);
	const char *list = q->columns;
	size_t len, count = 0;
	*which = q->family;
	if (!c)
		return "--family is pre, post, start, end, item, fod, whispy or stadium, not";
	*which = q->columns;
	for (const char *name; (name = next_name(&list, &len)) != NULL; count++)
		if (!has_column(c, name, len))
			return "--columns: the table has not all of";
	return count > MOST_COLUMNS ? "--columns: too many in" : NULL;
}

/* ---- the table */

/* A bar among the lines of the table would be in their way. */
static int bar_beside(int progress)
{
	return progress == PROGRESS_AUTO && isatty(STDOUT_FILENO) ? PROGRESS_NEVER : progress;
}

/* The mask, or words: where an id is none of a game, it is left open, but the final frames alone are refused. */
static int mask_frames(const char *name, table *t)
{
	unsigned refused = find_replaced(&t->replay, &t->replaced);
	if (refused && t->final) {
		complain(name, "refused %u: %s", refused, REFUSAL_WORDS(refused));
		return FAILED;
	}
	if (refused)
		complain(name, "which frames were replaced is left open: %s", REFUSAL_WORDS(refused));
	else if (!t->replaced)
		complain(name, "no memory");
	return refused || t->replaced ? WELL : FAILED;
}

static int choose_columns(const char *name, table *t, const request *q)
{
	slp_version v = t->replay.opened.game.frames.version;
	t->choice = find_choice(q->family);
	t->comma = q->comma;
	if (slp_columns(v, t->choice->families[0]) == 0) {
		complain(name, "version %u.%u.%u has no columns of the family %s", v.major, v.minor, v.patch, t->choice->name);
		return FAILED;
	}
	add_all(t);
	return q->columns ? pick_columns(name, t, q->columns) : WELL;
}

int show_table(const request *q)
{
	table t = { .final = q->final };
	const char *name = input_name(q->files[0]);
	if (open_replay(q->files[0], q->progress, &t.replay) != WELL)
		return FAILED;
	complain_partly(name, &t.replay);
	int status = choose_columns(name, &t, q);
	if (status == WELL)
		status = mask_frames(name, &t);
	if (status == WELL) {
		put_names(&t);
		progress_begin(bar_beside(q->progress), "table", t.replay.file.len);
		put_frames(&t);
		progress_clear();
	}
	free(t.replaced);
	close_replay(&t.replay);
	return status;
}
