/* The examples in the comments of slp.h, word for word: header_examples.sh sees to that. Here they are compiled and run. */
#include <slp.h>
#include <stdio.h>
#include <stdlib.h>
#include <string.h>

/* ---- reading */

static void step_through(const uint8_t *file, size_t len)
{
	size_t place = slp_first_place(file, len);
	slp_step s;
	while ((s = slp_step_at(file, len, place)).kind == SLP_STEP_EVENT) {
		printf("%02x at %zu, %zu bytes\n", s.code, s.at, s.len);
		place = s.next;
	}
}

static void walk_through(const uint8_t *file, size_t len)
{
	slp_walked w = slp_walk(file, len);
	if (w.refused) printf("refused %u at %zu\n", w.refused, w.offset);
	else printf("%zu events, %zu stray bytes, %s\n", w.events, w.stray, w.whole ? "whole" : "cut");
}

static void check_through(const uint8_t *file, size_t len)
{
	slp_checked c = slp_check(file, len);
	if (c.refused) printf("not sound: %u at %zu\n", c.refused, c.offset);
	else printf("sound\n");
}

/* ---- repair */

static void repair_through(const uint8_t *file, size_t len)
{
	slp_repaired need = slp_measure_repair(file, len);
	if (need.refused) printf("nothing to keep: %u\n", need.refused);
	uint8_t *mended = malloc(need.bytes + 1);
	slp_repaired r = slp_repair(file, len, mended, need.bytes);
	if (!r.refused) printf("length %u, was %u; %zu events kept, %zu dropped\n", r.length, r.said, r.events, r.dropped_events);
	free(mended);
}

/* ---- fault */

static void fault_through(const uint8_t *file, size_t len)
{
	slp_faulted why = slp_fault(file, len);
	if (why.reason) printf("event %zu, byte %zu: %s\n", why.event, why.offset, slp_fault_words(why.reason).text);
}

/* ---- masks */

static void mask_frames(void)
{
	uint32_t ids[4] = { (uint32_t)-123, (uint32_t)-122, (uint32_t)-122, (uint32_t)-121 };
	uint8_t mask[4], scratch[3];
	slp_rollbacks(ids, 4, SLP_EXCEPT_FIRST, mask, 4, scratch, 3);    // mask is 0 0 1 0
	printf("mask %u %u %u %u\n", mask[0], mask[1], mask[2], mask[3]);
}

/* ---- writing */

static void write_and_read(void)
{
	slp_game game = { .frames = { .version = { 0, 1, 0 } } };    // no frames, no end
	slp_stores stores = { 0 };
	uint8_t block[320] = { 0 }, out[351];
	slp_bytes none = { NULL, 0 }, start = { block, sizeof block };
	slp_written w = slp_write_game(out, sizeof out, &game, &stores, start, none, none);    // w.len is 351
	printf("wrote %zu\n", w.len);
	step_through(out, w.len);
	walk_through(out, w.len);
	walk_through(out, 349);
	walk_through(out, 28);
	check_through(out, w.len);
	check_through(out, 350);
	check_through(out, 28);
	repair_through(out, 28);
	fault_through(out, w.len);
	fault_through(out, 349);
	memset(out + 11, 0, 4);
	fault_through(out, 350);
	repair_through(out, w.len);
}

/* ---- final frames only */

/* Three frames of a player at 0.1.0, of which the first is rolled back. */
static void write_last_rows(void)
{
	static const uint32_t ids[3] = { 5, 6, 5 }, cells[3 * SLP_PRE_COLUMNS];
	slp_game game = { .frames = { .version = { 0, 1, 0 }, .counts = { .frames = 3 }, .port_count = 1 } };
	slp_stores stores = { .ids = { ids, 3 }, .pres = { cells, 3 * slp_columns(game.frames.version, SLP_FAMILY_PRE) },
	                      .posts = { cells, 3 * slp_columns(game.frames.version, SLP_FAMILY_POST) } };
	uint8_t block[320] = { 0 }, out[630];
	slp_bytes none = { NULL, 0 }, start = { block, sizeof block };
	uint8_t scratch[3];    // the ids are 5, 6 and 5: the last two rows are written
	slp_written w = slp_write_final_game(out, sizeof out, scratch, sizeof scratch, &game, &stores, start, none, none);
	printf("final frames: %zu bytes, mask %u %u %u\n", w.len, scratch[0], scratch[1], scratch[2]);
}

/* ---- columns back */

static void open_and_save(const uint8_t *file, size_t len, uint8_t *out, size_t out_len)
{
	slp_measured m = slp_measure(file, len);
	if (m.refused) printf("refused %u at %zu\n", m.refused, m.offset);
	else printf("%zu frames, %zu ports\n", m.frames.counts.frames, m.frames.port_count);
	uint32_t *cells = malloc(4 * slp_space_cells(&m.lengths) + 1);
	uint8_t *bytes = malloc(slp_space_bytes(&m.lengths) + 1);
	slp_space space = slp_space_in(&m.lengths, cells, bytes);
	slp_opened o = slp_read_game(file, len, &space);
	slp_stores stores = slp_stores_in(&space);
	slp_written w = slp_save(out, out_len, &o, &space, file);    // out_len is len
	printf("id %u, saved %zu: %s\n", stores.ids.p[0], w.len, w.len == len && memcmp(out, file, len) == 0 ? "the same" : "another");
	free(cells);
	free(bytes);
}

/* A frame of a player at 0.1.0, whose other seats are empty. */
static void open_again(void)
{
	static const uint32_t cells[SLP_PRE_COLUMNS] = { 77 };
	slp_game game = { .frames = { .version = { 0, 1, 0 }, .counts = { .frames = 1 }, .port_count = 1 } };
	slp_stores stores = { .ids = { cells, 1 }, .pres = { cells, slp_columns(game.frames.version, SLP_FAMILY_PRE) },
	                      .posts = { cells, slp_columns(game.frames.version, SLP_FAMILY_POST) } };
	uint8_t block[320] = { [101] = 3, [137] = 3, [173] = 3, [209] = 3 }, file[500], out[500];
	slp_bytes none = { NULL, 0 }, start = { block, sizeof block };
	slp_written w = slp_write_game(file, sizeof file, &game, &stores, start, none, none);
	open_and_save(file, w.len, out, w.len);
}

/* A replay of 3.19.0 without frames, as far as 3.18 knows it. */
static void open_newer(void)
{
	slp_game game = { .frames = { .version = { 3, 18, 0 } } };
	game.start = (slp_start){ .is_pal = { 1, 0 }, .is_frozen_ps = { 1, 0 }, .scene = { 1, 0, 0 }, .language = { 1, 0 }, .match_info = { .given = 1 } };
	static const uint32_t none_yet[1];
	slp_stores stores = { .item_offsets = { none_yet, 1 }, .fod_offsets = { none_yet, 1 }, .whispy_offsets = { none_yet, 1 }, .stadium_offsets = { none_yet, 1 } };
	uint8_t block[760] = { [101] = 3, [137] = 3, [173] = 3, [209] = 3 }, file[900];
	slp_bytes none = { NULL, 0 }, start = { block, sizeof block };
	slp_written w = slp_write_game(file, sizeof file, &game, &stores, start, none, none);
	file[slp_first_place(file, w.len) + 2] = 19;
	uint32_t cells[4];
	slp_measured m = slp_measure(file, w.len);
	slp_space space = slp_space_in(&m.lengths, cells, NULL);
	slp_opened o = slp_read_game(file, w.len, &space);
	printf("version 3.%u, partly %u\n", o.game.frames.version.minor, o.partly);
	if (o.partly) o.game.frames.version = (slp_version){ 3, 18, 0 };
	stores = slp_stores_in(&space);
	printf("rows: refused %u\n", slp_rows(NULL, 0, o.game.frames, SLP_STORES(&stores), SLP_FAMILY_ITEM, 0, 0, 0).refused);
}

/* ---- the index */

static void find_in(const uint8_t *index, size_t index_len)
{
	slp_moment m = slp_find_frame(index, index_len, 0);
	if (m.refused) printf("refused %u\n", m.refused);
	else printf("row %zu, byte %u\n", m.row, m.offset);
}

static void index_of(const uint8_t *file, size_t len)
{
	slp_index_written need = slp_write_index(file, len, NULL, 0);    // 12, if there is an index
	uint8_t *index = malloc(need.len);
	slp_index_written w = slp_write_index(file, len, index, need.len);
	if (w.refused) printf("refused %u at %zu\n", w.refused, w.offset);
	else printf("%zu bytes for %zu frames\n", w.len, (w.len - 9) / 8);
	find_in(index, w.len);
	find_in(index, w.len - 1);
	free(index);
}

/* Two frames of id 0 at 2.2, without players. */
static void jump(void)
{
	static const uint32_t cells[2];
	slp_game game = { .frames = { .version = { 2, 2, 0 }, .counts = { .frames = 2 } }, .start = { .is_pal = { 1, 0 }, .is_frozen_ps = { 1, 0 } } };
	slp_stores stores = { .ids = { cells, 2 }, .starts = { cells, 2 * slp_columns(game.frames.version, SLP_FAMILY_FRAME_START) } };
	uint8_t block[420] = { 0 }, file[600];
	slp_bytes none = { NULL, 0 }, start = { block, sizeof block };
	slp_written w = slp_write_game(file, sizeof file, &game, &stores, start, none, none);
	index_of(file, w.len);
}

/* ---- room */

static void reserve(void)
{
	slp_plan plan = { .version = { 3, 18, 0 }, .block = 760, .slots = 2, .counts = { .frames = 28800, .items = 20000 } };
	slp_reserved r = slp_room(plan);    // eight minutes of two players: r.bytes is 10289641
	printf("room %zu, refused %u\n", r.bytes, r.refused);
}

/* A run of one frame of a player at 0.1.0 behind a byte that stays. */
static void append_run(void)
{
	static const uint32_t cells[SLP_PRE_COLUMNS];
	slp_game game = { .frames = { .version = { 0, 1, 0 }, .counts = { .frames = 1 }, .port_count = 1 } };
	slp_stores stores = { .ids = { cells, 1 }, .pres = { cells, slp_columns(game.frames.version, SLP_FAMILY_PRE) },
	                      .posts = { cells, slp_columns(game.frames.version, SLP_FAMILY_POST) } };
	uint8_t out[94] = { 0xee };
	size_t place = 1;
	slp_appended r = slp_write_frames(out, sizeof out, place, game.frames, SLP_STORES(&stores), 0, game.frames.counts.frames);
	if (!r.refused) place = r.end;    // where the next run goes
	printf("run up to %zu: %02x %02x\n", place, out[0], out[1]);
	printf("one byte less: refused %u\n", slp_write_frame(out, 93, 1, game.frames, SLP_STORES(&stores), 0).refused);
}

/* A recording without frames, with an end. */
static void record_live(void)
{
	uint8_t block[320] = { 0 }, out[353];
	slp_game game = { .frames = { .version = { 0, 1, 0 } }, .end = { .given = 1, .method = 3 } };
	slp_bytes none = { NULL, 0 }, start = { block, sizeof block };
	slp_appended h = slp_write_game_head(out, sizeof out, &game, start, none);    // h.end is 350
	slp_closed c = slp_write_game_end(out, sizeof out, h.end, &game, none);    // behind the last frame; c.end is 353
	if (!c.refused) memcpy(out + 11, slp_length_field(c.events - 15).bytes, 4);    // 00 00 01 51
	printf("recorded %zu and %zu: %02x %02x %02x %02x, %s\n", h.end, c.end, out[11], out[12], out[13], out[14],
	       slp_walk(out, sizeof out).whole ? "whole" : "cut");
}

/* ---- the metadata map */

static void write_and_read_map(void)
{
	const uint8_t texts[] = "lastFrameplayedOndolphin";
	slp_entry entries[2] = { { SLP_ENTRY_NUMBER, 0, 9, 1234, 0 }, { SLP_ENTRY_TEXT, 9, 8, 17, 7 } };
	uint8_t body[64];
	slp_written m = slp_write_map(body, sizeof body, entries, SLP_CELLS(2), texts, 24, 2);    // m.len is 36
	slp_entry back[8];
	slp_map_read r = slp_read_map(body, m.len, back, SLP_CELLS(8));    // r.count is 2, back[0].key is 2
	printf("map of %zu bytes: %zu entries, the first key at %u\n", m.len, r.count, back[0].key);
}

/* ---- rows */

static void show_frame(slp_game game, slp_stores stores)
{
	slp_frame_answer a = slp_frame_row(game.frames, SLP_STORES(&stores), 0);
	if (!a.refused) printf("frame %d: port %u has %.1f percent\n", a.row.id, a.row.ports[0].port, a.row.ports[0].leader.post.percent);
}

static void show_post(slp_game game, slp_stores stores)
{
	slp_post_answer a = slp_post_row(game.frames, SLP_STORES(&stores), 1, 0);    // the second slot's Post of the first frame
	printf("second slot: refused %u, %u stocks\n", a.refused, a.row.stocks);
}

static void use(slp_item item)
{
	printf("item %u\n", item.id);
}

static void show_items(slp_game game, slp_stores stores, slp_frame frame)
{
	for (size_t i = 0; i < frame.items.count; i++)
		use(slp_item_row(game.frames, SLP_STORES(&stores), frame.items.first + i).row);
}

static void show(slp_post post)
{
	printf("present %u, %.1f percent\n", post.present, post.percent);
}

static void show_run(slp_game game, slp_stores stores)
{
	uint32_t out[SLP_POST_COLUMNS + 1];
	size_t out_len = SLP_POST_COLUMNS + 1;
	size_t cells = slp_row_cells(game.frames.version, SLP_FAMILY_POST), columns = cells - 1;
	slp_run run = slp_rows(out, out_len, game.frames, SLP_STORES(&stores), SLP_FAMILY_POST, 0, 0, game.frames.counts.frames);
	for (const uint32_t *row = out; row < out + run.len; row += cells)
		show(slp_post_of(row, columns, game.frames.version, row[columns]));
}

static size_t post_cells(slp_game game)
{
	size_t cells = slp_columns(game.frames.version, SLP_FAMILY_POST) * game.frames.counts.frames;    // of one slot
	return cells;
}

/* A frame at 3.0.0 with two players, whose stocks are 1 and 2, and two items, whose ids are 7 and 8. */
static void show_rows(void)
{
	static const uint32_t ids[1], starts[1], pres[2 * SLP_PRE_COLUMNS], offsets[2] = { 0, 2 };
	static const uint32_t items[SLP_ITEM_COLUMNS * 2] = { [SLP_ITEM_ID * 2] = 7, [SLP_ITEM_ID * 2 + 1] = 8 };
	static uint32_t posts[2 * SLP_POST_COLUMNS] = { [SLP_POST_PERCENT] = 0x42280000, [SLP_POST_STOCKS] = 1 };
	slp_game game = { .frames = { .version = { 3, 0, 0 }, .counts = { .frames = 1, .items = 2 }, .ports = { { .port = 3 }, { .port = 1 } },
	                              .port_count = 2 } };
	slp_version v = game.frames.version;
	posts[post_cells(game) + SLP_POST_STOCKS] = 2;
	slp_stores stores = { .ids = { ids, 1 }, .starts = { starts, 1 }, .pres = { pres, 2 * slp_columns(v, SLP_FAMILY_PRE) },
	                      .posts = { posts, 2 * post_cells(game) }, .items = { items, 2 * slp_columns(v, SLP_FAMILY_ITEM) },
	                      .item_offsets = { offsets, 2 } };
	show_frame(game, stores);
	show_post(game, stores);
	show_items(game, stores, slp_frame_row(game.frames, SLP_STORES(&stores), 0).row);
	show_run(game, stores);
}

/* ---- names */

static void name_columns(void)
{
	slp_column_answer c;
	for (size_t n = 0; !(c = slp_column(SLP_FAMILY_ITEM, n)).refused; n++)
		printf("%s: %u bytes, %c, from %u.%u\n", c.name, c.width, c.kind, c.major, c.minor);
}

static void say_why(void)
{
	slp_walked w = slp_walk(NULL, 0);
	printf("refused %u: %s\n", w.refused, slp_refusal_words(w.refused).text);
}

int main(void)
{
	mask_frames();
	write_and_read();
	write_last_rows();
	open_again();
	open_newer();
	jump();
	reserve();
	append_run();
	record_live();
	write_and_read_map();
	show_rows();
	name_columns();
	say_why();
	return 0;
}
