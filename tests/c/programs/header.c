/* slp.h alone, before any other header: C11, and the layout that the library has. */
#include <slp.h>
#include <slp.h>

#include "check.h"

_Static_assert(sizeof(size_t) == 8, "64 bits");

_Static_assert(sizeof(slp_step) == 48 && offsetof(slp_step, offset) == 8 && offsetof(slp_step, next) == 40, "slp_step");
_Static_assert(sizeof(slp_walked) == 40 && offsetof(slp_walked, offset) == 8 && offsetof(slp_walked, place) == 32, "slp_walked");
_Static_assert(sizeof(slp_repaired) == 56 && offsetof(slp_repaired, tail) == 1 && offsetof(slp_repaired, said) == 4 && offsetof(slp_repaired, length) == 8 &&
               offsetof(slp_repaired, bytes) == 16 && offsetof(slp_repaired, event_bytes) == 32 && offsetof(slp_repaired, dropped_bytes) == 48, "slp_repaired");
_Static_assert(sizeof(slp_faulted) == 24 && offsetof(slp_faulted, reason) == 1 && offsetof(slp_faulted, event) == 8 && offsetof(slp_faulted, offset) == 16, "slp_faulted");
_Static_assert(SLP_FAULT_ORDER == 1 && SLP_FAULT_SEAT == 9 && SLP_FAULT_UNLIKE == 13 && SLP_FAULT_LENGTH == 15 && SLP_FAULT_LISTED == 19 && SLP_FAULT_STRANGE == 22, "faults");
_Static_assert(sizeof(slp_index_written) == 24 && offsetof(slp_index_written, offset) == 8 && offsetof(slp_index_written, len) == 16, "slp_index_written");
_Static_assert(sizeof(slp_index_accepted) == 16 && offsetof(slp_index_accepted, offset) == 8, "slp_index_accepted");
_Static_assert(sizeof(slp_moment) == 24 && offsetof(slp_moment, row) == 8 && offsetof(slp_moment, offset) == 16 && offsetof(slp_moment, id) == 20, "slp_moment");
_Static_assert(sizeof(slp_written) == 16 && offsetof(slp_written, len) == 8, "slp_written");
_Static_assert(sizeof(slp_appended) == 16 && offsetof(slp_appended, end) == 8, "slp_appended");
_Static_assert(sizeof(slp_closed) == 24 && offsetof(slp_closed, events) == 8 && offsetof(slp_closed, end) == 16, "slp_closed");
_Static_assert(sizeof(slp_words) == 128, "slp_words");
_Static_assert(sizeof(slp_column_answer) == 37 && offsetof(slp_column_answer, kind) == 2 && offsetof(slp_column_answer, minor) == 4 && offsetof(slp_column_answer, name) == 5, "slp_column_answer");
_Static_assert(sizeof(slp_field) == 5 && offsetof(slp_field, bytes) == 1, "slp_field");

_Static_assert(sizeof(slp_entry) == 20 && offsetof(slp_entry, value) == 12 && SLP_CELLS(3) == 15, "slp_entry");
_Static_assert(sizeof(slp_map_read) == 32 && offsetof(slp_map_read, place) == 8 && offsetof(slp_map_read, entries) == 24, "slp_map_read");

_Static_assert(sizeof(slp_version) == 3, "slp_version");
_Static_assert(sizeof(slp_counts) == 40, "slp_counts");
_Static_assert(sizeof(slp_port_column) == 24 && offsetof(slp_port_column, leader_presence) == 8, "slp_port_column");
_Static_assert(sizeof(slp_frames) == 152 && offsetof(slp_frames, counts) == 8 && offsetof(slp_frames, ports) == 48 &&
               offsetof(slp_frames, port_count) == 144, "slp_frames");
_Static_assert(sizeof(slp_text) == 64 && offsetof(slp_text, len) == 56, "slp_text");
_Static_assert(sizeof(slp_ucf) == 12 && sizeof(slp_netplay) == 208 && sizeof(slp_seat) == 320, "slp_seat");
_Static_assert(offsetof(slp_seat, name_tag) == 48 && offsetof(slp_seat, netplay) == 112, "slp_seat");
_Static_assert(offsetof(slp_match, tail) == 1 && offsetof(slp_match, id) == 8 && SLP_TAIL_CLEARED == 0 && SLP_TAIL_KEPT == 1, "slp_match");
_Static_assert(sizeof(slp_match) == 80 && sizeof(slp_start) == 1408 && offsetof(slp_start, seats) == 32, "slp_start");
_Static_assert(sizeof(slp_end) == 11, "slp_end");
_Static_assert(sizeof(slp_game) == 1584 && offsetof(slp_game, start) == 152 && offsetof(slp_game, end) == 1560 &&
               offsetof(slp_game, double_end) == 1571 && offsetof(slp_game, actual_size) == 1576, "slp_game");
_Static_assert(sizeof(slp_places) == 40 && offsetof(slp_places, tail) == 16 && offsetof(slp_places, metadata_at) == 24, "slp_places");
_Static_assert(sizeof(slp_lengths) == 120 && offsetof(slp_lengths, item_offsets) == 72 && offsetof(slp_lengths, codes) == 112, "slp_lengths");
_Static_assert(sizeof(slp_measured) == 336 && offsetof(slp_measured, partly) == 1 && offsetof(slp_measured, offset) == 8 && offsetof(slp_measured, frames) == 16 && offsetof(slp_measured, codes_given) == 168 &&
               offsetof(slp_measured, actual_size) == 172 && offsetof(slp_measured, lengths) == 176 && offsetof(slp_measured, places) == 296, "slp_measured");
_Static_assert(sizeof(slp_opened) == 1640 && offsetof(slp_opened, partly) == 1 && offsetof(slp_opened, offset) == 8 && offsetof(slp_opened, game) == 16 && offsetof(slp_opened, places) == 1600, "slp_opened");
_Static_assert(SLP_FILE_TAIL_NONE == 0 && SLP_FILE_TAIL_METADATA == 1 && SLP_FILE_TAIL_ODD == 2, "tails");
_Static_assert(sizeof(slp_plan) == 80 && offsetof(slp_plan, block) == 8 && offsetof(slp_plan, counts) == 24 && offsetof(slp_plan, codes) == 64 &&
               offsetof(slp_plan, metadata) == 72, "slp_plan");
_Static_assert(sizeof(slp_reserved) == 16 && offsetof(slp_reserved, bytes) == 8, "slp_reserved");

_Static_assert(sizeof(slp_pre) == 200 && offsetof(slp_pre, present) == 3 && offsetof(slp_pre, bits) == 4 && offsetof(slp_pre, random_seed) == 132, "slp_pre");
_Static_assert(sizeof(slp_post) == 216 && offsetof(slp_post, present) == 3 && offsetof(slp_post, state_flags) == 164 && offsetof(slp_post, instance_id) == 214, "slp_post");
_Static_assert(sizeof(slp_item) == 176 && sizeof(slp_frame_start) == 140 && sizeof(slp_frame_end) == 136, "records");
_Static_assert(sizeof(slp_fod_platform) == 140 && sizeof(slp_dreamland_whispy) == 136 && sizeof(slp_stadium_transformation) == 136, "records");
_Static_assert(sizeof(slp_data) == 420 && sizeof(slp_port_data) == 844 && sizeof(slp_frame) == 3736 && offsetof(slp_frame, id) == 4 && offsetof(slp_frame, port_count) == 8 &&
               offsetof(slp_frame, start) == 3392, "slp_frame");
_Static_assert(sizeof(slp_frame_answer) == 3744 && sizeof(slp_pre_answer) == 204 && sizeof(slp_item_answer) == 180, "answers");

_Static_assert(SLP_OK == 0 && SLP_SHORT_OUTPUT == 12 && SLP_BAD_PLACE == 17 && SLP_BAD_EVENTS == 19 && SLP_TOO_DEEP == 20 && SLP_BAD_BODY == 23, "refusals");
_Static_assert(SLP_NO_INDEX == 24 && SLP_BAD_INDEX == 25 && SLP_OTHER_REPLAY == 26 && SLP_NO_SUCH_ID == 27 && SLP_INDEX_LEN(3) == 33, "the index");
_Static_assert(SLP_LAST_FRAME_ID - SLP_FIRST_FRAME_ID + 1 == SLP_MAX_FRAMES, "frame ids");
_Static_assert(SLP_EVENT_MESSAGE_SPLITTER == 16 && SLP_EVENT_PAYLOADS == 53 && SLP_EVENT_STADIUM_TRANSFORMATION == 65, "events");

_Static_assert(SLP_FRAME_START_COLUMNS == 2 && SLP_PRE_COLUMNS == 19 && SLP_POST_COLUMNS == 32 && SLP_FRAME_END_COLUMNS == 1, "columns");
_Static_assert(SLP_ITEM_COLUMNS == 16 && SLP_FOD_PLATFORM_COLUMNS == 2 && SLP_DREAMLAND_WHISPY_COLUMNS == 1, "columns");
_Static_assert(SLP_STADIUM_TRANSFORMATION_COLUMNS == 2 && SLP_FAMILY_STADIUM_TRANSFORMATION == 7, "columns");

/* SLP_STORES in the order of slp_write: stores of different lengths, each of which is refused anywhere else. */
static void stores_in_order(void)
{
	static const uint32_t cells[SLP_POST_COLUMNS];
	static const uint8_t block[760], presence[1] = { 1 };
	slp_game g = { .frames = { .version = { 3, 18, 0 }, .counts = { .frames = 1 }, .port_count = 1 } };
	g.start = (slp_start){ .is_pal = { 1, 0 }, .is_frozen_ps = { 1, 0 }, .scene = { 1, 0, 0 }, .language = { 1, 0 } };
	g.start.match_info.given = 1;
	g.frames.ports[0].leader_presence = 1;
	slp_stores s = { .ids = { cells, 1 }, .starts = { cells, SLP_FRAME_START_COLUMNS }, .pres = { cells, SLP_PRE_COLUMNS },
	                 .posts = { cells, SLP_POST_COLUMNS }, .ends = { cells, SLP_FRAME_END_COLUMNS } };
	s.item_offsets = s.fod_offsets = s.whispy_offsets = s.stadium_offsets = (slp_cells){ cells, 2 };
	s.presence = (slp_bytes){ presence, 1 };
	uint8_t out[1000];
	slp_written a = slp_write_game(out, sizeof out, &g, &s, (slp_bytes){ block, 760 }, (slp_bytes){ 0 }, (slp_bytes){ 0 });
	slp_written b = slp_write(out, sizeof out, g, SLP_STORES(&s), block, 760, NULL, 0, NULL, 0);
	CHECK_EQ(a.refused, 0);
	CHECK_EQ(a.len, 990 - 7);
	CHECK_EQ(b.refused, a.refused);
	CHECK_EQ(b.len, a.len);
	CHECK_EQ(slp_room(slp_plan_of(&g, 760, 0, 0)).bytes, a.len + 2 * 7 + 12 + 6);
	CHECK_EQ(slp_frame_row(g.frames, SLP_STORES(&s), 0).refused, 0);
	CHECK_EQ(slp_post_row(g.frames, SLP_STORES(&s), 1, 0).refused, 13);
}

/* SLP_SPACE in the order of slp_read, and memory for all stores cut into them: in a frame of 3.18.0 with an item each store has another length or
 * other cells. */
static void space_in_order(void)
{
	static const uint32_t ids[1] = { 5 }, starts[2] = { 6, 7 }, pres[19] = { 8 }, posts[32] = { 9 }, ends[1] = { 10 }, items[16] = { 11 },
	                      one[2] = { 0, 1 }, none[2];
	static const uint8_t block[760] = { [137] = 3, [173] = 3, [209] = 3 };
	slp_game g = { .frames = { .version = { 3, 18, 0 }, .counts = { .frames = 1, .items = 1 }, .port_count = 1 } };
	g.start = (slp_start){ .is_pal = { 1, 0 }, .is_frozen_ps = { 1, 0 }, .scene = { 1, 0, 0 }, .language = { 1, 0 } };
	g.start.match_info.given = 1;
	slp_stores s = { .ids = { ids, 1 }, .starts = { starts, 2 }, .pres = { pres, 19 }, .posts = { posts, 32 }, .ends = { ends, 1 }, .items = { items, 16 },
	                 .item_offsets = { one, 2 }, .fod_offsets = { none, 2 }, .whispy_offsets = { none, 2 }, .stadium_offsets = { none, 2 } };
	uint8_t out[1100], again[1100], bytes[1];
	uint32_t cells[100];
	slp_written w = slp_write_game(out, sizeof out, &g, &s, (slp_bytes){ block, 760 }, (slp_bytes){ 0 }, (slp_bytes){ 0 });
	slp_measured m = slp_measure(out, w.len);
	CHECK_EQ(m.refused, 0);
	CHECK_EQ(slp_space_cells(&m.lengths), 1 + 2 + 19 + 32 + 1 + 16 + 4 * 2);
	CHECK_EQ(slp_space_bytes(&m.lengths), 1);
	slp_space space = slp_space_in(&m.lengths, cells, bytes);
	slp_opened o = slp_read_game(out, w.len, &space);
	CHECK_EQ(o.refused, 0);
	CHECK(cells[0] == 5 && cells[1] == 6 && cells[3] == 8 && cells[22] == 9 && cells[54] == 10 && cells[55] == 11 && cells[72] == 1 && bytes[0] == 1);
	CHECK_EQ(slp_save(again, w.len, &o, &space, out).len, w.len);
	space.stadium_offsets.len--;
	CHECK_EQ(slp_read(out, w.len, SLP_SPACE(&space)).refused, 12);
}

int main(int argc, char **argv)
{
	begin("header", argc, argv);
	test("stores in order", stores_in_order);
	test("space in order", space_in_order);
	return finish();
}
