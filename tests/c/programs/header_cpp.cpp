// slp.h alone as C++11, linked and called.
#include <slp.h>

#include <cstdio>

static_assert(sizeof(slp_game) == 1584, "slp_game");
static_assert(sizeof(slp_plan) == 80 && sizeof(slp_reserved) == 16, "slp_plan");
static_assert(sizeof(slp_measured) == 336 && sizeof(slp_opened) == 1640, "columns back");
static_assert(sizeof(slp_step) == 48 && sizeof(slp_walked) == 40 && sizeof(slp_written) == 16, "answers");

int main()
{
	slp_game game = slp_game();
	game.frames.version.minor = 1;
	slp_stores stores = slp_stores();
	static uint8_t block[320], out[351];
	slp_bytes none = slp_bytes(), start = slp_bytes();
	start.p = block;
	start.len = sizeof block;
	slp_written w = slp_write_game(out, sizeof out, &game, &stores, start, none, none);
	slp_walked k = slp_walk(out, w.len);
	slp_step s = slp_step_at(out, w.len, slp_first_place(out, w.len));
	const uint32_t ids[2] = { 7, 7 };
	uint8_t mask[2], scratch[131];
	uint8_t refused = slp_rollbacks(ids, 2, SLP_EXCEPT_LAST, mask, 2, scratch, sizeof scratch);
	slp_frame_answer row = slp_frame_row(game.frames, SLP_STORES(&stores), 0);
	slp_reserved room = slp_room(slp_plan_of(&game, sizeof block, 0, 0));
	slp_measured m = slp_measure(out, w.len);
	slp_space space = slp_space_in(&m.lengths, NULL, NULL);
	slp_opened o = slp_read_game(out, w.len, &space);
	static uint8_t again[351];
	bool back = m.refused == 0 && o.refused == 0 && slp_save(again, sizeof again, &o, &space, out).len == 351;
	bool ok = back && w.refused == 0 && w.len == 351 && k.whole == 1 && k.events == 1 && s.kind == SLP_STEP_EVENT && s.next == 350 && refused == 0 &&
	          mask[0] == 1 && mask[1] == 0 && row.refused == 13 && room.refused == 0 && room.bytes == 367 &&
	          slp_columns(game.frames.version, SLP_FAMILY_PRE) == 14;
	std::printf("header_cpp: %s\n", ok ? "1 passed (1 checks)" : "0 passed, 1 failed");
	return ok ? 0 : 1;
}
