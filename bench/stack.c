/* How much stack each call of the library takes, for the smallest game and for a large one with the longest start block: the call runs on a painted
 * stack of its own, and what is no longer painted afterwards was used. What the caller needs to pass structs by value is counted too.
 *
 *     stack            a table: bytes a call
 *     stack --check    ends with 1 if a call takes more than it may, or more for the large game by as much as a copy of its block would take
 *     stack --light    only the second of these
 */
#define _GNU_SOURCE
#include <slp.h>
#include <stdio.h>
#include <stdlib.h>
#include <string.h>
#include <ucontext.h>

enum { STACK = 1 << 20, PAINT = 0xa5, LARGEST_BLOCK = 65535, FRAMES = 64, SLOTS = 8, MOST_CELLS = SLOTS * SLP_POST_COLUMNS * FRAMES };

static uint8_t stack[STACK];
static ucontext_t here, there;

/* ---- the two games, and what the calls are given */

static slp_game game;
static slp_stores stores;
static slp_bytes block, codes, metadata;
static uint8_t out[1 << 20], file[1 << 20], mask[FRAMES], scratch[FRAMES], zeros[65536];
static size_t file_len, cut_len;   /* cut_len: without the last byte of its events */
static uint32_t cells[MOST_CELLS], ids[FRAMES], offsets[FRAMES + 1], rows[FRAMES * (SLP_POST_COLUMNS + 1)];

/* What slp_read fills, for either game. */
static slp_space space;
static uint32_t space_cells[2 * MOST_CELLS];
static uint8_t space_bytes[1 << 17];

static void smallest(void)
{
	game = (slp_game){ .frames = { .version = { 0, 1, 0 } } };
	stores = (slp_stores){ 0 };
	block = (slp_bytes){ zeros, 320 };
	codes = metadata = (slp_bytes){ zeros, 0 };
}

static slp_cells store(uint8_t family, size_t n)
{
	return (slp_cells){ cells, slp_columns(game.frames.version, family) * n };
}

/* Everything is given, eight players, an item and a row of each stage family a frame, and the longest start block. */
static void large(void)
{
	game = (slp_game){ .frames = { .version = { 3, 18, 0 }, .counts = { FRAMES, FRAMES, FRAMES, FRAMES, FRAMES }, .port_count = 4 } };
	game.start.is_pal.given = game.start.is_frozen_ps.given = game.start.scene.given = game.start.language.given = 1;
	game.start.match_info.given = 1;
	for (uint8_t port = 0; port < 4; port++) {
		slp_seat *seat = &game.start.seats[port];
		game.frames.ports[port] = (slp_port_column){ .port = port, .follower = 1 };
		seat->given = seat->ucf.given = seat->name_tag_given = seat->netplay.given = seat->netplay.suid_given = 1;
	}
	game.end = (slp_end){ .given = 1, .initiator = 255 };
	game.double_end = game.codes_given = game.metadata_given = 1;
	game.actual_size = 65536;
	for (uint32_t i = 0; i < FRAMES; i++) {
		ids[i] = (uint32_t)SLP_FIRST_FRAME_ID + i;
		offsets[i + 1] = i + 1;
	}
	slp_cells each = { offsets, FRAMES + 1 };
	stores = (slp_stores){ .ids = { ids, FRAMES }, .item_offsets = each, .fod_offsets = each, .whispy_offsets = each, .stadium_offsets = each };
	stores.starts = store(SLP_FAMILY_FRAME_START, FRAMES);
	stores.pres = store(SLP_FAMILY_PRE, SLOTS * FRAMES);
	stores.posts = store(SLP_FAMILY_POST, SLOTS * FRAMES);
	stores.ends = store(SLP_FAMILY_FRAME_END, FRAMES);
	stores.items = store(SLP_FAMILY_ITEM, FRAMES);
	stores.fods = store(SLP_FAMILY_FOD_PLATFORM, FRAMES);
	stores.whispys = store(SLP_FAMILY_DREAMLAND_WHISPY, FRAMES);
	stores.stadiums = store(SLP_FAMILY_STADIUM_TRANSFORMATION, FRAMES);
	block = (slp_bytes){ zeros, LARGEST_BLOCK };
	codes = (slp_bytes){ zeros, 65536 };
	metadata = (slp_bytes){ zeros, 65535 };
}

/* ---- the calls; what they answer is kept, so that none is left out */

static volatile size_t kept;

static void nothing(void) {}
static void call_write(void) { kept = slp_write_game(out, sizeof out, &game, &stores, block, codes, metadata).len; }
static void call_write_final(void) { kept = slp_write_final_game(out, sizeof out, scratch, sizeof scratch, &game, &stores, block, codes, metadata).len; }
static void call_walk(void) { kept = slp_walk(file, file_len).events; }
static void call_step_at(void) { kept = slp_step_at(file, file_len, slp_first_place(file, file_len)).next; }
static void call_rollbacks(void) { kept = 1u - slp_rollbacks(ids, game.frames.counts.frames, SLP_EXCEPT_LAST, mask, sizeof mask, scratch, sizeof scratch); }
static void call_write_frames(void) { kept = 1u + slp_write_frames(out, sizeof out, 0, game.frames, SLP_STORES(&stores), 0, game.frames.counts.frames).end; }
static void call_write_frame(void) { kept = 1u + slp_write_frame(out, sizeof out, 0, game.frames, SLP_STORES(&stores), 0).end; }
static void call_write_head(void) { kept = slp_write_game_head(out, sizeof out, &game, block, codes).end; }
static void call_write_end(void) { kept = slp_write_game_end(out, sizeof out, 0, &game, metadata).end; }
static void call_length_field(void) { kept = 1u + slp_length_field(file_len).bytes[3]; }
static void call_frame_row(void) { kept = 1u + slp_frame_row(game.frames, SLP_STORES(&stores), 0).row.port_count; }
static void call_pre_row(void) { kept = 1u + slp_pre_row(game.frames, SLP_STORES(&stores), 0, 0).row.state; }
static void call_post_row(void) { kept = 1u + slp_post_row(game.frames, SLP_STORES(&stores), 0, 0).row.state; }
static void call_item_row(void) { kept = 1u + slp_item_row(game.frames, SLP_STORES(&stores), 0).row.type_id; }
static void call_fod_platform_row(void) { kept = 1u + slp_fod_platform_row(game.frames, SLP_STORES(&stores), 0).row.platform; }
static void call_dreamland_whispy_row(void) { kept = 1u + slp_dreamland_whispy_row(game.frames, SLP_STORES(&stores), 0).row.direction; }
static void call_stadium_row(void) { kept = 1u + slp_stadium_transformation_row(game.frames, SLP_STORES(&stores), 0).row.type_id; }
static void call_rows(void) { kept = 1u + slp_rows(rows, sizeof rows / 4, game.frames, SLP_STORES(&stores), SLP_FAMILY_POST, 0, 0, game.frames.counts.frames).len; }
static void call_pre_of(void) { kept = 1u + slp_pre_of(cells, SLP_PRE_COLUMNS, game.frames.version, 1).state; }
static void call_post_of(void) { kept = 1u + slp_post_of(cells, SLP_POST_COLUMNS, game.frames.version, 1).state; }
static void call_columns(void) { kept = 1u + slp_columns(game.frames.version, SLP_FAMILY_POST); }
static void call_column(void) { kept = slp_column(SLP_FAMILY_POST, 0).width; }
static void call_refusal_words(void) { kept = (unsigned char)slp_refusal_words(SLP_NO_SUCH_ID).text[0]; }
static void call_room(void) { kept = slp_room(slp_plan_of(&game, block.len, codes.len, metadata.len)).bytes; }
static void call_check(void) { kept = 1 + slp_check(file, file_len).offset; }
static void call_measure_repair(void) { kept = 1 + slp_measure_repair(file, file_len).bytes; }
static void call_repair(void) { kept = 1 + slp_repair(file, file_len, out, sizeof out).bytes; }
static void call_fault(void) { kept = 1 + slp_fault(file, cut_len).offset; }
static void call_fault_words(void) { kept = (unsigned char)slp_fault_words(SLP_FAULT_STRANGE).text[0]; }
static void call_measure(void) { kept = slp_measure(file, file_len).places.block_at; }
static void call_read(void) { kept = slp_read_game(file, file_len, &space).places.block_at; }
static void call_first_place(void) { kept = slp_first_place(file, file_len); }
static void call_write_index(void) { kept = 1u + slp_write_index(file, file_len, out, sizeof out).len; }
static void call_accepts_index(void) { kept = slp_accepts_index(file, file_len, zeros, 9).refused; }
static void call_find_frame(void) { kept = slp_find_frame(zeros, 9, 0).refused; }

/* A map with eight others inside each other, as deep as it may be. */
enum { DEEP = 8 };
static slp_entry deep[DEEP];
static uint8_t deep_body[5 * DEEP];
static size_t deep_len;

static void call_write_map(void)
{
	for (int i = 0; i < DEEP; i++)
		deep[i] = (slp_entry){ SLP_ENTRY_MAP, 0, 1, i + 1 < DEEP, 0 };
	deep_len = slp_write_map(deep_body, sizeof deep_body, deep, SLP_CELLS(DEEP), (const uint8_t *)"k", 1, 1).len;
	kept = deep_len;
}

static void call_read_map(void) { kept = slp_read_map(deep_body, deep_len, deep, SLP_CELLS(DEEP)).entries; }

/* What a call may take: a little more than it does, and less than it would with a block of 760 bytes besides. */
static const struct {
	const char *name;
	void (*call)(void);
	size_t most;
} CALLS[] = {
	{ "slp_write", call_write, 9000 },
	{ "slp_write_final", call_write_final, 13300 },
	{ "slp_write_frames", call_write_frames, 6400 },
	{ "slp_write_frame", call_write_frame, 6400 },
	{ "slp_write_head", call_write_head, 5200 },
	{ "slp_write_end", call_write_end, 256 },
	{ "slp_length_field", call_length_field, 256 },
	{ "slp_walk", call_walk, 2800 },
	{ "slp_step_at", call_step_at, 2800 },
	{ "slp_check", call_check, 2900 },
	{ "slp_measure_repair", call_measure_repair, 3500 },
	{ "slp_repair", call_repair, 3600 },
	{ "slp_fault", call_fault, 8000 },
	{ "slp_measure", call_measure, 4900 },
	{ "slp_read", call_read, 16900 },
	{ "slp_write_index", call_write_index, 2800 },
	{ "slp_accepts_index", call_accepts_index, 2800 },
	{ "slp_find_frame", call_find_frame, 256 },
	{ "slp_write_map", call_write_map, 1900 },
	{ "slp_read_map", call_read_map, 1800 },
	{ "slp_rollbacks", call_rollbacks, 256 },
	{ "slp_frame_row", call_frame_row, 18700 },
	{ "slp_pre_row", call_pre_row, 3700 },
	{ "slp_post_row", call_post_row, 3700 },
	{ "slp_item_row", call_item_row, 3700 },
	{ "slp_fod_platform_row", call_fod_platform_row, 3700 },
	{ "slp_dreamland_whispy_row", call_dreamland_whispy_row, 3700 },
	{ "slp_stadium_transformation_row", call_stadium_row, 3700 },
	{ "slp_rows", call_rows, 3400 },
	{ "slp_pre_of", call_pre_of, 1400 },
	{ "slp_post_of", call_post_of, 1400 },
	{ "slp_columns", call_columns, 800 },
	{ "slp_column", call_column, 1900 },
	{ "slp_refusal_words", call_refusal_words, 2100 },
	{ "slp_fault_words", call_fault_words, 1400 },
	{ "slp_first_place", call_first_place, 256 },
	{ "slp_room", call_room, 1500 },
};

enum { ALL_CALLS = sizeof CALLS / sizeof *CALLS };

/* The bytes from the stack's top to the deepest one that is no longer painted. */
static size_t used(void (*call)(void))
{
	memset(stack, PAINT, sizeof stack);
	getcontext(&there);
	there.uc_stack.ss_sp = stack;
	there.uc_stack.ss_size = sizeof stack;
	there.uc_link = &here;
	makecontext(&there, call, 0);
	swapcontext(&here, &there);
	size_t untouched = 0;
	while (untouched < sizeof stack && stack[untouched] == PAINT)
		untouched++;
	return sizeof stack - untouched;
}

static size_t measured(size_t i, void (*make)(void))
{
	make();
	slp_written w = slp_write_game(file, sizeof file, &game, &stores, block, codes, metadata);
	if (w.refused) {
		fprintf(stderr, "stack: a game of its own is refused %u\n", w.refused);
		exit(2);
	}
	file_len = w.len;
	cut_len = slp_walk(file, file_len).place - 1;
	slp_lengths lengths = slp_measure(file, file_len).lengths;
	if (slp_space_cells(&lengths) > sizeof space_cells / 4 || slp_space_bytes(&lengths) > sizeof space_bytes) {
		fputs("stack: too little room for a game of its own\n", stderr);
		exit(2);
	}
	space = slp_space_in(&lengths, space_cells, space_bytes);
	kept = 0;
	size_t bytes = used(CALLS[i].call) - used(nothing);
	if (!kept) {
		fprintf(stderr, "stack: %s did not answer\n", CALLS[i].name);
		exit(2);
	}
	return bytes;
}

static int says(int wrong, const char *call, const char *what, size_t bytes)
{
	if (wrong)
		fprintf(stderr, "stack: %s takes %s: %zu bytes\n", call, what, bytes);
	return wrong;
}

int main(int argc, char **argv)
{
	int light = argc == 2 && strcmp(argv[1], "--light") == 0, check = light || (argc == 2 && strcmp(argv[1], "--check") == 0), wrong = 0;
	if (argc != 1 && !check) {
		fputs("usage: stack [--check | --light]\n", stderr);
		return 2;
	}
	if (!check)
		printf("%-32s %10s %10s\n", "bytes of stack", "smallest", "large");
	for (size_t i = 0; i < ALL_CALLS; i++) {
		size_t few = measured(i, smallest), many = measured(i, large);
		if (!check)
			printf("%-32s %10zu %10zu\n", CALLS[i].name, few, many);
		wrong |= check && says(many > few + LARGEST_BLOCK / 2, CALLS[i].name, "more for a long block", many);
		wrong |= check && !light && says(few > CALLS[i].most || many > CALLS[i].most, CALLS[i].name, "more than it may", few > many ? few : many);
	}
	if (check && !wrong)
		printf("stack: %d calls as deep as they may be, %d games each\n", ALL_CALLS, 2);
	return wrong;
}
