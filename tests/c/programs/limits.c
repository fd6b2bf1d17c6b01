/* Every maximum exactly, and one above. The stores are pages of zeros that cannot be written, between pages that cannot be touched. */
#include <stdio.h>
#include <stdlib.h>
#include <string.h>
#include <sys/mman.h>
#include <unistd.h>

#include "check.h"
#include "columns.h"
#include "guard.h"

enum { MAPS = 32 };

static struct {
	void *base;
	size_t bytes;
} maps[MAPS];
static size_t mapped;

/* So many bytes that end where a page begins that cannot be touched. */
static uint8_t *map(size_t bytes, int protection)
{
	size_t page = (size_t)sysconf(_SC_PAGESIZE), inner = (bytes + page - 1) / page * page, all = inner + 2 * page;
	uint8_t *base = mmap(NULL, all, PROT_NONE, MAP_PRIVATE | MAP_ANONYMOUS | MAP_NORESERVE, -1, 0);
	if (base == MAP_FAILED || mapped == MAPS || (inner && mprotect(base + page, inner, protection) != 0)) {
		perror("limits: no memory");
		exit(2);
	}
	maps[mapped].base = base;
	maps[mapped++].bytes = all;
	return base + page + inner - bytes;
}

static void unmap_all(void)
{
	while (mapped) {
		mapped--;
		munmap(maps[mapped].base, maps[mapped].bytes);
	}
}

static slp_cells zeros(size_t cells)
{
	return (slp_cells){ (const uint32_t *)(const void *)map(cells * 4, PROT_READ), cells };
}

static slp_bytes zero_bytes(size_t bytes)
{
	return (slp_bytes){ map(bytes, PROT_READ), bytes };
}

/* Offsets of so many frames, all rows in the last one. */
static slp_cells offsets(size_t frames, size_t rows)
{
	uint32_t *o = (uint32_t *)(void *)map((frames + 1) * 4, PROT_READ | PROT_WRITE);
	o[frames] = (uint32_t)rows;
	return (slp_cells){ o, frames + 1 };
}

/* A game whose cells are all zero. */
static input zero_game(slp_version v, slp_counts c, size_t ports)
{
	input in;
	memset(&in, 0, sizeof in);
	slp_frames *f = &in.game.frames;
	slp_stores *s = &in.stores;
	f->version = v;
	f->counts = c;
	f->port_count = ports;
	for (size_t i = 0; i < ports; i++)
		f->ports[i] = (slp_port_column){ .port = (uint8_t)i, .follower = 1 };
	in.game.start.is_pal.given = in.game.start.is_frozen_ps.given = in.game.start.scene.given = 1;
	in.game.start.language.given = in.game.start.match_info.given = 1;
	s->ids = zeros(c.frames);
	s->starts = zeros(columns_of(FRAME_START, v) * c.frames);
	s->pres = zeros(2 * ports * columns_of(PRE, v) * c.frames);
	s->posts = zeros(2 * ports * columns_of(POST, v) * c.frames);
	s->ends = zeros(columns_of(FRAME_END, v) * c.frames);
	s->items = zeros(columns_of(ITEM, v) * c.items);
	s->fods = zeros(columns_of(FOD, v) * c.fods);
	s->whispys = zeros(columns_of(WHISPY, v) * c.whispys);
	s->stadiums = zeros(columns_of(STADIUM, v) * c.stadiums);
	if (has_family(ITEM, v))
		s->item_offsets = offsets(c.frames, c.items);
	if (has_family(FOD, v)) {
		s->fod_offsets = offsets(c.frames, c.fods);
		s->whispy_offsets = offsets(c.frames, c.whispys);
		s->stadium_offsets = offsets(c.frames, c.stadiums);
	}
	in.block = zero_bytes(block_length(v));
	return in;
}

static slp_written write_to(const input *in, uint8_t *out, size_t room)
{
	return slp_write_game(out, room, &in->game, &in->stores, in->block, in->codes, in->metadata);
}

/* Accepted with exactly the room that it needs, refused 12 with one byte less; then walked. */
static void check_accepted(const input *in, size_t len, size_t events)
{
	uint8_t *out = map(len, PROT_READ | PROT_WRITE);
	CHECK_EQ(write_to(in, out, len - 1).refused, 12);
	slp_written w = write_to(in, out, len);
	CHECK_EQ(w.refused, 0);
	CHECK_EQ(w.len, len);
	check_room(in, len);
	slp_walked k = slp_walk(out, len);
	CHECK_EQ(k.refused, 0);
	CHECK_EQ(k.events, events);
	CHECK_EQ(k.stray, 0);
	CHECK_EQ(k.whole, 1);
}

/* A maximum; where fewer rounds are asked for, a small number in its place. */
static size_t largest(size_t maximum)
{
	return light ? 700 : maximum;
}

static const slp_version NEWEST = { 3, 18, 0 };

/* Head, table, GameStart and the last byte, at 3.18 without codes. */
enum { FRONT = 15 + 32 + 761, LAST = 1 };

static void frames(void)
{
	size_t n = largest(SLP_MAX_FRAMES);
	input in = zero_game(NEWEST, (slp_counts){ .frames = n }, 0);
	check_accepted(&in, FRONT + (13 + 9) * n + LAST, 1 + 2 * n);
	in.game.frames.counts.frames = SLP_MAX_FRAMES + 1;
	CHECK_EQ(write_to(&in, NULL, 0).refused, 2);
	unmap_all();
	in = zero_game((slp_version){ 0, 1, 0 }, (slp_counts){ .frames = n }, 0);
	check_accepted(&in, 351, 1);
	unmap_all();
	in = zero_game((slp_version){ 0, 1, 0 }, (slp_counts){ .frames = SLP_MAX_FRAMES + 1 }, 0);
	CHECK_EQ(write_to(&in, NULL, 0).refused, 2);
	unmap_all();
}

static void items(void)
{
	size_t n = largest(SLP_MAX_ITEMS);
	input in = zero_game((slp_version){ 3, 0, 0 }, (slp_counts){ .frames = 1, .items = n }, 0);
	check_accepted(&in, 15 + 23 + 419 + 9 + 5 + 38 * n + LAST, 3 + n);
	in.game.frames.counts.items = SLP_MAX_ITEMS + 1;
	CHECK_EQ(write_to(&in, NULL, 0).refused, 2);
	unmap_all();
}

/* One frame with so many rows, which take so many bytes each. */
static void check_stage(slp_counts c, size_t rows, size_t bytes)
{
	c.frames = 1;
	input in = zero_game(NEWEST, c, 0);
	check_accepted(&in, FRONT + 13 + 9 + rows * bytes + LAST, 3 + rows);
	unmap_all();
}

static void stage_rows(void)
{
	size_t n = largest(SLP_MAX_STAGE_ROWS);
	check_stage((slp_counts){ .fods = n }, n, 10);
	check_stage((slp_counts){ .whispys = n }, n, 6);
	check_stage((slp_counts){ .stadiums = n }, n, 9);
}

static void codes(void)
{
	input in = zero_game(NEWEST, (slp_counts){ 0 }, 0);
	size_t blocks = largest(SLP_MAX_CODES / 512);
	in.codes = zero_bytes(512 * blocks);
	in.game.codes_given = 1;
	in.game.actual_size = (uint32_t)(512 * blocks);
	check_accepted(&in, FRONT + 6 + 517 * blocks + LAST, 1 + blocks);
	in.game.actual_size -= 511;
	CHECK_EQ(write_to(&in, NULL, 0).refused, 12);
	in.game.actual_size--;
	CHECK_EQ(write_to(&in, NULL, 0).refused, 10);
	in.codes = zero_bytes(SLP_MAX_CODES + 1);
	CHECK_EQ(write_to(&in, NULL, 0).refused, 2);
	in.game.codes_given = 0;
	CHECK_EQ(write_to(&in, NULL, 0).refused, 12);
	unmap_all();
}

static void metadata(void)
{
	input in = zero_game(NEWEST, (slp_counts){ 0 }, 0);
	in.game.metadata_given = 1;
	in.metadata = zero_bytes(SLP_MAX_METADATA);
	check_accepted(&in, FRONT + 12 + SLP_MAX_METADATA + LAST, 1);
	in.metadata = zero_bytes(SLP_MAX_METADATA + 1);
	CHECK_EQ(write_to(&in, NULL, 0).refused, 2);
	unmap_all();
}

/* Four ports with followers and every count at its maximum: nothing but the room is refused. */
static void all_together(void)
{
	size_t stages = largest(SLP_MAX_STAGE_ROWS);
	slp_counts c = { largest(SLP_MAX_FRAMES), largest(SLP_MAX_ITEMS), stages, stages, stages };
	input in = zero_game(NEWEST, c, 4);
	in.game.codes_given = in.game.metadata_given = 1;
	in.game.actual_size = SLP_MAX_CODES;
	in.codes = zero_bytes(SLP_MAX_CODES);
	in.metadata = zero_bytes(SLP_MAX_METADATA);
	CHECK_EQ(write_to(&in, NULL, 0).refused, 12);
	in.metadata.len++;
	CHECK_EQ(write_to(&in, NULL, 0).refused, 2);
	unmap_all();
}

/* All frames have the same id, so that the mask has one 0. */
static void masks(void)
{
	size_t n = largest(SLP_MAX_FRAMES);
	slp_cells ids = zeros(n);
	uint8_t *mask = map(n, PROT_READ | PROT_WRITE), *scratch = map(124, PROT_READ | PROT_WRITE);
	CHECK_EQ(slp_rollbacks(ids.p, n, SLP_EXCEPT_FIRST, mask, n, scratch, 124), 0);
	CHECK(mask[0] == 0 && mask[1] == 1 && mask[n - 1] == 1 && scratch[122] == 0 && scratch[123] == 1);
	CHECK_EQ(slp_rollbacks(ids.p, n, SLP_EXCEPT_LAST, mask, n, scratch, 124), 0);
	CHECK(mask[0] == 1 && mask[n - 2] == 1 && mask[n - 1] == 0);
	ids = zeros(SLP_MAX_FRAMES + 1);
	CHECK_EQ(slp_rollbacks(ids.p, SLP_MAX_FRAMES + 1, SLP_EXCEPT_FIRST, NULL, 0, NULL, 0), 2);
	CHECK_EQ(slp_rollbacks(ids.p, SLP_MAX_FRAMES, SLP_EXCEPT_FIRST, NULL, 0, NULL, 0), 12);
	unmap_all();
}

/* The ids from the first to the last, once each. */
static void all_ids(void)
{
	size_t n = largest(SLP_MAX_FRAMES);
	uint32_t *ids = (uint32_t *)(void *)map(4 * n, PROT_READ | PROT_WRITE);
	uint8_t *mask = map(n, PROT_READ | PROT_WRITE), *scratch = map(n, PROT_READ | PROT_WRITE);
	size_t repeats = 0, seen = 0;
	for (size_t i = 0; i < n; i++)
		ids[i] = (uint32_t)(i - 123);
	CHECK_EQ(slp_rollbacks(ids, n, SLP_EXCEPT_LAST, mask, n, scratch, n), 0);
	for (size_t i = 0; i < n; i++) {
		repeats += mask[i];
		seen += scratch[i];
	}
	CHECK_EQ(repeats, 0);
	CHECK_EQ(seen, n);
	CHECK_EQ(slp_rollbacks(ids, n, SLP_EXCEPT_LAST, mask, n, scratch, n - 1), 12);
	unmap_all();
}

/* A file whose declared length is the largest there is; most of it is not there. */
static void longest_length(void)
{
	uint8_t *file = map(100, PROT_READ | PROT_WRITE);
	static const uint8_t head[20] = { 0x7b, 0x55, 0x03, 0x72, 0x61, 0x77, 0x5b, 0x24, 0x55, 0x23, 0x6c, 255, 255, 255, 255,
	                                  0x35, 4, 0, 0, 0 };
	memcpy(file, head, sizeof head);
	slp_walked w = slp_walk(file, 100);
	CHECK_EQ(w.refused, 0);
	CHECK_EQ(w.events, 80);
	CHECK_EQ(w.whole, 0);
	CHECK_EQ(w.place, 100);
	unmap_all();
}

int main(int argc, char **argv)
{
	begin("limits", argc, argv);
	test("frames", frames);
	test("items", items);
	test("stage rows", stage_rows);
	test("codes", codes);
	test("metadata", metadata);
	test("all together", all_together);
	test("masks", masks);
	test("all ids", all_ids);
	test("the longest length", longest_length);
	return finish();
}
