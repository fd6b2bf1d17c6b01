/* A game of 2.0, before placements and netplay names: four players in two teams, of whom one has a follower who is there for half of it, and one is gone
 * before its end. Its replay on standard output, for tool.sh. The way in which it ended may be given by number. */
#include <slp.h>
#include <stdio.h>
#include <stdlib.h>
#include <string.h>

enum { FRAMES = 1923, PORTS = 4, SLOTS = 5, FOLLOWED = 2, FOLLOWER = 3, LAST = 4, HALF = 960, GONE = 1500, PRES = 16, POSTS = 22, BLOCK = 418, ROOM = 4 << 20 };

static uint32_t ids[FRAMES], pres[SLOTS * PRES * FRAMES], posts[SLOTS * POSTS * FRAMES];
static uint8_t presence[SLOTS * ((FRAMES + 7) / 8)], block[BLOCK], out[ROOM];

static uint32_t bits(float value)
{
	uint32_t b;
	memcpy(&b, &value, sizeof b);
	return b;
}

/* Every slot loses a stock each time that its percent are over 120, and takes them at its own pace. */
static void fill(size_t slot, size_t i)
{
	static const size_t paces[SLOTS] = { 11, 7, 13, 13, 5 };
	size_t hits = i / (paces[slot] * 8), stocks = 4 - (hits * 9 / 120 < 4 ? hits * 9 / 120 : 4);
	int gone = (slot == FOLLOWER && i >= HALF) || (slot == LAST && i >= GONE);
	if (gone)
		return;
	presence[slot * ((FRAMES + 7) / 8) + i / 8] |= (uint8_t)(1u << i % 8);
	posts[(slot * POSTS + SLP_POST_PERCENT) * FRAMES + i] = bits((float)(hits * 9 % 120));
	posts[(slot * POSTS + SLP_POST_STOCKS) * FRAMES + i] = (uint32_t)(slot == LAST && i + 1 == GONE ? 0 : stocks);
}

static slp_game game_of(uint8_t method)
{
	static const uint8_t characters[PORTS] = { 20, 19, 14, 0 };
	slp_game g = { .frames = { .version = { 2, 0, 1 }, .counts = { .frames = FRAMES }, .port_count = PORTS } };
	for (uint8_t p = 0; p < PORTS; p++) {
		g.frames.ports[p] = (slp_port_column){ p, p == FOLLOWED, (FRAMES + 7) / 8, p == FOLLOWED ? (FRAMES + 7) / 8 : 0 };
		g.start.seats[p] = (slp_seat){ .given = 1, .character = characters[p], .stocks = 4, .team = { 1, p % 2, 0 }, .name_tag_given = 1 };
		g.start.seats[p].ucf.given = 1;
		g.start.seats[p].name_tag.len = (size_t)snprintf((char *)g.start.seats[p].name_tag.bytes, 16, "T%u", p);
	}
	g.start.stage = 3;
	g.start.is_teams = 1;
	g.start.is_pal.given = g.start.is_frozen_ps.given = 1;
	g.end = (slp_end){ .given = 1, .method = method, .initiator = 255 };
	return g;
}

int main(int argc, char **argv)
{
	slp_game g = game_of((uint8_t)(argc > 1 ? atoi(argv[1]) : 2));
	slp_stores s = { .ids = { ids, FRAMES }, .pres = { pres, SLOTS * PRES * FRAMES }, .posts = { posts, SLOTS * POSTS * FRAMES }, .presence = { presence, sizeof presence } };
	slp_bytes start = { block, BLOCK }, none = { NULL, 0 };
	for (size_t i = 0; i < FRAMES; i++) {
		ids[i] = (uint32_t)(SLP_FIRST_FRAME_ID + (int)i);
		for (size_t slot = 0; slot < SLOTS; slot++)
			fill(slot, i);
	}
	slp_written w = slp_write_game(out, ROOM, &g, &s, start, none, none);
	if (w.refused)
		fprintf(stderr, "four_players: refused %u\n", w.refused);
	return w.refused || fwrite(out, 1, w.len, stdout) != w.len;
}
