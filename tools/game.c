/* Who played a game, how long, how they stood at its end, and who won. */
#define _GNU_SOURCE   /* memmem */
#include <stdlib.h>
#include <string.h>

#include "tool.h"

static uint32_t post_cell(const replay *r, size_t slot, size_t column, size_t frame)
{
	const slp_frames *f = &r->opened.game.frames;
	return r->space.posts.p[(slot * slp_columns(f->version, SLP_FAMILY_POST) + column) * f->counts.frames + frame];
}

int is_present(const replay *r, size_t slot, size_t frame)
{
	size_t frames = r->opened.game.frames.counts.frames;
	return r->space.presence.p[slot * ((frames + 7) / 8) + frame / 8] >> frame % 8 & 1;
}

static size_t slot_of(const slp_frames *f, unsigned port)
{
	size_t slot = 0;
	for (size_t k = 0; k < f->port_count; slot += f->ports[k].follower ? 2 : 1, k++)
		if (f->ports[k].port == port)
			return slot;
	return NO_SLOT;
}

/* The last frame in which a player is, and which no later one replaced. */
static void find_last(const game *g, player *p)
{
	const replay *r = g->replay;
	for (size_t i = r->opened.game.frames.counts.frames; i-- > 0 && !p->seen;) {
		if (!is_present(r, p->slot, i) || (g->replaced && g->replaced[i]))
			continue;
		uint32_t bits = post_cell(r, p->slot, SLP_POST_PERCENT, i);
		p->seen = 1;
		p->stocks = post_cell(r, p->slot, SLP_POST_STOCKS, i);
		memcpy(&p->percent, &bits, sizeof p->percent);
	}
}

/* Before names stood in the start block, a console or Dolphin put them into the metadata. */
static name_text name_in_metadata(const replay *r, unsigned port)
{
	char number[2] = { (char)('0' + port), 0 };
	const char *netplay[] = { "players", number, "names", "netplay" }, *code[] = { "players", number, "names", "code" };
	name_text t = { .len = 0 };
	slp_bytes b = metadata_text(r, netplay, 4);
	if (b.len == 0)
		b = metadata_text(r, code, 4);
	t.len = b.len < sizeof t.bytes ? b.len : sizeof t.bytes;
	if (t.len)
		memcpy(t.bytes, b.p, t.len);
	return t;
}

static name_text name_of(const replay *r, const slp_seat *seat, unsigned port)
{
	const slp_text *t = seat->netplay.given && seat->netplay.name.len ? &seat->netplay.name : &seat->name_tag;
	return t->len ? from_japanese(t->bytes, t->len) : name_in_metadata(r, port);
}

int same_team(const player *a, const player *b)
{
	return a->seat->team.given && b->seat->team.given && a->seat->team.color == b->seat->team.color;
}

/* Behind the players of its team who are there already, else at the end. */
static void add_player(game *g, player p)
{
	int at = g->count;
	for (int k = g->count; k > 0 && at == g->count; k--)
		if (same_team(&g->players[k - 1], &p))
			at = k;
	memmove(&g->players[at + 1], &g->players[at], (size_t)(g->count - at) * sizeof p);
	g->players[at] = p;
	g->count++;
}

/* More stocks, or as many and fewer percent; what is no number is no fewer. */
static int better(const player *a, const player *b)
{
	return a->seen && b->seen && (a->stocks != b->stocks ? a->stocks > b->stocks : a->percent < b->percent);
}

/* From the last rows: better than everybody of another team. */
static int won_by_rows(const game *g, const player *p)
{
	for (int k = 0; k < g->count; k++)
		if (&g->players[k] != p && !same_team(&g->players[k], p) && !better(p, &g->players[k]))
			return 0;
	return g->count > 1;
}

static int placed_first(const slp_end *end, const player *p)
{
	return end->placed[p->port] && end->placements[p->port] == 0;
}

/* A match that was played to its end has a winner: by its placements, or, where it has none, by the last rows; with a player all of a team win. */
static void find_winners(game *g)
{
	const slp_end *end = &g->replay->opened.game.end;
	int placed = 0, first[PLAYERS];
	if (!end->given || end->method < 1 || end->method > 3)
		return;
	for (int k = 0; k < g->count; k++)
		placed |= placed_first(end, &g->players[k]);
	for (int k = 0; k < g->count; k++)
		first[k] = placed ? placed_first(end, &g->players[k]) : won_by_rows(g, &g->players[k]);
	for (int k = 0; k < g->count; k++)
		for (int m = 0; m < g->count; m++)
			g->players[k].won |= first[m] && (m == k || same_team(&g->players[k], &g->players[m]));
}

static void count_frames(game *g)
{
	const replay *r = g->replay;
	g->clock = g->replaced ? 0 : -1;
	for (size_t i = 0; g->replaced && i < r->opened.game.frames.counts.frames; i++) {
		g->replaced_count += g->replaced[i];
		g->clock += !g->replaced[i] && (int32_t)r->space.ids.p[i] >= 0;
	}
}

int describe(const replay *r, game *g)
{
	*g = (game){ .replay = r };
	if (find_replaced(r, &g->replaced) == SLP_OK && !g->replaced)
		return FAILED;
	count_frames(g);
	for (unsigned port = 0; port < PLAYERS; port++) {
		const slp_seat *seat = &r->opened.game.start.seats[port];
		player p = { .seat = seat, .port = port, .slot = slot_of(&r->opened.game.frames, port) };
		if (!seat->given)
			continue;
		p.name = name_of(r, seat, port);
		if (p.slot != NO_SLOT)
			find_last(g, &p);
		add_player(g, p);
	}
	find_winners(g);
	return WELL;
}

void forget(game *g)
{
	free(g->replaced);
}

/* Whether a name could be taken for what the tool says: it has a mark of its lines, or one of its words between spaces, or begins as a port does. */
static int misleading(const name_text *t)
{
	static const char *const words[] = { "(", ")", ",", ":", " vs ", " and ", " by " };
	for (size_t k = 0; k < sizeof words / sizeof *words; k++)
		if (memmem(t->bytes, t->len, words[k], strlen(words[k])))
			return 1;
	return t->bytes[0] == ' ' || t->bytes[t->len - 1] == ' ' || (t->len >= 5 && memcmp(t->bytes, "port ", 5) == 0);
}

void put_player(FILE *to, const player *p)
{
	if (p->name.len == 0)
		fprintf(to, "port %u", p->port);
	else if (plain(p->name.bytes, p->name.len) && !misleading(&p->name))
		fwrite(p->name.bytes, 1, p->name.len, to);
	else
		put_text(to, p->name.bytes, p->name.len);
}
