/* slp info: a line a game. */
#include <errno.h>
#include <inttypes.h>
#include <stdlib.h>
#include <string.h>

#include "tool.h"

enum { A_SECOND = 60, MOST_PERCENT = 10000 };

/* A name, or what it is a number of, and the number. */
static void put_named(const char *name, const char *what, unsigned number)
{
	if (name)
		fputs(name, out());
	else
		fprintf(out(), "%s %u", what, number);
}

/* As the game shows it: whole percent. */
static void put_percent(float percent)
{
	if (percent >= 0 && percent < MOST_PERCENT)
		fprintf(out(), ", %d%%", (int)percent);
	else
		fputs(", ?%", out());
}

static void put_standing(const player *p)
{
	fputs(" (", out());
	put_named(character_name(p->seat->character), "character", p->seat->character);
	if (p->seat->kind == SLP_CPU)
		fputs(", CPU", out());
	if (p->seen && p->stocks == 0) {
		fputs(", out", out());
	} else if (p->seen) {
		fprintf(out(), ", %u stock%s", p->stocks, p->stocks == 1 ? "" : "s");
		put_percent(p->percent);
	}
	fputc(')', out());
}

/* Team mates are joined, others stand against each other. */
static void put_players(const game *g)
{
	for (int k = 0; k < g->count; k++) {
		fputs(k == 0 ? ", " : same_team(&g->players[k - 1], &g->players[k]) ? " and " : " vs ", out());
		put_player(out(), &g->players[k]);
		put_standing(&g->players[k]);
	}
}

static void put_winners(const game *g)
{
	const char *before = ", winner: ";
	for (int k = 0; k < g->count; k++)
		if (g->players[k].won) {
			fputs(before, out());
			put_player(out(), &g->players[k]);
			before = " and ";
		}
}

/* Who ended it before its end, where somebody did. */
static void put_end(const game *g)
{
	const slp_end *end = &g->replay->opened.game.end;
	fputs(", end: ", out());
	put_named(end_name(end->method), "method", end->method);
	for (int k = 0; k < g->count; k++)
		if (g->players[k].port == end->initiator) {
			fputs(" by ", out());
			put_player(out(), &g->players[k]);
		}
	put_winners(g);
}

static void print_game(const char *path, const game *g, outcome how)
{
	const slp_game *s = &g->replay->opened.game;
	print_prefix(path);
	if (g->clock >= 0)
		fprintf(out(), "%" PRId64 ":%02d on ", g->clock / A_SECOND / 60, (int)(g->clock / A_SECOND % 60));
	else
		fputs("?:?? on ", out());
	put_named(stage_name(s->start.stage), "stage", s->start.stage);
	put_players(g);
	if (s->end.given)
		put_end(g);
	else if (how == IS_WHOLE)
		fputs(", no end", out());
	fputs(how == IS_CUT ? ", cut\n" : "\n", out());
}

/* ---- as JSON */

static void json_named(json *j, const char *what, const char *name, unsigned number)
{
	json_begin(j, what, '{');
	json_number(j, "id", number);
	if (name)
		json_words(j, "name", name);
	else
		json_null(j, "name");
	json_end(j, '}');
}

static void json_japanese(json *j, const char *what, int given, const slp_text *text)
{
	name_text t = from_japanese(text->bytes, text->len);
	if (given && t.len)
		json_text(j, what, t.bytes, t.len);
	else
		json_null(j, what);
}

static void json_standing(json *j, const player *p)
{
	uint32_t bits;
	memcpy(&bits, &p->percent, sizeof bits);
	if (p->seen) {
		json_number(j, "stocks", p->stocks);
		json_real(j, "percent", bits);
	} else {
		json_null(j, "stocks");
		json_null(j, "percent");
	}
}

static void json_player(json *j, const game *g, const player *p)
{
	static const char *const kinds[] = { [SLP_HUMAN] = "human", [SLP_CPU] = "cpu", [SLP_DEMO] = "demo" };
	const slp_end *end = &g->replay->opened.game.end;
	json_begin(j, NULL, '{');
	json_number(j, "port", p->port);
	if (p->name.len)
		json_text(j, "name", p->name.bytes, p->name.len);
	else
		json_null(j, "name");
	json_japanese(j, "tag", p->seat->name_tag_given, &p->seat->name_tag);
	json_japanese(j, "code", p->seat->netplay.given, &p->seat->netplay.code);
	json_named(j, "character", character_name(p->seat->character), p->seat->character);
	json_words(j, "type", kinds[p->seat->kind < 3 ? p->seat->kind : SLP_HUMAN]);
	if (p->seat->team.given)
		json_number(j, "team", p->seat->team.color);
	else
		json_null(j, "team");
	json_standing(j, p);
	if (end->given && end->placed[p->port])
		json_number(j, "placement", end->placements[p->port]);
	else
		json_null(j, "placement");
	json_mark(j, "won", p->won);
	json_end(j, '}');
}

static void json_ending(json *j, const slp_end *end)
{
	if (!end->given) {
		json_null(j, "end");
		return;
	}
	json_begin(j, "end", '{');
	json_number(j, "method", end->method);
	if (end_name(end->method))
		json_words(j, "name", end_name(end->method));
	else
		json_null(j, "name");
	if (end->initiator < PLAYERS)
		json_number(j, "initiator", end->initiator);
	else
		json_null(j, "initiator");
	json_end(j, '}');
}

static void json_frames(json *j, const game *g)
{
	json_count(j, "frames", g->replay->opened.game.frames.counts.frames);
	if (g->clock >= 0) {
		json_count(j, "replaced", g->replaced_count);
		json_number(j, "clock", g->clock);
	} else {
		json_null(j, "replaced");
		json_null(j, "clock");
	}
}

static void json_game(json *j, const game *g)
{
	const slp_game *s = &g->replay->opened.game;
	const char *start_at[] = { "startAt" };
	slp_bytes date = metadata_text(g->replay, start_at, 1);
	char version[16];
	snprintf(version, sizeof version, "%u.%u.%u", s->frames.version.major, s->frames.version.minor, s->frames.version.patch);
	json_words(j, "version", version);
	json_mark(j, "partly", g->replay->opened.partly);
	if (date.len)
		json_text(j, "start_at", date.p, date.len);
	else
		json_null(j, "start_at");
	json_frames(j, g);
	json_named(j, "stage", stage_name(s->start.stage), s->start.stage);
	json_begin(j, "players", '[');
	for (int k = 0; k < g->count; k++)
		json_player(j, g, &g->players[k]);
	json_end(j, ']');
	json_ending(j, &s->end);
}

/* A game, where there is one to tell of. */
static void print_json(const char *path, const replay *r, const game *g, outcome how)
{
	json j = json_file(path);
	if (how == IS_REFUSED)
		json_refused(&j, r->opened.refused, r->opened.offset);
	else
		json_mark(&j, "whole", how == IS_WHOLE);
	if (how != IS_WHOLE)
		json_fault(&j, r->file.bytes, r->file.len);
	if (g)
		json_game(&j, g);
	json_line(&j);
}

/* ---- a file */

static void print_line(const char *path, const replay *r, const game *g, outcome how)
{
	progress_clear();
	if (g) {
		print_game(path, g, how);
		return;
	}
	print_prefix(path);
	if (how == IS_REFUSED)
		fprintf(out(), "refused %u %zu\n", r->opened.refused, r->opened.offset);
	else
		fputs("cut, before its start can be read\n", out());
}

static outcome tell(const request *q, const char *path, const replay *r, outcome how)
{
	game g;
	int told = how != IS_REFUSED && r->cells;
	if (told && describe(r, &g) != WELL)
		return unread(q, path, ENOMEM);
	if (q->json)
		print_json(path, r, told ? &g : NULL, how);
	else
		print_line(path, r, told ? &g : NULL, how);
	complain_part(input_name(path), r, how);
	if (told)
		forget(&g);
	return how;
}

static outcome info_of(const request *q, const char *path)
{
	replay r;
	int wrong;
	outcome how = open_part(path, &r, &wrong);
	how = how == IS_UNREAD ? unread(q, path, wrong) : tell(q, path, &r, how);
	close_replay(&r);
	return how;
}

int show_info(const request *q)
{
	return each_file(q, info_of);
}
