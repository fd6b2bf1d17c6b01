/* slp picture: a game as SVG. Time goes to the right, by the frames that no rollback replaced: above the percent of each player with a ring where a stock
 * falls, below a lane for each player with a bar for each stock, and one for the rollbacks. Players differ by colour and by the dashes of their lines. */
#include <errno.h>
#include <stdlib.h>
#include <string.h>

#include "tool.h"

/* Where things stand: the plot's left, right, top and base; the lanes below it. */
enum { WIDE = 960, LEFT = 56, RIGHT = 936, TOP = 84, BASE = 304, FIRST_LANE = 340, LANE = 62, BARS = 30, ROLLBACK_LANE = 48, MARK = 10, RING = 6 };

/* Percent are drawn up to this; stocks as so many bars at most; and a second has so many frames. */
enum { MOST_PERCENT = 999, MOST_BARS = 16, A_SECOND = 60 };

/* A player from one place of the picture to another: `until` is the last at which it was seen so. */
typedef struct {
	int x, until;
	float percent;
	unsigned stocks;
	int fell;     /* a stock was lost here */
	int begins;   /* the player was not there before */
} point;

/* Two at each place: what was before a stock fell, and after it. */
enum { MOST_POINTS = 2 * (RIGHT - LEFT + 1) };

typedef struct {
	point points[MOST_POINTS];
	int count;
	unsigned most_stocks;
} track;

typedef struct {
	const game *g;
	outcome how;
	int64_t first, last;   /* the moments of the first and the last frame */
	int top;               /* the percent at the plot's top */
	track tracks[PLAYERS];
} drawing;

/* ---- what is drawn */

/* By ids; of frames whose ids are none of a game, by their order. */
static int64_t moment(const game *g, size_t i)
{
	return g->replaced ? (int32_t)g->replay->space.ids.p[i] : (int64_t)i;
}

static int is_drawn(const game *g, size_t i)
{
	return !g->replaced || !g->replaced[i];
}

static int x_at(const drawing *d, int64_t at)
{
	int64_t all = d->last - d->first;
	return LEFT + (int)((at - d->first) * (RIGHT - LEFT) / (all ? all : 1));
}

static int y_at(const drawing *d, float percent)
{
	int whole = percent > 0 ? percent < MOST_PERCENT ? (int)percent : MOST_PERCENT : 0;
	return BASE - whole * (BASE - TOP) / d->top;
}

static void find_span(drawing *d)
{
	size_t frames = d->g->replay->opened.game.frames.counts.frames;
	int any = 0;
	for (size_t i = 0; i < frames; i++) {
		int64_t at = moment(d->g, i);
		if (!any || at < d->first)
			d->first = at;
		if (!any || at > d->last)
			d->last = at;
		any = 1;
	}
}

/* A frame more of a player: within a place the last one counts, but for what was before a stock fell. */
static void see(track *t, point now)
{
	point *last = t->count ? &t->points[t->count - 1] : NULL;
	if (now.stocks > t->most_stocks)
		t->most_stocks = now.stocks;
	now.fell = last && !now.begins && now.stocks < last->stocks;
	now.until = now.x;
	if (last && now.x < last->until)
		return;
	int merge = last && now.x == last->x && (last->fell || !now.fell);
	int same = last && !now.begins && now.percent == last->percent && now.stocks == last->stocks;
	if (merge) {
		last->percent = now.percent;
		last->stocks = now.stocks;
	} else if (same) {
		last->until = now.x;
	} else if (t->count < MOST_POINTS) {
		t->points[t->count++] = now;
	}
}

static void follow(drawing *d, int k)
{
	const replay *r = d->g->replay;
	size_t frames = r->opened.game.frames.counts.frames, slot = d->g->players[k].slot;
	size_t columns = slp_columns(r->opened.game.frames.version, SLP_FAMILY_POST);
	const uint32_t *posts = r->space.posts.p;
	int absent = 1;
	for (size_t i = 0; slot != NO_SLOT && i < frames; i++) {
		point now = { .x = x_at(d, moment(d->g, i)), .begins = absent };
		if (!is_drawn(d->g, i))
			continue;
		absent = !is_present(r, slot, i);
		if (absent)
			continue;
		memcpy(&now.percent, &posts[(slot * columns + SLP_POST_PERCENT) * frames + i], sizeof now.percent);
		now.stocks = posts[(slot * columns + SLP_POST_STOCKS) * frames + i];
		see(&d->tracks[k], now);
	}
}

/* The plot reaches to the next 50 above all percent, and to 100 at least. */
static void find_top(drawing *d)
{
	float most = 0;
	for (int k = 0; k < d->g->count; k++)
		for (int i = 0; i < d->tracks[k].count; i++)
			if (d->tracks[k].points[i].percent > most)
				most = d->tracks[k].points[i].percent;
	d->top = most < 100 ? 100 : most < MOST_PERCENT ? ((int)most / 50 + 1) * 50 : MOST_PERCENT;
}

static int lane_top(int lane)
{
	return FIRST_LANE + lane * LANE;
}

/* ---- how it is drawn */

static void put_called(const player *p)
{
	if (p->name.len)
		put_xml_text(stdout, p->name.bytes, p->name.len);
	else
		printf("port %u", p->port);
}

/* A name of the tool's own tables, or a number. */
static void put_named(const char *name, const char *what, unsigned number)
{
	if (name)
		put_xml_text(stdout, (const uint8_t *)name, strlen(name));
	else
		printf("%s %u", what, number);
}

static void put_players(const game *g)
{
	for (int k = 0; k < g->count; k++) {
		fputs(k == 0 ? "" : same_team(&g->players[k - 1], &g->players[k]) ? " and " : " vs ", stdout);
		put_called(&g->players[k]);
	}
	if (g->count)
		fputs(", ", stdout);
	put_named(stage_name(g->replay->opened.game.start.stage), "stage", g->replay->opened.game.start.stage);
}

/* Colours that differ for colour-blind people too (Okabe and Ito's), on white and on dark. */
static void put_head(const drawing *d)
{
	int high = lane_top(d->g->count) + (d->g->replaced_count ? ROLLBACK_LANE : MARK);
	printf("<svg xmlns=\"http://www.w3.org/2000/svg\" viewBox=\"0 0 %d %d\" width=\"%d\" height=\"%d\" role=\"img\">\n<title>", WIDE, high, WIDE, high);
	put_players(d->g);
	fputs("</title>\n"
	      "<style>\n"
	      "text{font:13px system-ui,sans-serif;fill:#24292f}.h{font-size:17px;font-weight:600}.s{fill:#57606a}.e{text-anchor:end}.m{text-anchor:middle}\n"
	      ".b,.r{fill:#fff}.g{stroke:#d8dee4;fill:none}.k{stroke:#57606a;fill:none}.l{fill:none;stroke-width:2}.r{stroke-width:2.5}\n"
	      ".p0{stroke:#0072b2}.p1{stroke:#d55e00;stroke-dasharray:7 3}.p2{stroke:#007a5a;stroke-dasharray:2 3}.p3{stroke:#a8568a;stroke-dasharray:10 3 2 3}\n"
	      ".r{stroke-dasharray:none}.t{fill:#57606a}.f0{fill:#0072b2}.f1{fill:#d55e00}.f2{fill:#007a5a}.f3{fill:#a8568a}\n"
	      "@media (prefers-color-scheme:dark){\n"
	      "text{fill:#e6edf3}.s{fill:#9da7b1}.b,.r{fill:#0d1117}.g{stroke:#30363d}.k{stroke:#9da7b1}.t{fill:#9da7b1}\n"
	      ".p0{stroke:#56b4e9}.p1{stroke:#e69f00}.p2{stroke:#2fbf94}.p3{stroke:#e08fbd}.f0{fill:#56b4e9}.f1{fill:#e69f00}.f2{fill:#2fbf94}.f3{fill:#e08fbd}\n"
	      "}\n"
	      "</style>\n", stdout);
	printf("<rect class=\"b\" width=\"%d\" height=\"%d\"/>\n", WIDE, high);
}

static void put_time(int64_t frames)
{
	long seconds = (long)(frames / A_SECOND);
	printf("%ld:%02ld", seconds / 60, seconds % 60);
}

/* How long, how it ended, and who won. */
static void put_end(const drawing *d)
{
	const game *g = d->g;
	const slp_end *end = &g->replay->opened.game.end;
	const char *before = ", winner: ";
	if (g->clock >= 0) {
		put_time(g->clock);
		fputs(", ", stdout);
	}
	if (end->given) {
		fputs("end: ", stdout);
		put_named(end_name(end->method), "method", end->method);
	} else {
		fputs(d->how == IS_CUT ? "cut" : "no end", stdout);
	}
	for (int k = 0; k < g->count; k++)
		if (g->players[k].won) {
			fputs(before, stdout);
			put_called(&g->players[k]);
			before = " and ";
		}
}

static void put_title(const drawing *d)
{
	printf("<text class=\"h\" x=\"%d\" y=\"34\">", LEFT);
	put_players(d->g);
	printf("</text>\n<text class=\"s\" x=\"%d\" y=\"56\">", LEFT);
	put_end(d);
	fputs("</text>\n", stdout);
}

static void put_percent_axis(const drawing *d)
{
	int step = d->top <= 300 ? 50 : 200;
	fputs("<path class=\"g\" d=\"", stdout);
	for (int p = 0; p <= d->top; p += step)
		printf("M%d %dH%d", LEFT, y_at(d, (float)p), RIGHT);
	fputs("\"/>\n", stdout);
	for (int p = 0; p <= d->top; p += step)
		printf("<text class=\"s e\" x=\"%d\" y=\"%d\">%d%%</text>\n", LEFT - 6, y_at(d, (float)p) + 4, p);
}

/* A mark every so many seconds of the match's clock, which is 0 at id 0: not over twelve. */
static void put_time_axis(const drawing *d)
{
	static const int steps[] = { 1, 2, 5, 10, 15, 30, 60, 120, 300, 600, 1200, 3600 };
	size_t k = 0;
	while (k + 1 < sizeof steps / sizeof *steps && (d->last - d->first) / (steps[k] * A_SECOND) > 12)
		k++;
	for (int64_t at = 0; at <= d->last; at += steps[k] * A_SECOND) {
		if (at < d->first)
			continue;
		printf("<path class=\"k\" d=\"M%d %dv5\"/><text class=\"s m\" x=\"%d\" y=\"%d\">", x_at(d, at), BASE, x_at(d, at), BASE + 18);
		put_time(at);
		fputs("</text>\n", stdout);
	}
}

static void put_line(const drawing *d, int k)
{
	const track *t = &d->tracks[k];
	if (t->count == 0)
		return;
	printf("<path class=\"l p%d\" d=\"", k);
	for (int i = 0; i < t->count; i++) {
		const point *p = &t->points[i];
		int y = y_at(d, p->percent);
		if (p->begins && i)
			printf("H%d", p[-1].until);
		if (p->begins || i == 0)
			printf("M%d %d", p->x, y);
		else
			printf("H%dV%d", p->x, y);
	}
	printf("H%d\"/>\n", t->points[t->count - 1].until);
}

static void put_rings(const drawing *d, int k)
{
	const track *t = &d->tracks[k];
	for (int i = 1; i < t->count; i++)
		if (t->points[i].fell)
			printf("<circle class=\"r p%d\" cx=\"%d\" cy=\"%d\" r=\"%d\"/>\n", k, t->points[i].x, y_at(d, t->points[i - 1].percent), RING);
}

/* Where what is at a point ends. */
static int point_end(const track *t, int i)
{
	return i + 1 < t->count && !t->points[i + 1].begins ? t->points[i + 1].x : t->points[i].until;
}

/* A stock's bar, the first lowest: from where the player has it to where it does not. */
static void put_bar(const track *t, unsigned stock, unsigned bars, int y, int high)
{
	for (int i = 0; i < t->count; i++) {
		int from = t->points[i].x;
		if (t->points[i].stocks * bars < stock * t->most_stocks)
			continue;
		while (i + 1 < t->count && !t->points[i + 1].begins && t->points[i + 1].stocks * bars >= stock * t->most_stocks)
			i++;
		int to = point_end(t, i);
		printf("M%d %dh%dv%dH%dz", from, y, to > from ? to - from : 1, high, from);
	}
}

static void put_lane(const drawing *d, int k)
{
	const track *t = &d->tracks[k];
	const player *p = &d->g->players[k];
	int top = lane_top(k) + 20;
	unsigned bars = t->most_stocks < MOST_BARS ? t->most_stocks : MOST_BARS;
	printf("<path class=\"l p%d\" d=\"M%d %dh34\"/><text x=\"%d\" y=\"%d\">", k, LEFT, top - 10, LEFT + 42, top - 6);
	put_called(p);
	fputs(" (", stdout);
	put_named(character_name(p->seat->character), "character", p->seat->character);
	fputs("), stocks</text>\n", stdout);
	if (bars == 0)
		return;
	int step = BARS / (int)bars;
	printf("<path class=\"f%d\" d=\"", k);
	for (unsigned stock = 1; stock <= bars; stock++)
		put_bar(t, stock, bars, top + BARS - step * (int)stock, step > 3 ? step - 2 : step);
	fputs("\"/>\n", stdout);
}

static void put_mark(int from, int to, int y)
{
	printf("M%d %dH%dv%dH%dz", from, y, to, MARK, from);
}

/* A mark where frames were replaced; how often the console went back. */
static void put_rollbacks(const drawing *d)
{
	const game *g = d->g;
	size_t frames = g->replay->opened.game.frames.counts.frames, times = 0;
	int top = lane_top(g->count), from = -1, to = -1;
	if (g->replaced_count == 0)
		return;
	fputs("<path class=\"t\" d=\"", stdout);
	for (size_t i = 0; i < frames; i++) {
		int x = x_at(d, moment(g, i));
		times += g->replaced[i] && (i == 0 || !g->replaced[i - 1]);
		if (!g->replaced[i] || x < to)
			continue;
		if (to >= 0 && x > to)
			put_mark(from, to, top + 20);
		if (x > to)
			from = x;
		to = x + 1;
	}
	put_mark(from, to, top + 20);
	printf("\"/>\n<text class=\"s\" x=\"%d\" y=\"%d\">rollbacks: %zu, which replaced %zu frame%s</text>\n", LEFT, top + 14, times, g->replaced_count,
	       g->replaced_count == 1 ? "" : "s");
}

static void put_cut(const drawing *d)
{
	if (d->how != IS_CUT)
		return;
	printf("<path class=\"k\" stroke-width=\"2\" d=\"M%d %dl-5 20 8 20 -8 20 8 20 -8 20 8 20 -8 20 8 20 -8 20 8 20 -3 20\"/>", RIGHT, TOP);
	printf("<text class=\"e\" x=\"%d\" y=\"%d\">the replay is cut here</text>\n", RIGHT - 12, TOP + 14);
}

static void draw(drawing *d)
{
	find_span(d);
	for (int k = 0; k < d->g->count; k++)
		follow(d, k);
	find_top(d);
	put_head(d);
	put_title(d);
	put_percent_axis(d);
	put_time_axis(d);
	put_rollbacks(d);
	for (int k = 0; k < d->g->count; k++)
		put_line(d, k);
	for (int k = 0; k < d->g->count; k++)
		put_rings(d, k);
	for (int k = 0; k < d->g->count; k++)
		put_lane(d, k);
	put_cut(d);
	fputs("</svg>\n", stdout);
}

/* A replay of which there is something to draw. */
static int draw_replay(const replay *r, outcome how)
{
	game g;
	drawing *d = calloc(1, sizeof *d);
	if (!d || describe(r, &g) != WELL) {
		free(d);
		return ENOMEM;
	}
	d->g = &g;
	d->how = how;
	draw(d);
	forget(&g);
	free(d);
	return 0;
}

int draw_picture(const request *q)
{
	replay r;
	const char *path = q->files[0];
	int wrong;
	progress_begin(q->progress, "reading", total_size(q->files, 1));
	outcome how = open_part(path, &r, &wrong);
	progress_clear();
	if ((how == IS_WHOLE || how == IS_CUT) && r.cells)
		wrong = draw_replay(&r, how);
	if (wrong)
		how = unread(q, path, wrong);
	complain_part(input_name(path), &r, how);
	close_replay(&r);
	return how == IS_WHOLE ? WELL : FAILED;
}
