/* Columns back from a replay: generated games come back field by field and save to the same file; cut, damaged and random files are answered as by the
 * model. */
#include <stdlib.h>
#include <string.h>

#include "against.h"
#include "check.h"
#include "columns.h"
#include "made.h"
#include "model.h"
#include "open.h"
#include "same.h"
#include "space.h"

/* How often each number was answered. */
static size_t met[32];

static void meet(unsigned number)
{
	met[number]++;
}

static void check_met(unsigned from, unsigned to)
{
	for (unsigned n = from; n <= to; n++)
		CHECK(light || met[n] > 20);
}

/* ---- what comes back of a game, told by its input */

static slp_text text_back(int has, const slp_text *t)
{
	slp_text back = { .len = has ? t->len : 0 };
	memcpy(back.bytes, t->bytes, back.len);
	return back;
}

static slp_seat seat_back(const input *in, size_t n)
{
	const slp_seat *s = &in->game.start.seats[n];
	const uint8_t *block = in->block.p + 100 + 36 * n;
	slp_version v = in->game.frames.version;
	int tags = reaches(v, 1, 3), names = reaches(v, 3, 9), suids = reaches(v, 3, 11);
	if (!s->given)
		return (slp_seat){ 0 };
	slp_seat back = *s;
	back.given = 1;
	/* teams as the flag says: without a team the template's bytes stand in the file */
	back.team = s->team.given ? s->team : (slp_team){ 1, block[9], block[7] };
	back.team.given = 1;
	if (!in->game.start.is_teams)
		back.team = (slp_team){ 0 };
	back.cpu_level = s->kind == SLP_CPU ? (slp_optional){ 1, s->cpu_level.value } : (slp_optional){ 0 };
	back.ucf = reaches(v, 1, 0) ? (slp_ucf){ 1, s->ucf.dash_back, s->ucf.shield_drop } : (slp_ucf){ 0 };
	back.name_tag_given = tags != 0;
	back.name_tag = text_back(tags, &s->name_tag);
	back.netplay.given = names != 0;
	back.netplay.name = text_back(names, &s->netplay.name);
	back.netplay.code = text_back(names, &s->netplay.code);
	back.netplay.suid_given = suids != 0;
	back.netplay.suid = text_back(suids, &s->netplay.suid);
	return back;
}

static slp_optional optional_back(int has, uint8_t value)
{
	return has ? (slp_optional){ 1, value } : (slp_optional){ 0 };
}

static slp_start start_back(const input *in)
{
	const slp_start *s = &in->game.start;
	slp_version v = in->game.frames.version;
	slp_start back = *s;
	back.is_raining_bombs = s->is_raining_bombs != 0;
	back.is_teams = s->is_teams != 0;
	for (size_t n = 0; n < 4; n++)
		back.seats[n] = seat_back(in, n);
	back.is_pal = optional_back(reaches(v, 1, 5), s->is_pal.value != 0);
	back.is_frozen_ps = optional_back(reaches(v, 2, 0), s->is_frozen_ps.value != 0);
	back.scene = reaches(v, 3, 7) ? (slp_scene){ 1, s->scene.minor, s->scene.major } : (slp_scene){ 0 };
	back.language = optional_back(reaches(v, 3, 12), s->language.value);
	back.match_info = (slp_match){ 0 };
	if (reaches(v, 3, 14))
		back.match_info = (slp_match){ 1, SLP_TAIL_KEPT, text_back(1, &s->match_info.id), s->match_info.game, s->match_info.tiebreaker };
	return back;
}

static slp_end end_back(const input *in)
{
	const slp_end *e = &in->game.end;
	slp_version v = in->game.frames.version;
	if (!e->given)
		return (slp_end){ 0 };
	slp_end back = { .given = 1, .method = e->method, .initiator = reaches(v, 2, 0) ? e->initiator : 255 };
	for (size_t n = 0; n < 4; n++)
		if (reaches(v, 3, 13) && e->placed[n] && e->placements[n] != 255) {
			back.placed[n] = 1;
			back.placements[n] = e->placements[n];
		}
	return back;
}

static void check_game_back(const input *in, const slp_game *g)
{
	slp_start start = start_back(in);
	slp_end end = end_back(in);
	CHECK(same_start(&g->start, &start));
	CHECK(memcmp(&g->end, &end, sizeof end) == 0);
	CHECK_EQ(g->double_end, in->game.double_end != 0);
	CHECK_EQ(g->codes_given, in->game.codes_given != 0);
	CHECK_EQ(g->metadata_given, in->game.metadata_given != 0);
	CHECK_EQ(g->actual_size, in->game.codes_given ? in->game.actual_size : 0);
	CHECK(memcmp(&g->frames.version, &in->game.frames.version, 3) == 0);
	CHECK(memcmp(&g->frames.counts, &in->game.frames.counts, sizeof(slp_counts)) == 0);
}

/* Stores that are as they were. */
static void check_same_stores(const input *in, const opened_file *f)
{
	slp_stores was = in->stores;
	size_t n[FILLED_STORES];
	each_length(&f->lengths, n);
	for (size_t k = 0; k < CELL_STORES; k++) {
		const slp_cells *c = cell_store(&was, k);
		if (k == 2 || k == 3)
			continue;
		CHECK_EQ(n[k], c->len);
		CHECK(c->len == 0 || memcmp(c->p, store_bytes(&f->s, k), 4 * c->len) == 0);
	}
	size_t codes = in->game.codes_given ? in->codes.len : 0;
	CHECK_EQ(f->lengths.codes, codes);
	CHECK(codes == 0 || memcmp(f->s.codes.p, in->codes.p, codes) == 0);
}

/* A slot that came back: the cells of present rows, zeros for absent ones, and its bits. */
static void check_slot_back(const input *in, size_t slot, const opened_file *f, size_t back)
{
	size_t frames = f->o.game.frames.counts.frames;
	slp_version v = f->o.game.frames.version;
	size_t pre = columns_of(PRE, v), post = columns_of(POST, v);
	for (size_t i = 0; i < frames; i++) {
		int there = is_present(in, slot, i);
		CHECK_EQ(f->s.presence.p[back * ((frames + 7) / 8) + i / 8] >> i % 8 & 1, there);
		for (size_t c = 0; c < pre; c++)
			CHECK_EQ(f->s.pres.p[(back * pre + c) * frames + i], there ? in->stores.pres.p[(slot * pre + c) * frames + i] : 0);
		for (size_t c = 0; c < post; c++)
			CHECK_EQ(f->s.posts.p[(back * post + c) * frames + i], there ? in->stores.posts.p[(slot * post + c) * frames + i] : 0);
	}
}

static int ever_present(const input *in, size_t slot)
{
	for (size_t i = 0; i < in->game.frames.counts.frames; i++)
		if (is_present(in, slot, i))
			return 1;
	return 0;
}

/* A player who is never there has no column, but a leader keeps one beside a follower. */
static void check_players_back(const input *in, const opened_file *f)
{
	const slp_frames *was = &in->game.frames, *is = &f->o.game.frames;
	size_t bytes = (was->counts.frames + 7) / 8, slot = 0, back = 0, column = 0;
	for (size_t p = 0; p < was->port_count; p++) {
		size_t leader = slot++, follower = was->ports[p].follower ? slot++ : 0;
		int followed = follower && ever_present(in, follower);
		if (!followed && !ever_present(in, leader))
			continue;
		slp_port_column c = is->ports[column++];
		CHECK_EQ(c.port, was->ports[p].port);
		CHECK_EQ(c.follower, followed);
		CHECK_EQ(c.leader_presence, bytes);
		CHECK_EQ(c.follower_presence, followed ? bytes : 0);
		check_slot_back(in, leader, f, back++);
		if (followed)
			check_slot_back(in, follower, f, back++);
	}
	CHECK_EQ(is->port_count, column);
	CHECK_EQ(f->lengths.presence, back * bytes);
	for (size_t k = 0; k < back && was->counts.frames % 8; k++)
		CHECK_EQ(f->s.presence.p[k * bytes + bytes - 1] >> was->counts.frames % 8, 0);
}

/* Saved again, it is the same file. */
static void check_saved(const uint8_t *file, size_t len, const opened_file *f)
{
	uint8_t *again = take(len);
	memset(again, 0xee, len);
	slp_written w = slp_save(again, len, &f->o, &f->s, file);
	CHECK_EQ(w.refused, 0);
	CHECK_EQ(w.len, len);
	CHECK(memcmp(again, file, len) == 0);
	free(again);
}

static void check_places(const input *in, const model_file *file, const slp_places *p)
{
	size_t body = in->game.metadata_given ? in->metadata.len : 0;
	CHECK_EQ(p->block_at, file->ends[0] - in->block.len);
	CHECK_EQ(p->block_len, in->block.len);
	CHECK_EQ(p->tail, in->game.metadata_given ? SLP_FILE_TAIL_METADATA : SLP_FILE_TAIL_NONE);
	CHECK_EQ(p->metadata_at, in->game.metadata_given ? file->data_end + 11 : 0);
	CHECK_EQ(p->metadata_len, body);
	CHECK(body == 0 || memcmp(file->bytes + p->metadata_at, in->metadata.p, body) == 0);
}

static void check_back(const input *in)
{
	model_file file = model_write(in);
	opened_file f = check_opening(file.bytes, file.len);
	if (CHECK_EQ(f.o.refused, 0)) {
		check_game_back(in, &f.o.game);
		check_same_stores(in, &f);
		check_players_back(in, &f);
		check_places(in, &file, &f.o.places);
		check_saved(file.bytes, file.len, &f);
	}
	free_opened(&f);
	model_free(&file);
}

static void games_come_back(void)
{
	for (size_t n = rounds(4000, 40); n; n--) {
		made m = make_returning(random_plan(n % 8 ? 20 : 70));
		check_back(&m.in);
		unmake(&m);
	}
}

/* One frame with codes of so many bytes. */
static plan coded(uint32_t actual_size)
{
	plan p = one_frame_plan();
	p.codes = 1;
	p.actual_size = actual_size;
	return p;
}

/* The worked cases 1 and 6 to 9, codes of no bytes, and the fullest, with all tails of a match id. */
static void chosen_games_come_back(void)
{
	const plan smallest = { .version = { 0, 1, 0 } };
	const plan plans[] = { smallest, one_frame_plan(), coded(513), coded(512), coded(65536), coded(0), rich_plan() };
	for (size_t k = 0; k < sizeof plans / sizeof *plans; k++)
		for (int tail = 0; tail < 3; tail++) {
			made m = make_returning(plans[k]);
			m.in.game.start.match_info.tail = (uint8_t)tail;
			check_back(&m.in);
			unmake(&m);
		}
}

/* Games that were not made to come back: as the model has it, and what is accepted can be saved. */
static void any_games(void)
{
	memset(met, 0, sizeof met);
	for (size_t n = rounds(4000, 40); n; n--) {
		plan p = random_plan(12);
		made m = make_game(&p);
		if (below(2))
			for (size_t k = 0; k < 4; k++)
				m.block[101 + 36 * k] = (uint8_t)below(4);
		model_file file = model_write(&m.in);
		opened_file f = check_opening(file.bytes, file.len);
		meet(f.o.refused);
		uint8_t *again = take(file.len);
		CHECK(f.o.refused || slp_save(again, file.len, &f.o, &f.s, file.bytes).len == file.len);
		free(again);
		free_opened(&f);
		model_free(&file);
		unmake(&m);
	}
	check_met(0, 0);
	check_met(19, 19);
}

/* ---- cuts and damage */

/* A small game of a version: two frames, a leader, a follower in one of them, an item where there are any, an end. */
static plan small_plan(slp_version v)
{
	return (plan){ .version = v, .frames = 2, .items = 1, .fods = 1, .whispys = 1, .stadiums = 1, .ports = 2, .followers = 1, .presence = 1, .seats = 2,
	               .codes = 1, .actual_size = 3, .metadata = 1, .metadata_len = 5, .end = 1 };
}

static const slp_version VERSIONS[] = { { 0, 1, 0 }, { 1, 5, 0 }, { 2, 1, 0 }, { 2, 2, 0 }, { 3, 0, 0 }, { 3, 3, 0 }, { 3, 18, 0 } };
enum { VERSIONS_LEN = sizeof VERSIONS / sizeof *VERSIONS };

static model_file small_file(size_t k)
{
	plan p = small_plan(VERSIONS[k]);
	p.codes = below(2) == 0;
	made m = make_returning(p);
	model_file f = model_write(&m.in);
	unmake(&m);
	return f;
}

static void every_cut(void)
{
	for (size_t k = 0; k < VERSIONS_LEN; k += light ? 3 : 1) {
		model_file f = small_file(k);
		for (size_t cut = 0; cut <= f.len; cut += light ? 7 : 1) {
			unsigned refused = check_file(f.bytes, cut);
			CHECK_EQ(refused, cut < 15 ? 14 : cut < 16 + (size_t)f.bytes[16] ? 15 : cut < f.data_end ? 19 : 0);
		}
		model_free(&f);
	}
}

static void damaged_bytes(void)
{
	memset(met, 0, sizeof met);
	for (size_t n = rounds(1000, 10); n; n--) {
		model_file f = small_file(n % VERSIONS_LEN);
		slp_measured m = model_measure(f.bytes, f.len);
		size_t lens[FILLED_STORES];
		each_length(&m.lengths, lens);
		lent_space l = lend_space(lens);
		for (int k = 0; k < (light ? 40 : 1000); k++)
			meet(check_damaged(&f, &l));
		give_back_space(&l);
		model_free(&f);
	}
	check_met(0, 0);
	check_met(14, 17);
	check_met(19, 19);
	CHECK(light || met[1] > 20);
}

/* Several damaged bytes and a cut, of larger games. */
static void much_damaged(void)
{
	for (size_t n = rounds(2000, 20); n; n--) {
		made m = make_returning(random_plan(12));
		model_file f = model_write(&m.in);
		for (int k = 0; k < 8; k++) {
			f.bytes[damaged_place(&f)] = damaged_byte(0);
			check_file(f.bytes, below(4) ? f.len : below(f.len + 1));
		}
		model_free(&f);
		unmake(&m);
	}
}

int main(int argc, char **argv)
{
	begin("read", argc, argv);
	test("chosen games come back", chosen_games_come_back);
	test("games come back", games_come_back);
	test("any games", any_games);
	test("every cut", every_cut);
	test("damaged bytes", damaged_bytes);
	test("much damaged", much_damaged);
	return finish();
}
