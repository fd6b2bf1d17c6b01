/* How much room to reserve: worked rooms, every refusal, any plan against the model, and games that take all of theirs. */
#include <stdlib.h>
#include <string.h>

#include "check.h"
#include "columns.h"
#include "made.h"
#include "model.h"

/* A plan is handed over by value, and nothing is lent: the answer is all there is. */
static void check_plan(const slp_plan *p, slp_reserved want)
{
	slp_reserved r = slp_room(*p);
	CHECK_EQ(r.refused, want.refused);
	CHECK_EQ(r.bytes, want.bytes);
}

/* Version, block, slots; frames, items, rows of each stage; code bytes and metadata. */
static const struct {
	slp_plan plan;
	slp_reserved answer;
} WORKED[] = {
	/* nothing but a start block */
	{ { { 0, 1, 0 }, 320, 0, { 0, 0, 0, 0, 0 }, 0, 0 }, { 0, 367 } },
	/* before 2.2: no FrameStart, and nothing for items, stages and codes */
	{ { { 2, 1, 255 }, 418, 2, { 10, 3, 4, 5, 6 }, 1024, 7 }, { 0, 2814 } },
	/* the same without them */
	{ { { 2, 1, 255 }, 418, 2, { 10, 0, 0, 0, 0 }, 0, 7 }, { 0, 2814 } },
	/* from 2.2 */
	{ { { 2, 2, 0 }, 418, 2, { 10, 3, 4, 5, 6 }, 1024, 7 }, { 0, 2907 } },
	/* before 3.0: no items, no FrameEnd */
	{ { { 2, 255, 255 }, 418, 2, { 10, 3, 4, 5, 6 }, 1024, 7 }, { 0, 2907 } },
	/* the same without them */
	{ { { 2, 255, 255 }, 418, 2, { 10, 0, 0, 0, 0 }, 0, 7 }, { 0, 2907 } },
	/* from 3.0 */
	{ { { 3, 0, 0 }, 418, 2, { 10, 3, 4, 5, 6 }, 1024, 7 }, { 0, 3077 } },
	/* before 3.3: no codes, and no rows of a stage */
	{ { { 3, 2, 255 }, 418, 2, { 10, 3, 4, 5, 6 }, 1024, 7 }, { 0, 3089 } },
	/* the same without them */
	{ { { 3, 2, 255 }, 418, 2, { 10, 3, 0, 0, 0 }, 0, 7 }, { 0, 3089 } },
	/* from 3.3 */
	{ { { 3, 3, 0 }, 418, 2, { 10, 3, 4, 5, 6 }, 1024, 7 }, { 0, 4129 } },
	/* before 3.18: no rows of a stage */
	{ { { 3, 17, 255 }, 760, 2, { 10, 3, 4, 5, 6 }, 1024, 7 }, { 0, 5268 } },
	/* the same without them */
	{ { { 3, 17, 255 }, 760, 2, { 10, 3, 0, 0, 0 }, 1024, 7 }, { 0, 5268 } },
	/* from 3.18 */
	{ { { 3, 18, 0 }, 760, 2, { 10, 3, 4, 5, 6 }, 1024, 7 }, { 0, 5401 } },
	/* one row more of each */
	{ { { 3, 18, 0 }, 760, 2, { 10, 4, 5, 6, 7 }, 1024, 7 }, { 0, 5471 } },
	/* rows without frames */
	{ { { 3, 18, 0 }, 760, 2, { 0, 3, 4, 5, 6 }, 1024, 7 }, { 0, 1882 } },
	/* the same without rows */
	{ { { 3, 18, 0 }, 760, 2, { 0, 0, 0, 0, 0 }, 1024, 7 }, { 0, 1882 } },
	/* codes of 0, 511, 512, 513 and 1,024 */
	{ { { 3, 18, 0 }, 760, 0, { 0, 0, 0, 0, 0 }, 0, 0 }, { 0, 841 } },
	{ { { 3, 18, 0 }, 760, 0, { 0, 0, 0, 0, 0 }, 511, 0 }, { 0, 841 } },
	{ { { 3, 18, 0 }, 760, 0, { 0, 0, 0, 0, 0 }, 512, 0 }, { 0, 1358 } },
	{ { { 3, 18, 0 }, 760, 0, { 0, 0, 0, 0, 0 }, 513, 0 }, { 0, 1358 } },
	{ { { 3, 18, 0 }, 760, 0, { 0, 0, 0, 0, 0 }, 1024, 0 }, { 0, 1875 } },
	/* the most of everything */
	{ { { 3, 18, 0 }, 65535, 8, { 1048576, 4194304, 1048576, 1048576, 1048576 }, 16777216, 65535 }, { 0, 1530167375 } },
	/* 1: above 3.18.0, before all others */
	{ { { 3, 18, 1 }, 0, 9, { 1048577, 0, 0, 0, 0 }, 0, 0 }, { 1, 0 } },
	{ { { 3, 19, 0 }, 760, 0, { 0, 0, 0, 0, 0 }, 0, 0 }, { 1, 0 } },
	{ { { 4, 0, 0 }, 760, 0, { 0, 0, 0, 0, 0 }, 0, 0 }, { 1, 0 } },
	/* 2: each count, one over, before 7 and 8; also of what the version lacks */
	{ { { 0, 1, 0 }, 0, 9, { 1048577, 0, 0, 0, 0 }, 0, 0 }, { 2, 0 } },
	{ { { 0, 1, 0 }, 320, 0, { 0, 4194305, 0, 0, 0 }, 0, 0 }, { 2, 0 } },
	{ { { 0, 1, 0 }, 320, 0, { 0, 0, 1048577, 0, 0 }, 0, 0 }, { 2, 0 } },
	{ { { 0, 1, 0 }, 320, 0, { 0, 0, 0, 1048577, 0 }, 0, 0 }, { 2, 0 } },
	{ { { 0, 1, 0 }, 320, 0, { 0, 0, 0, 0, 1048577 }, 0, 0 }, { 2, 0 } },
	{ { { 0, 1, 0 }, 320, 0, { 0, 0, 0, 0, 0 }, 16777217, 0 }, { 2, 0 } },
	{ { { 0, 1, 0 }, 320, 0, { 0, 0, 0, 0, 0 }, 0, 65536 }, { 2, 0 } },
	/* 7: nine slots, before 8; eight are taken */
	{ { { 0, 1, 0 }, 0, 9, { 0, 0, 0, 0, 0 }, 0, 0 }, { 7, 0 } },
	{ { { 0, 1, 0 }, 320, 8, { 1, 0, 0, 0, 0 }, 0, 0 }, { 0, 1111 } },
	/* 8: a block that is shorter than the version's, or over 65,535 */
	{ { { 0, 1, 0 }, 319, 0, { 0, 0, 0, 0, 0 }, 0, 0 }, { 8, 0 } },
	{ { { 3, 18, 0 }, 759, 0, { 0, 0, 0, 0, 0 }, 0, 0 }, { 8, 0 } },
	{ { { 0, 1, 0 }, 65536, 0, { 0, 0, 0, 0, 0 }, 0, 0 }, { 8, 0 } },
	{ { { 0, 1, 0 }, 65535, 0, { 0, 0, 0, 0, 0 }, 0, 0 }, { 0, 65582 } },
};

static void worked(void)
{
	for (size_t i = 0; i < sizeof WORKED / sizeof *WORKED; i++) {
		check_plan(&WORKED[i].plan, WORKED[i].answer);
		CHECK(WORKED[i].answer.bytes <= SLP_MAX_ROOM);
	}
}

/* ---- refusals */

static slp_plan small_plan(slp_version v)
{
	return (slp_plan){ .version = v, .block = block_length(v), .slots = 2, .counts = { 5, 4, 3, 2, 1 }, .codes = 1024, .metadata = 9 };
}

/* The numbers of a plan that have a maximum, and that maximum. */
enum { NUMBERS = 9 };

static size_t *number(slp_plan *p, size_t k)
{
	size_t *all[NUMBERS] = { &p->counts.frames, &p->counts.items, &p->counts.fods, &p->counts.whispys, &p->counts.stadiums, &p->codes, &p->metadata,
	                         &p->slots, &p->block };
	return all[k];
}

static const size_t MOST[NUMBERS] = { SLP_MAX_FRAMES, SLP_MAX_ITEMS, SLP_MAX_STAGE_ROWS, SLP_MAX_STAGE_ROWS, SLP_MAX_STAGE_ROWS, SLP_MAX_CODES,
                                      SLP_MAX_METADATA, 8, 65535 };

static unsigned refusal_of(size_t k)
{
	return k < 7 ? 2 : k == 7 ? 7 : 8;
}

/* Each number at its maximum and above, in every version that has something of its own. */
static void limits(void)
{
	for (size_t n = rounds(400, 60); n; n--) {
		slp_version v = random_version();
		slp_plan p = small_plan(v);
		if (too_new(v)) {
			check_plan(&p, (slp_reserved){ .refused = 1 });
			continue;
		}
		check_plan(&p, model_room(&p));
		for (size_t k = 0; k < NUMBERS; k++) {
			const size_t over[] = { MOST[k] + 1, MOST[k] + 1 + below(1000), (size_t)1 << 32, (size_t)1 << 63, SIZE_MAX };
			slp_plan q = p;
			*number(&q, k) = MOST[k];
			check_plan(&q, model_room(&q));
			CHECK_EQ(slp_room(q).refused, 0);
			for (size_t i = 0; i < sizeof over / sizeof *over; i++) {
				*number(&q, k) = over[i];
				check_plan(&q, (slp_reserved){ .refused = (uint8_t)refusal_of(k) });
			}
		}
		p.block--;
		check_plan(&p, (slp_reserved){ .refused = 8 });
	}
}

/* Of every set of the four faults the lowest number is given. */
static void lowest(void)
{
	static const unsigned numbers[] = { 1, 2, 7, 8 };
	for (unsigned set = 0; set < 16; set++)
		for (size_t which = 0; which < 7; which++) {
			slp_plan p = small_plan((slp_version){ 3, 18, 0 });
			unsigned want = 0;
			for (size_t k = 4; k--;)
				want = set >> k & 1 ? numbers[k] : want;
			p.version.patch = set & 1;
			if (set & 2)
				*number(&p, which) = MOST[which] + 1;
			p.slots = set & 4 ? 9 : 8;
			p.block = set & 8 ? 759 : 760;
			CHECK_EQ(slp_room(p).refused, want);
			CHECK_EQ(model_room(&p).refused, want);
		}
}

/* ---- any plan */

static size_t any_number(size_t most)
{
	switch (below(8)) {
	case 0: return 0;
	case 1: return most;
	case 2: return below(40) ? most : most + 1;
	case 3: return below(3);
	default: return below(most < 100000 ? most + 1 : below(2) ? 5000 : most + 1);
	}
}

static slp_plan any_plan(void)
{
	slp_plan p = { .version = random_version() };
	if (below(4) == 0)
		p.version = (slp_version){ (uint8_t)below(4), (uint8_t)below(256), (uint8_t)below(256) };
	for (size_t k = 0; k < NUMBERS; k++)
		*number(&p, k) = any_number(MOST[k]);
	if (below(20))
		p.block = block_length(p.version) + below(3) * below(1000);
	if (below(3) == 0)
		p.codes = 512 * below(9) + 511 + below(3);
	return p;
}

static void any(void)
{
	size_t taken = 0, refused[9] = { 0 };
	for (size_t n = rounds(200000, 3000); n; n--) {
		slp_plan p = any_plan();
		slp_reserved want = model_room(&p);
		check_plan(&p, want);
		taken += want.refused == 0;
		refused[want.refused]++;
	}
	CHECK(taken && refused[1] && refused[2] && refused[7] && refused[8]);
}

/* No answer falls as a number rises. */
static void rising(void)
{
	for (size_t n = rounds(50000, 1000); n; n--) {
		slp_plan p = any_plan(), q = p;
		*number(&q, below(NUMBERS)) += 1 + below(2000);
		slp_reserved a = slp_room(p), b = slp_room(q);
		if (!a.refused && !b.refused)
			CHECK(a.bytes <= b.bytes);
	}
}

/* ---- games */

/* A game's file against its own plan, and against one with more of everything; exactly its own where it is the fullest. */
static void check_game(const plan *p, int fullest)
{
	made m = make_game(p);
	const input *in = &m.in;
	model_file f = model_write(in);
	slp_plan own = slp_plan_of(&in->game, in->block.len, in->codes.len, in->metadata.len);
	CHECK_EQ(own.slots, slots_of(&in->game.frames));
	slp_reserved r = slp_room(own);
	CHECK_EQ(r.refused, 0);
	CHECK(fullest ? f.len == r.bytes : f.len <= r.bytes);
	uint8_t *out = take(r.bytes);
	memset(out, 0xee, r.bytes);
	CHECK_EQ(guarded_write(in, out, r.bytes).len, f.len);
	free(out);
	for (size_t k = 0; k < NUMBERS; k++)
		*number(&own, k) += k == 7 ? below(9 - own.slots) : below(700);
	CHECK(f.len <= slp_room(own).bytes);
	model_free(&f);
	unmake(&m);
}

static void games(void)
{
	for (size_t n = rounds(3000, 40); n; n--) {
		plan p = random_plan(12);
		check_game(&p, 0);
	}
}

static void fullest(void)
{
	for (size_t n = rounds(3000, 40); n; n--) {
		plan p = random_plan(12);
		p.presence = 0;
		p.end = p.double_end = p.codes = p.metadata = 1;
		check_game(&p, 1);
	}
}

int main(int argc, char **argv)
{
	begin("room", argc, argv);
	test("worked rooms", worked);
	test("limits", limits);
	test("the lowest number", lowest);
	test("any plan", any);
	test("rising", rising);
	test("games", games);
	test("the fullest games", fullest);
	return finish();
}
