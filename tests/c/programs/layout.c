/* What the library says of a version's columns and of where events start, against the columns of the format. */
#include <stdlib.h>

#include "check.h"
#include "columns.h"
#include "made.h"
#include "model.h"

/* The families in the order of the header's numbers. */
static const family IN_ORDER[8] = { FRAME_START, PRE, POST, FRAME_END, ITEM, FOD, WHISPY, STADIUM };

static size_t columns_in(slp_version v, unsigned number)
{
	return number < 8 && has_family(IN_ORDER[number], v) ? columns_of(IN_ORDER[number], v) : 0;
}

/* Every family and some numbers of none, in every version. */
static void columns(void)
{
	static const unsigned none[] = { 8, 9, 15, 16, 127, 128, 254, 255 };
	static const uint8_t majors[] = { 0, 1, 2, 3, 4, 255 };
	for (size_t a = 0; a < sizeof majors; a++)
		for (unsigned minor = 0; minor < 256; minor++) {
			slp_version v = { majors[a], (uint8_t)minor, (uint8_t)draw() };
			for (unsigned n = 0; n < 8; n++)
				CHECK_EQ(slp_columns(v, (uint8_t)n), columns_in(v, n));
			for (size_t k = 0; k < sizeof none / sizeof *none; k++)
				CHECK_EQ(slp_columns(v, (uint8_t)none[k]), 0);
		}
}

/* The stores of any game have as many cells as the library says. */
static void stores(void)
{
	for (size_t n = rounds(2000, 40); n; n--) {
		plan p = random_plan(12);
		made m = make_game(&p);
		const slp_frames *f = &m.in.game.frames;
		const slp_counts *c = &f->counts;
		const size_t slots = slots_of(f), rows[8] = { c->frames, slots * c->frames, slots * c->frames, c->frames, c->items, c->fods, c->whispys,
		                                              c->stadiums };
		for (size_t k = 0; k < 8; k++)
			CHECK_EQ(cell_store(&m.in.stores, k + 1)->len, slp_columns(f->version, (uint8_t)k) * rows[k]);
		unmake(&m);
	}
}

/* A file of any length, with any size byte of its table. */
static void first_places(void)
{
	uint8_t file[40];
	for (size_t len = 0; len <= sizeof file; len++)
		for (unsigned size = 0; size < 256; size++) {
			draw_bytes(file, sizeof file);
			file[16] = (uint8_t)size;
			CHECK_EQ(guarded_first_place(file, len), len < 17 ? 17 : 17 + size / 3 * 3);
		}
}

/* In a written file the first event, which is the start's, begins there. */
static void written(void)
{
	for (size_t n = rounds(300, 10); n; n--) {
		plan p = random_plan(3);
		made m = make_game(&p);
		model_file f = model_write(&m.in);
		CHECK_EQ(guarded_first_place(f.bytes, f.len), f.ends[0] - 1 - m.in.block.len);
		model_free(&f);
		unmake(&m);
	}
}

int main(int argc, char **argv)
{
	begin("layout", argc, argv);
	test("columns", columns);
	test("stores", stores);
	test("first places", first_places);
	test("written files", written);
	return finish();
}
