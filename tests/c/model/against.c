#include "against.h"

#include <stdlib.h>
#include <string.h>

#include "check.h"
#include "open.h"
#include "same.h"

static opened_file by_model(const uint8_t *file, size_t len, slp_lengths n)
{
	opened_file f = { .lengths = n, .cells = take(4 * slp_space_cells(&n)), .bytes = take(slp_space_bytes(&n)) };
	f.s = slp_space_in(&n, f.cells, f.bytes);
	f.o = model_read(file, len, &f.s);
	return f;
}

void free_opened(opened_file *f)
{
	free(f->cells);
	free(f->bytes);
}

/* Stores of exactly these lengths, or a little longer. */
static lent_space lend_enough(const slp_lengths *n)
{
	size_t lens[FILLED_STORES];
	each_length(n, lens);
	for (size_t k = 0; k < FILLED_STORES; k++)
		lens[k] += below(3) ? 0 : below(9);
	return lend_space(lens);
}

static void check_stores(const opened_file *should, const lent_space *is)
{
	size_t n[FILLED_STORES];
	each_length(&should->lengths, n);
	for (size_t k = 0; k < FILLED_STORES; k++)
		CHECK(n[k] == 0 || memcmp(store_bytes(&should->s, k), store_bytes(&is->s, k), n[k] * unit_of(k)) == 0);
}

/* One store, or none where all are empty, is too short. */
static void check_short(const uint8_t *file, size_t len, const slp_lengths *n)
{
	size_t lens[FILLED_STORES], k = below(FILLED_STORES);
	each_length(n, lens);
	if (lens[k] == 0)
		return;
	lens[k] -= below(2) ? 1 : 1 + below(lens[k]);
	lent_space l = lend_space(lens);
	slp_opened o = guarded_read(file, len, &l, n), twelve = { .refused = 12 };
	CHECK_EQ(o.refused, 12);
	CHECK(same_opened(&o, &twelve));
	give_back_space(&l);
}

opened_file check_opening(const uint8_t *file, size_t len)
{
	slp_measured m = guarded_measure(file, len), should = model_measure(file, len);
	CHECK_EQ(m.refused, should.refused);
	CHECK(same_measured(&m, &should));
	opened_file f = by_model(file, len, should.lengths);
	lent_space l = lend_enough(&should.lengths);
	slp_opened o = guarded_read(file, len, &l, &should.lengths);
	CHECK_EQ(o.refused, f.o.refused);
	CHECK(same_opened(&o, &f.o));
	if (!o.refused && !f.o.refused) {
		check_stores(&f, &l);
		check_short(file, len, &should.lengths);
	}
	give_back_space(&l);
	f.o = o;
	return f;
}

unsigned check_file(const uint8_t *file, size_t len)
{
	opened_file f = check_opening(file, len);
	unsigned refused = f.o.refused;
	free_opened(&f);
	return refused;
}

size_t damaged_place(const model_file *f)
{
	if (below(4) == 0)
		return below(60);
	size_t k = below(f->events), at = k ? f->ends[k - 1] : 16 + (size_t)f->bytes[16];
	return below(3) ? (at + below(7)) % f->len : below(f->len);
}

uint8_t damaged_byte(uint8_t was)
{
	static const uint8_t codes[] = { 0x10, 0x35, 0x36, 0x37, 0x38, 0x39, 0x3a, 0x3b, 0x3c, 0x3d, 0x3f, 0x40, 0x41, 0x7d, 0, 1, 2, 3, 4, 255 };
	switch (below(3)) {
	case 0: return (uint8_t)(was ^ 1 << below(8));
	case 1: return codes[below(sizeof codes)];
	default: return (uint8_t)draw();
	}
}

unsigned check_damaged(model_file *f, lent_space *l)
{
	slp_lengths none = { 0 };
	size_t at = damaged_place(f);
	uint8_t was = f->bytes[at];
	f->bytes[at] = damaged_byte(was);
	slp_measured should = model_measure(f->bytes, f->len), m = slp_measure(f->bytes, f->len);
	CHECK(same_measured(&m, &should));
	if (should.refused) {
		slp_opened o = guarded_read(f->bytes, f->len, l, &none), refused = { .refused = should.refused, .offset = should.offset };
		CHECK(same_opened(&o, &refused));
	} else {
		check_file(f->bytes, f->len);
	}
	f->bytes[at] = was;
	return m.refused;
}
