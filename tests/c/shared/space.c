#include "space.h"

#include <stdlib.h>
#include <string.h>

#include "check.h"

_Static_assert(sizeof(slp_lengths) == FILLED_STORES * sizeof(size_t), "slp_lengths has a number for each store");

void each_length(const slp_lengths *n, size_t each[FILLED_STORES])
{
	memcpy(each, n, sizeof *n);
}

size_t unit_of(size_t k)
{
	return k < CELL_STORES ? 4 : 1;
}

static slp_cell_space *cell_space(slp_space *s, size_t k)
{
	slp_cell_space *all[CELL_STORES] = {
		&s->ids, &s->starts, &s->pres, &s->posts, &s->ends, &s->items, &s->fods, &s->whispys, &s->stadiums,
		&s->item_offsets, &s->fod_offsets, &s->whispy_offsets, &s->stadium_offsets,
	};
	return all[k];
}

static void set_space(slp_space *s, size_t k, uint8_t *p, size_t len)
{
	if (k < CELL_STORES)
		*cell_space(s, k) = (slp_cell_space){ (uint32_t *)(void *)p, len };
	else
		*(k == CELL_STORES ? &s->presence : &s->codes) = (slp_byte_space){ p, len };
}

uint8_t *store_bytes(const slp_space *s, size_t k)
{
	slp_space copy = *s;
	if (k < CELL_STORES)
		return (uint8_t *)cell_space(&copy, k)->p;
	return k == CELL_STORES ? s->presence.p : s->codes.p;
}

lent_space lend_space(const size_t lens[FILLED_STORES])
{
	lent_space l;
	for (size_t k = 0; k < FILLED_STORES; k++) {
		size_t bytes = lens[k] * unit_of(k);
		uint8_t *old = take(bytes);
		memset(old, (int)(0x5c + k), bytes);
		l.loans[k] = lend(old, lens[k], unit_of(k));
		l.lens[k] = lens[k];
		set_space(&l.s, k, l.loans[k].data, lens[k]);
		free(old);
	}
	return l;
}

void give_back_space(lent_space *l)
{
	for (size_t k = 0; k < FILLED_STORES; k++)
		give_back(&l->loans[k]);
}

slp_measured guarded_measure(const uint8_t *file, size_t len)
{
	loan f = lend(file, len, 1);
	slp_measured m = slp_measure(f.data, len);
	CHECK(kept(&f, 0));
	give_back(&f);
	return m;
}

slp_opened guarded_read(const uint8_t *file, size_t len, lent_space *l, const slp_lengths *needed)
{
	size_t n[FILLED_STORES];
	loan f = lend(file, len, 1);
	slp_opened o = slp_read_game(f.data, len, &l->s);
	CHECK(kept(&f, 0));
	give_back(&f);
	each_length(needed, n);
	for (size_t k = 0; k < FILLED_STORES; k++)
		CHECK(kept(&l->loans[k], o.refused ? 0 : n[k] * unit_of(k)));
	return o;
}
