#include "part.h"

#include <stdlib.h>
#include <string.h>

#include "check.h"

/* Of columns of `rows` cells the n from `first` on. */
static void cut_cells(part *p, size_t k, size_t rows, size_t first, size_t n)
{
	slp_cells *c = cell_store(&p->in.stores, k);
	size_t columns = rows ? c->len / rows : 0;
	uint32_t *to = p->cells[k] = take(4 * columns * n + 4);
	for (size_t i = 0; n && i < columns; i++)
		memcpy(to + i * n, c->p + i * rows + first, 4 * n);
	*c = (slp_cells){ to, columns * n };
}

/* Rows by offsets, which begin anew at 0: store k, whose offsets are store k + 4. */
static void cut_rows(part *p, size_t k, size_t *rows, size_t a, size_t b)
{
	slp_cells *offsets = cell_store(&p->in.stores, k + 4);
	if (offsets->len == 0)
		return;
	uint32_t first = offsets->p[a], *to = p->cells[k + 4] = take(4 * (b - a + 1));
	for (size_t i = a; i <= b; i++)
		to[i - a] = offsets->p[i] - first;
	*offsets = (slp_cells){ to, b - a + 1 };
	cut_cells(p, k, *rows, first, to[b - a]);
	*rows = to[b - a];
}

static int is_there(const uint8_t *bits, size_t len, size_t i)
{
	return len == 0 || (bits[i / 8] >> i % 8 & 1);
}

/* One slot's bits from `*bits` on, which goes past them; how many bytes it has in the part, from `to` on. */
static size_t cut_bits(const uint8_t **bits, size_t len, size_t a, size_t b, uint8_t *to, int marked)
{
	size_t bytes = (b - a + 7) / 8, there = 0;
	for (size_t i = a; i < b; i++)
		there += is_there(*bits, len, i) != 0;
	if (there < b - a || marked == 1 || (marked == 2 && below(2))) {
		draw_bytes(to, bytes);
		for (size_t i = a; i < b; i++) {
			unsigned bit = 1u << (i - a) % 8;
			uint8_t *byte = to + (i - a) / 8;
			*byte = (uint8_t)(is_there(*bits, len, i) ? *byte | bit : *byte & ~bit);
		}
	} else {
		bytes = 0;
	}
	*bits = len ? *bits + len : *bits;
	return bytes;
}

static void cut_presence(part *p, size_t a, size_t b, int marked)
{
	slp_frames *f = &p->in.game.frames;
	const uint8_t *bits = p->in.stores.presence.p;
	uint8_t *to = p->presence = take(8 * ((b - a + 7) / 8) + 1);
	size_t len = 0;
	for (size_t k = 0; k < f->port_count; k++) {
		slp_port_column *c = &f->ports[k];
		len += c->leader_presence = cut_bits(&bits, c->leader_presence, a, b, to + len, marked);
		if (c->follower)
			len += c->follower_presence = cut_bits(&bits, c->follower_presence, a, b, to + len, marked);
	}
	p->in.stores.presence = (slp_bytes){ to, len };
}

part cut_part(const input *in, size_t a, size_t b, int marked)
{
	part p = { .in = *in };
	slp_counts *c = &p.in.game.frames.counts;
	for (size_t k = 0; k < 5; k++)
		cut_cells(&p, k, c->frames, a, b - a);
	cut_rows(&p, 5, &c->items, a, b);
	cut_rows(&p, 6, &c->fods, a, b);
	cut_rows(&p, 7, &c->whispys, a, b);
	cut_rows(&p, 8, &c->stadiums, a, b);
	cut_presence(&p, a, b, marked);
	c->frames = b - a;
	return p;
}

void drop_part(part *p)
{
	for (size_t k = 0; k < CELL_STORES; k++)
		free(p->cells[k]);
	free(p->presence);
}
