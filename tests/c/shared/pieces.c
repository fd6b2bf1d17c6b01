#include "pieces.h"

#include <string.h>

#include "check.h"
#include "made.h"

size_t *listed(pieces *p, uint8_t code)
{
	for (size_t i = 0; i < p->entries; i++)
		if (p->codes[i] == code)
			return &p->sizes[i];
	p->codes[p->entries] = code;
	p->sizes[p->entries] = 0;
	return &p->sizes[p->entries++];
}

void unlist(pieces *p, uint8_t code)
{
	for (size_t i = 0; i < p->entries; i++)
		if (p->codes[i] == code) {
			p->entries--;
			memmove(p->codes + i, p->codes + i + 1, p->entries - i);
			memmove(p->sizes + i, p->sizes + i + 1, (p->entries - i) * sizeof *p->sizes);
		}
}

void take_apart(pieces *p, const uint8_t *file, size_t len)
{
	size_t first = slp_first_place(file, len);
	slp_step s = { .next = first };
	p->entries = p->n = 0;
	for (size_t at = 17; at < first; at += 3)
		*listed(p, file[at]) = (size_t)file[at + 1] << 8 | file[at + 2];
	while ((s = slp_step_at(file, len, s.next)).kind == SLP_STEP_EVENT) {
		piece *e = &p->events[p->n++];
		*e = (piece){ .code = s.code, .len = s.len };
		memcpy(e->bytes, file + s.payload, s.len);
		first = s.next;
	}
	p->tail_len = len - first;
	memcpy(p->tail, file + first, p->tail_len);
}

void take_whole(pieces *p, slp_version v)
{
	plan q = { .version = v, .frames = 3, .items = 6, .fods = 6, .whispys = 6, .stadiums = 6, .ports = 2, .followers = 1, .seats = 2, .codes = 1,
	           .actual_size = 600, .metadata = 1, .metadata_len = 5, .end = 1, .double_end = 1 };
	made m = make_returning(q);
	m.in.game.frames.ports[0].port = 0;
	m.in.game.frames.ports[1].port = 2;
	for (size_t i = 0; i < 3; i++)
		m.cells[0][i] = (uint32_t)i;
	for (size_t k = 9; k < CELL_STORES; k++)
		for (size_t i = 0; i < cell_store(&m.in.stores, k)->len; i++)
			m.cells[k][i] = (uint32_t)(2 * i);
	m.in.game.end.initiator = 1;
	static uint8_t file[1 << 15];
	slp_written w = slp_write_game(file, sizeof file, &m.in.game, &m.in.stores, m.in.block, m.in.codes, m.in.metadata);
	CHECK_EQ(w.refused, 0);
	take_apart(p, file, w.len);
	unmake(&m);
}

static uint8_t *put_number(uint8_t *to, size_t number, size_t width)
{
	while (width--)
		*to++ = (uint8_t)(number >> 8 * width);
	return to;
}

uint8_t *put_together(const pieces *p, size_t *len)
{
	static const uint8_t signature[11] = { 0x7b, 0x55, 0x03, 0x72, 0x61, 0x77, 0x5b, 0x24, 0x55, 0x23, 0x6c };
	size_t data = 2 + 3 * p->entries;
	for (size_t i = 0; i < p->n; i++)
		data += 1 + p->events[i].len;
	uint8_t *file = take(15 + data + p->tail_len), *to = file + 15;
	memcpy(file, signature, sizeof signature);
	put_number(file + 11, data, 4);
	*to++ = 0x35;
	*to++ = (uint8_t)(3 * p->entries + 1);
	for (size_t i = 0; i < p->entries; i++) {
		*to++ = p->codes[i];
		to = put_number(to, p->sizes[i], 2);
	}
	for (size_t i = 0; i < p->n; i++) {
		*to++ = p->events[i].code;
		memcpy(to, p->events[i].bytes, p->events[i].len);
		to += p->events[i].len;
	}
	memcpy(to, p->tail, p->tail_len);
	*len = 15 + data + p->tail_len;
	return file;
}

size_t find(const pieces *p, uint8_t code, size_t k)
{
	for (size_t i = 0; i < p->n; i++)
		if (p->events[i].code == code && k-- == 0)
			return i;
	check_at(0, "there is such an event", __FILE__, __LINE__);
	return 0;
}

void drop_piece(pieces *p, size_t at)
{
	p->n--;
	memmove(&p->events[at], &p->events[at + 1], (p->n - at) * sizeof *p->events);
}

piece *insert_piece(pieces *p, size_t at, uint8_t code)
{
	memmove(&p->events[at + 1], &p->events[at], (p->n - at) * sizeof *p->events);
	p->n++;
	p->events[at] = (piece){ .code = code, .len = *listed(p, code) };
	return &p->events[at];
}

void double_piece(pieces *p, size_t from, size_t to)
{
	piece copy = p->events[from];
	*insert_piece(p, to, copy.code) = copy;
}

void move_piece(pieces *p, size_t from, size_t to)
{
	piece moved = p->events[from];
	drop_piece(p, from);
	*insert_piece(p, to, moved.code) = moved;
}

void resize(pieces *p, uint8_t code, size_t len)
{
	*listed(p, code) = len;
	for (size_t i = 0; i < p->n; i++)
		if (p->events[i].code == code)
			p->events[i].len = len;
}
