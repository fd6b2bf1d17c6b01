/* How much room a plan takes. */
#include "columns.h"
#include "model.h"

static unsigned refused(const slp_plan *p)
{
	if (too_new(p->version))
		return 1;
	if (too_many(&p->counts, p->codes, p->metadata))
		return 2;
	if (p->slots > 8)
		return 7;
	return p->block < block_length(p->version) || p->block > 65535 ? 8 : 0;
}

/* A record: its code, the frame id, port and follower where it has them, and its columns. */
static size_t record(family f, slp_version v)
{
	return has_family(f, v) ? 1u + 4u + (f == PRE || f == POST ? 2u : 0u) + bytes_of(f, v) : 0;
}

/* What every frame takes, and the rows that frames have. */
static size_t frames_room(const slp_plan *p)
{
	const slp_version v = p->version;
	const slp_counts *n = &p->counts;
	size_t one = record(FRAME_START, v) + p->slots * (record(PRE, v) + record(POST, v)) + record(FRAME_END, v);
	size_t rows = n->items * record(ITEM, v) + n->fods * record(FOD, v) + n->whispys * record(WHISPY, v) + n->stadiums * record(STADIUM, v);
	return n->frames ? n->frames * one + rows : 0;
}

slp_reserved model_room(const slp_plan *p)
{
	const slp_version v = p->version;
	unsigned number = refused(p);
	if (number)
		return (slp_reserved){ .refused = (uint8_t)number };
	size_t entries = 4u + (reaches(v, 2, 2) ? 1u : 0u) + (reaches(v, 3, 0) ? 2u : 0u) + (reaches(v, 3, 3) ? 2u : 0u) + (reaches(v, 3, 18) ? 3u : 0u);
	size_t end = reaches(v, 3, 13) ? 7 : reaches(v, 2, 0) ? 3 : 2;
	size_t codes = reaches(v, 3, 3) ? p->codes / 512 * (1 + 512 + 2 + 1 + 1) : 0;
	size_t head = 11 + 4 + 2 + 3 * entries, tail = 11 + p->metadata + 2;
	return (slp_reserved){ .bytes = head + 1 + p->block + codes + frames_room(p) + 2 * end + tail };
}
