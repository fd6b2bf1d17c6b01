#include "index.h"

#include <stdlib.h>
#include <string.h>

#include "check.h"
#include "model.h"

enum { START_CODE = 0x36, FRAME_CODE = 0x3a };

static uint32_t four(const uint8_t *p)
{
	return (uint32_t)p[0] << 24 | (uint32_t)p[1] << 16 | (uint32_t)p[2] << 8 | p[3];
}

static void put_four(uint8_t *p, size_t n)
{
	for (int i = 0; i < 4; i++)
		p[i] = (uint8_t)(n >> 8 * (3 - i));
}

/* Whether the first event is a GameStart that says a version from 2.2 on. */
static int begins_rightly(const uint8_t *file, slp_step first)
{
	if (first.kind != SLP_STEP_EVENT || first.code != START_CODE || first.len < 4)
		return 0;
	const uint8_t *version = file + first.payload;
	return version[0] > 2 || (version[0] == 2 && version[1] >= 2);
}

/* The sizes of a table that was accepted, as it stands there; -1 where it lacks a code. */
static void sizes_in(const uint8_t *file, long sizes[256])
{
	for (int i = 0; i < 256; i++)
		sizes[i] = -1;
	for (size_t at = 17; at < 16 + (size_t)file[16]; at += 3)
		sizes[file[at]] = file[at + 1] * 256L + file[at + 2];
}

model_index model_index_of(const uint8_t *file, size_t len)
{
	model_index m = { .len = 9 };
	slp_walked w = model_walk(file, len);
	if (w.refused)
		return (model_index){ .refused = w.refused, .offset = w.offset };
	size_t first = 16 + (size_t)file[16];
	if (!begins_rightly(file, model_step(file, len, first)))
		return (model_index){ .refused = SLP_NO_INDEX };
	long sizes[256];
	sizes_in(file, sizes);
	int far = 0;
	m.bytes = take(9 + 8 * w.events);
	/* the walk has seen that every code is listed, and that its last event ends at this place */
	for (size_t at = first; at < w.place; at += 1 + (size_t)sizes[file[at]]) {
		if (file[at] != FRAME_CODE)
			continue;
		if (sizes[FRAME_CODE] < 4) {
			free(m.bytes);
			return (model_index){ .refused = SLP_NO_INDEX };
		}
		far |= at > UINT32_MAX;
		memcpy(m.bytes + m.len, file + at + 1, 4);
		put_four(m.bytes + m.len + 4, at);
		m.len += 8;
		m.frames++;
	}
	if (m.frames > SLP_MAX_FRAMES || far) {
		free(m.bytes);
		return (model_index){ .refused = SLP_TOO_MANY };
	}
	memcpy(m.bytes, "SPX\0\1", 5);
	put_four(m.bytes + 5, m.frames);
	return m;
}

static int is_index(const uint8_t *index, size_t len)
{
	return len >= 9 && memcmp(index, "SPX\0\1", 5) == 0 && len == 9 + 8 * (uint64_t)four(index + 5);
}

unsigned model_accepts(const model_index *own, const uint8_t *index, size_t len)
{
	if (own->refused)
		return own->refused;
	if (!is_index(index, len))
		return SLP_BAD_INDEX;
	return len == own->len && memcmp(index, own->bytes, len) == 0 ? 0 : SLP_OTHER_REPLAY;
}

slp_moment model_find(const uint8_t *index, size_t len, int32_t id)
{
	if (!is_index(index, len))
		return (slp_moment){ .refused = SLP_BAD_INDEX };
	slp_moment m = { .refused = SLP_NO_SUCH_ID };
	for (size_t k = 0; k < (len - 9) / 8; k++)
		if (four(index + 9 + 8 * k) == (uint32_t)id)
			m = (slp_moment){ 0, k, four(index + 13 + 8 * k), id };
	return m;
}
