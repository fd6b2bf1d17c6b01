/* The reader and the masks. */
#include <string.h>

#include "model.h"

static const uint8_t SIGNATURE[11] = { 0x7b, 0x55, 0x03, 0x72, 0x61, 0x77, 0x5b, 0x24, 0x55, 0x23, 0x6c };

typedef struct {
	uint8_t refused;
	size_t first, stop;
	int whole;
	int32_t sizes[256];   /* of payloads; -1 where the table lacks the code */
} head;

static head refused_head(uint8_t n)
{
	return (head){ .refused = n };
}

static head read_head(const uint8_t *file, size_t len)
{
	head h = { 0 };
	if (len < 15 || memcmp(file, SIGNATURE, sizeof SIGNATURE) != 0)
		return refused_head(14);
	uint64_t declared = (uint64_t)file[11] << 24 | (uint64_t)file[12] << 16 | (uint64_t)file[13] << 8 | file[14];
	/* a length of zero was never filled in: the data runs to the file's end, and more of it is missing */
	h.whole = declared != 0 && declared <= len - 15;
	h.stop = h.whole ? 15 + (size_t)declared : len;
	if (h.stop < 17 || file[15] != 0x35 || file[16] % 3 != 1)
		return refused_head(15);
	h.first = 16 + (size_t)file[16];
	if (h.first > h.stop)
		return refused_head(15);
	for (size_t i = 0; i < 256; i++)
		h.sizes[i] = -1;
	for (size_t at = 17; at < h.first; at += 3) {
		if (h.sizes[file[at]] >= 0)
			return refused_head(15);
		h.sizes[file[at]] = file[at + 1] * 256 + file[at + 2];
	}
	return h;
}

static slp_step refused_step(uint8_t n, size_t offset)
{
	return (slp_step){ .kind = SLP_STEP_REFUSED, .refused = n, .offset = offset };
}

static slp_step step_in(const head *h, const uint8_t *file, size_t place)
{
	if (place < h->first || place > h->stop)
		return refused_step(17, place);
	if (place == h->stop)
		return (slp_step){ .kind = h->whole ? SLP_STEP_ENDS : SLP_STEP_CUT };
	int32_t size = h->sizes[file[place]];
	if (size < 0)
		return refused_step(16, place);
	if ((size_t)size > h->stop - place - 1)
		return h->whole ? refused_step(17, place) : (slp_step){ .kind = SLP_STEP_CUT };
	return (slp_step){ .kind = SLP_STEP_EVENT, .code = file[place], .at = place, .payload = place + 1, .len = (size_t)size,
	                   .next = place + 1 + (size_t)size };
}

slp_step model_step(const uint8_t *file, size_t len, size_t place)
{
	head h = read_head(file, len);
	if (h.refused)
		return refused_step(h.refused, h.refused == 15 ? 15 : 0);
	return step_in(&h, file, place);
}

slp_walked model_walk(const uint8_t *file, size_t len)
{
	head h = read_head(file, len);
	if (h.refused)
		return (slp_walked){ .refused = h.refused, .offset = h.refused == 15 ? 15 : 0 };
	slp_walked w = { .place = h.first };
	slp_step s;
	while ((s = step_in(&h, file, w.place)).kind == SLP_STEP_EVENT) {
		w.events++;
		w.place = s.next;
	}
	if (s.kind == SLP_STEP_REFUSED)
		return (slp_walked){ .refused = s.refused, .offset = s.offset };
	w.whole = (uint8_t)h.whole;
	w.stray = h.stop - w.place;
	return w;
}

/* Whether an id occurs from frame `from` on and before frame `to`. */
static int occurs(const uint32_t *ids, size_t from, size_t to, uint32_t id)
{
	for (size_t i = from; i < to; i++)
		if (ids[i] == id)
			return 1;
	return 0;
}

unsigned model_rollbacks(const uint32_t *ids, size_t n, uint8_t keep, size_t mask_len, size_t scratch_len, uint8_t *mask,
                         uint8_t *scratch, size_t *needed)
{
	*needed = 0;
	if (n > SLP_MAX_FRAMES)
		return 2;
	if (mask_len < n)
		return 12;
	for (size_t i = 0; i < n; i++) {
		int32_t id = (int32_t)ids[i];
		if (id < SLP_FIRST_FRAME_ID || id > SLP_LAST_FRAME_ID)
			return 13;
		if ((size_t)(id + 124) > *needed)
			*needed = (size_t)(id + 124);
	}
	if (scratch_len < *needed)
		return 12;
	for (size_t i = 0; i < n; i++)
		mask[i] = (uint8_t)(keep ? occurs(ids, i + 1, n, ids[i]) : occurs(ids, 0, i, ids[i]));
	for (size_t p = 0; p < *needed; p++)
		scratch[p] = (uint8_t)occurs(ids, 0, n, (uint32_t)p - 123);
	return 0;
}

int same_step(slp_step a, slp_step b)
{
	return a.kind == b.kind && a.refused == b.refused && a.code == b.code && a.offset == b.offset && a.at == b.at &&
	       a.payload == b.payload && a.len == b.len && a.next == b.next;
}

int same_walked(slp_walked a, slp_walked b)
{
	return a.refused == b.refused && a.whole == b.whole && a.offset == b.offset && a.events == b.events && a.stray == b.stray &&
	       a.place == b.place;
}
