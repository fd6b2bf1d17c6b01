/* Single texts of a replay's metadata. */
#include <stdlib.h>
#include <string.h>

#include "tool.h"

/* An entry takes at least four bytes of a body: a key's two, and two braces. */
enum { LEAST = 4 };

/* The entry after one and all inside it. */
static size_t after(const slp_entry *entries, size_t i)
{
	size_t left = 1;
	while (left > 0) {
		left--;
		if (entries[i].kind == SLP_ENTRY_MAP)
			left += entries[i].value;
		i++;
	}
	return i;
}

/* Of `count` entries from `i` on, those inside maps not counted, the one of a key; `none` where there is none. */
static size_t find(const uint8_t *body, const slp_entry *entries, size_t i, size_t count, const char *key, size_t none)
{
	for (; count > 0; count--, i = after(entries, i))
		if (entries[i].key_len == strlen(key) && memcmp(body + entries[i].key, key, strlen(key)) == 0)
			return i;
	return none;
}

static slp_bytes text_in(const uint8_t *body, const slp_entry *entries, slp_map_read r, const char *const *keys, int depth)
{
	slp_bytes nothing = { NULL, 0 };
	size_t i = 0, count = r.count;
	for (int k = 0; k < depth; k++) {
		i = find(body, entries, i, count, keys[k], r.entries);
		if (i == r.entries)
			return nothing;
		if (k < depth - 1 && entries[i].kind != SLP_ENTRY_MAP)
			return nothing;
		count = entries[i].value;
		i += k < depth - 1;
	}
	return entries[i].kind == SLP_ENTRY_TEXT ? slp_part(body, entries[i].value, entries[i].len) : nothing;
}

slp_bytes metadata_text(const replay *r, const char *const *keys, int depth)
{
	const uint8_t *body = r->file.bytes + r->opened.places.metadata_at;
	size_t len = r->opened.places.metadata_len, most = len / LEAST + 1;
	slp_bytes found = { NULL, 0 };
	slp_entry *entries = r->opened.game.metadata_given ? malloc(most * sizeof *entries) : NULL;
	if (!entries)
		return found;
	slp_map_read m = slp_read_map(body, len, entries, SLP_CELLS(most));
	if (!m.refused)
		found = text_in(body, entries, m, keys, depth);
	free(entries);
	return found;
}
