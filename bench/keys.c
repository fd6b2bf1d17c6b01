/* The body that costs a reader of metadata most: one map of the smallest entries whose keys differ, up to N bytes. A key is looked for among all before it.
 * The instructions of the calls alone, by valgrind:
 *
 *     make target/c/bin/keys
 *     valgrind --tool=callgrind --callgrind-out-file=/dev/null --toggle-collect='slp_*' target/c/bin/keys 65535
 */
#include <slp.h>
#include <stdio.h>
#include <stdlib.h>
#include <string.h>
#include <time.h>

/* Key k: none of its bytes, one, two or three, as few as tell it from those before. */
static size_t key_len(size_t k)
{
	return k == 0 ? 0 : k <= 256 ? 1 : k <= 256 + 65536 ? 2 : 3;
}

static size_t put_key(uint8_t *out, size_t k)
{
	static const size_t before[] = { 0, 1, 257, 65793 };
	size_t len = key_len(k);
	out[0] = 'U';
	out[1] = (uint8_t)len;
	for (size_t i = 0; i < len; i++)
		out[2 + i] = (uint8_t)((k - before[len]) >> (8 * i));
	return 2 + len;
}

/* An entry's value is an empty map, the shortest that there is. */
static size_t put_body(uint8_t *out, size_t room, size_t *entries)
{
	size_t len = 0, k = 0;
	for (; len + 4 + key_len(k) <= room; k++) {
		len += put_key(out + len, k);
		out[len++] = '{';
		out[len++] = '}';
	}
	*entries = k;
	return len;
}

static double now(void)
{
	struct timespec t;
	clock_gettime(CLOCK_PROCESS_CPUTIME_ID, &t);
	return (double)t.tv_sec + 1e-9 * (double)t.tv_nsec;
}

/* A file without a frame, and this body behind it. */
static size_t put_file(uint8_t *out, size_t room, const uint8_t *body, size_t len)
{
	static const uint8_t block[320];
	slp_game game = { .frames = { .version = { 0, 1, 0 } }, .metadata_given = 1 };
	slp_stores stores = { 0 };
	slp_bytes none = { NULL, 0 }, start = { block, sizeof block }, metadata = { body, len };
	return slp_write_game(out, room, &game, &stores, start, none, metadata).len;
}

int main(int argc, char **argv)
{
	size_t most = argc == 2 ? (size_t)atol(argv[1]) : 0, entries, room = most + 1000;
	if (!most) {
		fputs("usage: keys N\n", stderr);
		return 2;
	}
	uint8_t *body = malloc(most), *file = malloc(room);
	if (!body || !file)
		return 2;
	size_t len = put_body(body, most, &entries), file_len = len <= SLP_MAX_METADATA ? put_file(file, room, body, len) : 0;
	double began = now();
	slp_map_read r = slp_read_map(body, len, NULL, 0);
	double read = now() - began;
	printf("%zu bytes, %zu entries: slp_read_map %u in %.3f s", len, entries, r.refused, read);
	if (file_len) {
		began = now();
		slp_checked c = slp_check(file, file_len);
		printf(", slp_check %u in %.3f s", c.refused, now() - began);
	}
	printf("\n");
	free(body);
	free(file);
	return 0;
}
