/* Replays stored vectors: games with the file, the masks and the rows that the original Rust gives for them. oracle/vectors/README.md has their
 * format. */
#include <stdio.h>
#include <stdlib.h>
#include <string.h>

#include "check.h"
#include "model.h"

/* From the repository's root, where tests/c/run runs the programs. */
static const char STORED[] = "oracle/vectors/games.bin";

/* What is left of the stored bytes; `ended` once more was asked for than there was. */
typedef struct {
	const uint8_t *p;
	size_t left;
	int ended;
} stream;

static stream stored, vector;

static slp_bytes next_bytes(stream *s, uint64_t len)
{
	if (s->ended || len > s->left) {
		s->ended = 1;
		return (slp_bytes){ NULL, 0 };
	}
	slp_bytes b = { s->p, (size_t)len };
	s->p += len;
	s->left -= (size_t)len;
	return b;
}

static uint64_t next_number(stream *s)
{
	slp_bytes b = next_bytes(s, 8);
	uint64_t n = 0;
	for (size_t i = b.len; i > 0; i--)
		n = n << 8 | b.p[i - 1];
	return n;
}

static slp_bytes next_slice(stream *s)
{
	return next_bytes(s, next_number(s));
}

/* Cells, in memory of their own that is aligned. */
static slp_cells next_cells(stream *s)
{
	uint64_t n = next_number(s);
	if (n > s->left / 4)
		s->ended = 1;
	slp_bytes b = next_bytes(s, n * 4);
	uint32_t *cells = take(b.len);
	if (b.len)
		memcpy(cells, b.p, b.len);
	return (slp_cells){ cells, b.len / 4 };
}

static input next_game(stream *s)
{
	input in;
	memset(&in, 0, sizeof in);
	slp_bytes game = next_bytes(s, sizeof in.game);
	if (game.len)
		memcpy(&in.game, game.p, game.len);
	for (size_t k = 0; k < CELL_STORES; k++)
		*cell_store(&in.stores, k) = next_cells(s);
	in.stores.presence = next_slice(s);
	in.block = next_slice(s);
	in.codes = next_slice(s);
	in.metadata = next_slice(s);
	return in;
}

static void free_game(input *in)
{
	for (size_t k = 0; k < CELL_STORES; k++)
		free((void *)(uintptr_t)cell_store(&in->stores, k)->p);
}

static void check_file(const input *in, slp_bytes file)
{
	size_t room = file.len + 9;
	uint8_t *out = take(room);
	memset(out, 0xee, room);
	slp_written w = guarded_write(in, out, room);
	CHECK_EQ(w.refused, 0);
	CHECK_EQ(w.len, file.len);
	CHECK(memcmp(out, file.p, file.len) == 0);
	CHECK(out[file.len] == 0xee);
	slp_walked k = guarded_walk(file.p, file.len);
	CHECK_EQ(k.refused, 0);
	CHECK_EQ(k.whole, 1);
	CHECK_EQ(k.stray, 0);
	free(out);
}

static size_t scratch_needed(slp_cells ids)
{
	int32_t largest = SLP_FIRST_FRAME_ID - 1;
	for (size_t i = 0; i < ids.len; i++)
		if ((int32_t)ids.p[i] > largest && (int32_t)ids.p[i] <= SLP_LAST_FRAME_ID)
			largest = (int32_t)ids.p[i];
	return (size_t)(largest + 124);
}

static void check_mask(slp_cells ids, uint8_t keep, uint64_t number, slp_bytes mask)
{
	size_t needed = scratch_needed(ids);
	uint8_t *to = take(ids.len), *scratch = take(needed);
	memset(to, 0xee, ids.len);
	memset(scratch, 0xee, needed);
	CHECK_EQ(guarded_rollbacks(ids.p, ids.len, keep, to, ids.len, scratch, needed), number);
	CHECK_EQ(mask.len, number ? 0 : ids.len);
	if (mask.len == ids.len && mask.len)
		CHECK(memcmp(to, mask.p, mask.len) == 0);
	free(to);
	free(scratch);
}

static size_t rows_checked;

static void check_row(const input *in, stream *s)
{
	slp_bytes kind = next_bytes(s, 1);
	size_t slot = (size_t)next_number(s), index = (size_t)next_number(s);
	slp_cells should = next_cells(s);
	if (CHECK(!s->ended && kind.p[0] < ROW_KINDS)) {
		flat f = guarded_row(in, (row_kind)kind.p[0], slot, index);
		CHECK_EQ(f.refused, 0);
		CHECK(flat_is(&f, should.p, should.len));
		/* the stored rows have values alone; marks are told by the presence bits */
		values v = model_row(in, (row_kind)kind.p[0], slot, index);
		CHECK(flat_marked(&f, v.marks, v.n_marks));
		rows_checked++;
	}
	free((void *)(uintptr_t)should.p);
}

static void check_rows(const input *in, stream *s)
{
	for (uint64_t n = next_number(s); n > 0 && !s->ended; n--)
		check_row(in, s);
	CHECK(!s->ended);
	CHECK_EQ(s->left, 0);
}

static void check_vector(void)
{
	input in = next_game(&vector);
	slp_bytes file = next_slice(&vector);
	uint64_t number = next_number(&vector);
	slp_bytes first = next_slice(&vector), last = next_slice(&vector);
	if (CHECK(!vector.ended)) {
		CHECK_EQ(model_refusal(&in), 0);
		check_file(&in, file);
		check_mask(in.stores.ids, SLP_EXCEPT_FIRST, number, first);
		check_mask(in.stores.ids, SLP_EXCEPT_LAST, number, last);
		check_rows(&in, &vector);
	}
	free_game(&in);
}

/* The next vector, under its name; of the largest only some where fewer rounds are asked for. */
static void next_vector(size_t n)
{
	static char name[128];
	slp_bytes all = next_slice(&stored);
	vector = (stream){ all.p, all.len, stored.ended };
	slp_bytes title = next_slice(&vector);
	snprintf(name, sizeof name, "vector %zu, %.*s", n, (int)(title.len < 80 ? title.len : 80), title.len ? (const char *)title.p : "");
	if (!light || n % 16 == 0 || stored.ended)
		test(name, check_vector);
}

static uint8_t *contents(const char *path, size_t *len)
{
	FILE *f = fopen(path, "rb");
	if (!f || fseek(f, 0, SEEK_END) != 0) {
		perror(path);
		exit(2);
	}
	long size = ftell(f);
	uint8_t *all = take((size_t)size);
	rewind(f);
	*len = fread(all, 1, (size_t)size, f);
	fclose(f);
	return all;
}

static void check_magic(void)
{
	slp_bytes magic = next_bytes(&stored, 8);
	CHECK(magic.len == 8 && memcmp(magic.p, "SLPVEC1\n", 8) == 0);
}

static void check_end(void)
{
	CHECK(!stored.ended);
	CHECK_EQ(stored.left, 0);
	CHECK(rows_checked > 0);
}

int main(int argc, char **argv)
{
	begin("vectors", argc, argv);
	size_t len;
	uint8_t *all = contents(STORED, &len);
	stored = (stream){ all, len, 0 };
	test("the magic", check_magic);
	uint64_t count = next_number(&stored);
	for (size_t n = 0; n < count && !stored.ended; n++)
		next_vector(n);
	test("the end", check_end);
	free(all);
	return finish();
}
