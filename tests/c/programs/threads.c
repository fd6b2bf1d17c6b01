/* Calls at the same time, over the same inputs and different outputs; and how much stack a call takes. */
#include <pthread.h>
#include <stdio.h>
#include <stdlib.h>
#include <string.h>
#include <sys/mman.h>

#include "check.h"
#include "made.h"
#include "model.h"
#include "open.h"

enum { THREADS = 4, GAMES = 12, STACK = 1 << 20, PAINT = 0xc7, STACK_LIMIT = 64 * 1024 };

static made games[GAMES];
static model_file files[GAMES];
static slp_measured measures[GAMES];

/* One thread's work, and how many answers were wrong. */
typedef struct {
	size_t turns, wrong;
} work;

static void make_games(void)
{
	for (size_t i = 0; i < GAMES; i++) {
		games[i] = make_returning(i ? random_plan(30) : rich_plan());
		files[i] = model_write(&games[i].in);
		measures[i] = model_measure(files[i].bytes, files[i].len);
	}
}

static void free_games(void)
{
	for (size_t i = 0; i < GAMES; i++) {
		unmake(&games[i]);
		model_free(&files[i]);
	}
}

/* Reads a game back from its file and saves it again, over the old output: whether it is the same. */
static int saved_again(size_t i, uint8_t *out)
{
	const model_file *f = &files[i];
	const slp_lengths *n = &measures[i].lengths;
	uint32_t *cells = malloc(4 * slp_space_cells(n) + 1);
	uint8_t *bytes = malloc(slp_space_bytes(n) + 1);
	slp_space space = slp_space_in(n, cells, bytes);
	memset(out, 0, f->len);
	slp_opened o = slp_read_game(f->bytes, f->len, &space);
	int same = !o.refused && slp_save(out, f->len, &o, &space, f->bytes).len == f->len && memcmp(out, f->bytes, f->len) == 0;
	free(cells);
	free(bytes);
	return same;
}

/* Writes a game, walks its file, reads it back, makes its mask: whether all is as the model has it. */
static int one_turn(size_t i, uint8_t *out)
{
	const input *in = &games[i].in;
	const model_file *f = &files[i];
	slp_written w = slp_write_game(out, f->len, &in->game, &in->stores, in->block, in->codes, in->metadata);
	if (w.refused || w.len != f->len || memcmp(out, f->bytes, f->len) != 0)
		return 0;
	if (slp_room(slp_plan_of(&in->game, in->block.len, in->codes.len, in->metadata.len)).bytes < w.len)
		return 0;
	slp_walked k = slp_walk(f->bytes, f->len);
	slp_step s = slp_step_at(f->bytes, f->len, k.place);
	uint8_t mask[64], scratch[256];
	uint8_t n = slp_rollbacks(in->stores.ids.p, in->stores.ids.len, SLP_EXCEPT_LAST, mask, sizeof mask, scratch, sizeof scratch);
	if (in->stores.ids.len && slp_frame_row(in->game.frames, SLP_STORES(&in->stores), in->stores.ids.len - 1).refused)
		return 0;
	if (slp_measure(f->bytes, f->len).lengths.posts != measures[i].lengths.posts || !saved_again(i, out))
		return 0;
	return k.events == f->events && k.whole && s.kind == SLP_STEP_ENDS && n == 0;
}

static void *turns(void *given)
{
	work *w = given;
	uint8_t *out = malloc(1 << 17);
	for (size_t t = 0; out && t < w->turns; t++)
		w->wrong += !one_turn(t % GAMES, out);
	w->wrong += !out;
	free(out);
	return NULL;
}

static void at_once(void)
{
	pthread_t threads[THREADS];
	work works[THREADS];
	make_games();
	for (size_t i = 0; i < THREADS; i++) {
		works[i] = (work){ rounds(3000, 30) + i, 0 };
		CHECK_EQ(pthread_create(&threads[i], NULL, turns, &works[i]), 0);
	}
	for (size_t i = 0; i < THREADS; i++) {
		CHECK_EQ(pthread_join(threads[i], NULL), 0);
		CHECK_EQ(works[i].wrong, 0);
	}
	free_games();
}

/* How much of a painted stack a thread used. */
static size_t stack_used(void *(*run)(void *), void *given)
{
	uint8_t *stack = mmap(NULL, STACK, PROT_READ | PROT_WRITE, MAP_PRIVATE | MAP_ANONYMOUS, -1, 0);
	pthread_attr_t with;
	pthread_t thread;
	size_t free_bytes = 0;
	memset(stack, PAINT, STACK);
	pthread_attr_init(&with);
	CHECK_EQ(pthread_attr_setstack(&with, stack, STACK), 0);
	CHECK_EQ(pthread_create(&thread, &with, run, given), 0);
	pthread_join(thread, NULL);
	pthread_attr_destroy(&with);
	while (free_bytes < STACK && stack[free_bytes] == PAINT)
		free_bytes++;
	munmap(stack, STACK);
	return STACK - free_bytes;
}

static void *nothing(void *given)
{
	return given;
}

static void little_stack(void)
{
	work w = { GAMES, 0 };
	make_games();
	size_t idle = stack_used(nothing, NULL), used = stack_used(turns, &w);
	CHECK_EQ(w.wrong, 0);
	CHECK(used > idle && used - idle < STACK_LIMIT);
	if (getenv("SLP_STACK"))
		printf("threads: %zu bytes of stack\n", used - idle);
	free_games();
}

int main(int argc, char **argv)
{
	begin("threads", argc, argv);
	test("at once", at_once);
	if (!light)
		test("little stack", little_stack);
	return finish();
}
