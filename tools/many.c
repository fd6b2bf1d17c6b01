/* A command over many files: several at a time, what is said of them in their order, and a line that sums up. */
#include <pthread.h>
#include <stdlib.h>
#include <string.h>
#include <unistd.h>

#include "tool.h"

/* How far the work may be ahead of what is shown: what is said of a file waits in memory. */
enum { AHEAD = 64 };

/* What was said of a file. */
typedef struct {
	int done;
	outcome how;
	char *lines, *messages;
	size_t lines_len, messages_len;
} result;

/* `next` is the first file that nobody works on, `shown` the first whose result is not shown. */
typedef struct {
	const request *q;
	one_file does;
	result *results;
	int next, shown;
	pthread_mutex_t lock;
	pthread_cond_t moved;
} work;

/* The next file, or -1. */
static int take(work *w)
{
	pthread_mutex_lock(&w->lock);
	while (w->next < w->q->count && w->next >= w->shown + AHEAD)
		pthread_cond_wait(&w->moved, &w->lock);
	int mine = w->next < w->q->count ? w->next++ : -1;
	pthread_mutex_unlock(&w->lock);
	return mine;
}

static void give(work *w, int i, const result *r)
{
	pthread_mutex_lock(&w->lock);
	w->results[i] = *r;
	w->results[i].done = 1;
	pthread_cond_broadcast(&w->moved);
	pthread_mutex_unlock(&w->lock);
}

/* Without memory for what is said of a file it is not read, and that is all that can be known. */
static void do_apart(work *w, int i)
{
	result r = { .how = IS_UNREAD };
	FILE *lines = open_memstream(&r.lines, &r.lines_len), *messages = open_memstream(&r.messages, &r.messages_len);
	if (lines && messages) {
		say_to(lines, messages);
		r.how = w->does(w->q, w->q->files[i]);
		say_to(NULL, NULL);
	}
	if (lines)
		fclose(lines);
	if (messages)
		fclose(messages);
	give(w, i, &r);
}

static void *work_on(void *all)
{
	work *w = all;
	for (int i; (i = take(w)) >= 0;)
		do_apart(w, i);
	return NULL;
}

/* The bar is on standard error too, and stays away until this is done. */
static void show(result *r)
{
	progress_hold();
	fwrite(r->lines, 1, r->lines_len, stdout);
	if (r->messages_len) {
		fflush(stdout);
		fwrite(r->messages, 1, r->messages_len, stderr);
	}
	progress_release();
	free(r->lines);
	free(r->messages);
}

static void show_next(work *w, int counts[OUTCOMES])
{
	pthread_mutex_lock(&w->lock);
	while (!w->results[w->shown].done)
		pthread_cond_wait(&w->moved, &w->lock);
	result r = w->results[w->shown];
	pthread_mutex_unlock(&w->lock);
	show(&r);
	counts[r.how]++;
	pthread_mutex_lock(&w->lock);
	w->shown++;
	pthread_cond_broadcast(&w->moved);
	pthread_mutex_unlock(&w->lock);
}

/* Whether there was a thread to do it. */
static int do_together(const request *q, one_file does, int jobs, int counts[OUTCOMES])
{
	work w = { .q = q, .does = does, .lock = PTHREAD_MUTEX_INITIALIZER, .moved = PTHREAD_COND_INITIALIZER };
	pthread_t *threads = calloc((size_t)jobs, sizeof *threads);
	int started = 0;
	w.results = calloc((size_t)q->count, sizeof *w.results);
	if (threads && w.results)
		while (started < jobs && pthread_create(&threads[started], NULL, work_on, &w) == 0)
			started++;
	while (started && w.shown < q->count)
		show_next(&w, counts);
	for (int i = 0; i < started; i++)
		pthread_join(threads[i], NULL);
	free(threads);
	free(w.results);
	return started > 0;
}

static void do_files(const request *q, one_file does, int counts[OUTCOMES])
{
	int jobs = q->jobs ? q->jobs : (int)sysconf(_SC_NPROCESSORS_ONLN);
	jobs = jobs < q->count ? jobs : q->count;
	if (jobs > 1 && do_together(q, does, jobs, counts))
		return;
	for (int i = 0; i < q->count; i++)
		counts[does(q, q->files[i])]++;
}

/* A count with commas between thousands. */
static void put_count(FILE *to, int n)
{
	if (n >= 1000) {
		put_count(to, n / 1000);
		fprintf(to, ",%03d", n % 1000);
	} else {
		fprintf(to, "%d", n);
	}
}

static void sum_up(const int counts[OUTCOMES], int all)
{
	static const char *const words[OUTCOMES] = { "whole", "sound", "cut", "refused", "not sound", "without metadata", "not read" };
	const char *before = ": ";
	fflush(stdout);
	fputs("slp: ", stderr);
	put_count(stderr, all);
	fputs(all == 1 ? " game" : " games", stderr);
	for (int i = 0; i < OUTCOMES; i++)
		if (counts[i]) {
			fputs(before, stderr);
			put_count(stderr, counts[i]);
			fprintf(stderr, " %s", words[i]);
			before = ", ";
		}
	fputc('\n', stderr);
}

int each_file(const request *q, one_file does)
{
	file_list l;
	int counts[OUTCOMES] = { 0 };
	if (list_files(q, &l) != WELL)
		return FAILED;
	request r = *q;
	r.files = l.paths;
	r.count = l.count;
	r.several = l.several;
	progress_begin(q->progress, "reading", total_size(r.files, r.count));
	do_files(&r, does, counts);
	progress_clear();
	if (r.several && r.count)
		sum_up(counts, r.count);
	free_files(&l);
	return l.failed || counts[IS_WHOLE] + counts[IS_SOUND] < r.count ? FAILED : WELL;
}
