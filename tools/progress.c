/* A bar on standard error, which several threads may move. */
#include <inttypes.h>
#include <pthread.h>
#include <stdio.h>
#include <string.h>
#include <sys/ioctl.h>
#include <unistd.h>

#include "tool.h"

/* Less than this is done before a bar could be read. */
#define LONG_WORK (UINT64_C(64) << 20)
#define MEGABYTE (UINT64_C(1) << 20)

/* The widest and the narrowest bar, a terminal's columns where it does not say, and room for a line. */
enum { WIDEST = 30, NARROWEST = 5, COLUMNS = 80, LINE = 256, NOT_DRAWN = -1 };

static struct {
	int on;
	int drawn;   /* the percentage that the bar shows */
	const char *what;
	uint64_t done, total;
} bar = { .drawn = NOT_DRAWN };

void progress_begin(int when, const char *what, uint64_t total)
{
	progress_clear();
	bar.on = when == PROGRESS_ALWAYS || (when == PROGRESS_AUTO && total > LONG_WORK && isatty(STDERR_FILENO));
	bar.what = what;
	bar.total = total;
	bar.done = 0;
}

/* How wide a line may be: the last column stays free, since some terminals go on to the next line from it. */
static int line_width(void)
{
	struct winsize w = { .ws_col = 0 };
	int columns = ioctl(STDERR_FILENO, TIOCGWINSZ, &w) == 0 && w.ws_col > 0 ? w.ws_col : COLUMNS;
	return columns - 1;
}

/* The bar takes what the words leave it; without room for one the words stand alone, cut where the line ends. */
static void draw(int percent)
{
	char amount[64], marks[WIDEST + 1], line[LINE];
	int most = line_width();
	snprintf(amount, sizeof amount, "%3d%%  %" PRIu64 " of %" PRIu64 " MB", percent, bar.done / MEGABYTE, bar.total / MEGABYTE);
	int left = most - (int)strlen(bar.what) - (int)strlen(amount) - 4, width = left < WIDEST ? left : WIDEST;
	for (int i = 0; i < width; i++)
		marks[i] = i < percent * width / 100 ? '#' : '-';
	if (width >= NARROWEST)
		snprintf(line, sizeof line, "%s [%.*s] %s", bar.what, width, marks, amount);
	else
		snprintf(line, sizeof line, "%s %s", bar.what, amount);
	fprintf(stderr, "\r%.*s", most, line);
	fflush(stderr);
}

static void move(uint64_t done)
{
	bar.done += done;
	if (!bar.on || bar.total == 0)
		return;
	uint64_t share = bar.done < bar.total ? bar.done * 100 / bar.total : 100;
	if ((int)share == bar.drawn)
		return;
	bar.drawn = (int)share;
	draw(bar.drawn);
}

static pthread_mutex_t lock = PTHREAD_MUTEX_INITIALIZER;

void progress_add(uint64_t done)
{
	pthread_mutex_lock(&lock);
	move(done);
	pthread_mutex_unlock(&lock);
}

void progress_hold(void)
{
	pthread_mutex_lock(&lock);
	if (bar.drawn != NOT_DRAWN) {
		fputs("\r\033[K", stderr);
		fflush(stderr);
		bar.drawn = NOT_DRAWN;
	}
}

void progress_release(void)
{
	pthread_mutex_unlock(&lock);
}

void progress_clear(void)
{
	progress_hold();
	progress_release();
}
