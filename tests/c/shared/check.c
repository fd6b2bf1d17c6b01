#include "check.h"

#include <inttypes.h>
#include <stdio.h>
#include <stdlib.h>
#include <string.h>

enum { SHOWN_FAILURES = 20 };

int light;
static size_t times = 1;
static uint64_t first_state = 20010318;

static const char *name_of_program, *name_of_test;
static size_t passed, failed, checks, failures;
static uint64_t state;

size_t rounds(size_t all, size_t few)
{
	return light ? few : all * times;
}

void begin(const char *program, int argc, char **argv)
{
	name_of_program = program;
	for (int i = 1; i < argc; i++)
		if (strcmp(argv[i], "--light") == 0)
			light = 1;
		else if (strncmp(argv[i], "--times=", 8) == 0)
			times = (size_t)strtoull(argv[i] + 8, NULL, 10);
		else if (strncmp(argv[i], "--seed=", 7) == 0)
			first_state = strtoull(argv[i] + 7, NULL, 10);
}

void test(const char *name, void (*body)(void))
{
	size_t before = failures;
	name_of_test = name;
	state = first_state;
	body();
	if (failures == before)
		passed++;
	else
		failed++;
}

int finish(void)
{
	if (passed + failed == 0 || checks == 0) {
		printf("%s: no test ran\n", name_of_program);
		return 1;
	}
	printf("%s: %zu passed", name_of_program, passed);
	if (failed)
		printf(", %zu failed", failed);
	printf(" (%zu checks)\n", checks);
	return failed != 0;
}

static int failure(const char *file, int line)
{
	failures++;
	if (failures > SHOWN_FAILURES)
		return 0;
	fprintf(stderr, "%s:%d: %s: ", file, line, name_of_test);
	return 1;
}

int check_at(int ok, const char *what, const char *file, int line)
{
	checks++;
	if (!ok && failure(file, line))
		fprintf(stderr, "not so: %s\n", what);
	return ok;
}

int check_equal_at(uint64_t is, uint64_t should, const char *what, const char *file, int line)
{
	checks++;
	if (is != should && failure(file, line))
		fprintf(stderr, "%s is %" PRIu64 ", not %" PRIu64 "\n", what, is, should);
	return is == should;
}

/* splitmix64 */
uint64_t draw(void)
{
	uint64_t z = state += 0x9e3779b97f4a7c15u;
	z = (z ^ (z >> 30)) * 0xbf58476d1ce4e5b9u;
	z = (z ^ (z >> 27)) * 0x94d049bb133111ebu;
	return z ^ (z >> 31);
}

size_t below(size_t n)
{
	return n ? draw() % n : 0;
}

void draw_bytes(void *to, size_t len)
{
	uint8_t *p = to;
	for (size_t i = 0; i < len; i++)
		p[i] = (uint8_t)draw();
}

void *take(size_t bytes)
{
	void *p = malloc(bytes ? bytes : 1);
	if (!p) {
		fprintf(stderr, "%s: out of memory\n", name_of_program);
		exit(2);
	}
	return p;
}
