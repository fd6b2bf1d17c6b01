/* Counted checks, and the numbers that tests draw. */
#ifndef CHECK_H
#define CHECK_H

#include <stddef.h>
#include <stdint.h>

/* Whether fewer rounds are asked for (the argument --light), as under valgrind. */
extern int light;

/* How many rounds a test has: all, as many times as asked for (--times=N), or few. */
size_t rounds(size_t all, size_t few);

void begin(const char *program, int argc, char **argv);
void test(const char *name, void (*body)(void));
/* Prints the summary; the program's exit status. */
int finish(void);

int check_at(int ok, const char *what, const char *file, int line);
int check_equal_at(uint64_t is, uint64_t should, const char *what, const char *file, int line);

#define CHECK(ok) check_at((ok) != 0, #ok, __FILE__, __LINE__)
#define CHECK_EQ(is, should) check_equal_at((uint64_t)(is), (uint64_t)(should), #is, __FILE__, __LINE__)

/* Always the same numbers: every test begins with the same seed, unless another is asked for (--seed=N). */
uint64_t draw(void);
size_t below(size_t n);
void draw_bytes(void *to, size_t len);

/* Memory, or the end of the program. */
void *take(size_t bytes);

#endif
