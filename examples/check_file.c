/* Says of replays whether they are sound, whoever wrote them.
 *
 *     cc -std=c11 check_file.c $(pkg-config --cflags --libs slp) -o check_file && ./check_file game.slp other.slp
 */
#include <slp.h>
#include <stdio.h>
#include <stdlib.h>
#include <string.h>

/* All of a file, in memory that the caller frees; NULL if it cannot be read. */
static uint8_t *contents(const char *path, size_t *len)
{
	FILE *f = fopen(path, "rb");
	uint8_t *all = NULL;
	long size = 0;
	if (f && fseek(f, 0, SEEK_END) == 0 && (size = ftell(f)) >= 0 && fseek(f, 0, SEEK_SET) == 0)
		all = malloc((size_t)size + 1);
	if (all)
		*len = fread(all, 1, (size_t)size, f);
	if (f)
		fclose(f);
	return all;
}

/* Whether a file is sound; what is wrong with it is printed. 14 to 17 name a place. */
static int check(const char *name, const uint8_t *file, size_t len)
{
	slp_checked c = slp_check(file, len);
	if (!c.refused)
		printf("%s: sound\n", name);
	else if (c.offset)
		printf("%s: not sound, %u at %zu\n", name, c.refused, c.offset);
	else
		printf("%s: not sound, %u\n", name, c.refused);
	return c.refused == 0;
}

int main(int argc, char **argv)
{
	int all_sound = 1;
	for (int i = 1; i < argc; i++) {
		size_t len = 0;
		uint8_t *file = contents(argv[i], &len);
		if (!file) {
			fprintf(stderr, "cannot read %s\n", argv[i]);
			return 2;
		}
		const char *slash = strrchr(argv[i], '/');
		all_sound &= check(slash ? slash + 1 : argv[i], file, len);
		free(file);
	}
	return !all_sound;
}
