/* Opens a replay as columns, changes nothing, and saves it again.
 *
 *     cc -std=c11 open_and_save.c $(pkg-config --cflags --libs slp) -o open_and_save && ./open_and_save game.slp again.slp
 */
#define _GNU_SOURCE   /* renameat2 */
#include <fcntl.h>
#include <slp.h>
#include <stdio.h>
#include <stdlib.h>
#include <string.h>
#include <unistd.h>

/* All of a file, in memory that the caller frees; NULL if it cannot be read. */
static uint8_t *contents(const char *path, size_t *len)
{
	FILE *f = fopen(path, "rb");
	uint8_t *all = NULL;
	long size = 0;
	if (f && fseek(f, 0, SEEK_END) == 0 && (size = ftell(f)) >= 0 && fseek(f, 0, SEEK_SET) == 0)
		all = malloc((size_t)size + 1);
	if (all)
		*len = fread(all, 1, (size_t)size, f);
	if (f)
		fclose(f);
	return all;
}

static void show(const slp_opened *o)
{
	const slp_frames *f = &o->game.frames;
	printf("version %u.%u.%u, frames %zu, items %zu, ports", f->version.major, f->version.minor, f->version.patch, f->counts.frames, f->counts.items);
	for (size_t p = 0; p < f->port_count; p++)
		printf(" %u", f->ports[p].port);
	/* then a newer recorder wrote it, and slp_save refuses it */
	printf("%s\n", o->partly ? ", partly read" : "");
}

/* The folder of a file on the disk, with the file's name. The path is cut at its last slash. */
static int sync_folder(char *path)
{
	char *slash = strrchr(path, '/');
	if (slash)
		slash[1] = 0;
	int folder = open(slash ? path : ".", O_RDONLY | O_DIRECTORY);
	int synced = folder >= 0 && fsync(folder) == 0;
	if (folder >= 0)
		close(folder);
	return synced;
}

/* Under another name until all of it is on the disk, so that half a replay never has its name; and no other file loses that name. */
static int save(const char *path, const uint8_t *bytes, size_t len)
{
	char *first = malloc(strlen(path) + sizeof ".tmp");
	FILE *f = first ? fopen(strcat(strcpy(first, path), ".tmp"), "wbx") : NULL;
	int saved = f && fwrite(bytes, 1, len, f) == len && fflush(f) == 0 && fsync(fileno(f)) == 0;
	saved = f && fclose(f) == 0 && saved && renameat2(AT_FDCWD, first, AT_FDCWD, path, RENAME_NOREPLACE) == 0;
	if (f && !saved)
		unlink(first);
	saved = saved && sync_folder(first);
	free(first);
	return saved;
}

/* The game and its columns in a space of the measured lengths, saved with the old start block, the codes and the metadata. */
static int save_opened(const uint8_t *file, size_t len, const slp_space *space, const char *path)
{
	slp_opened o = slp_read_game(file, len, space);
	show(&o);
	/* here a table would change cells of the space, or fields of o.game */
	slp_reserved room = slp_room(slp_plan_of(&o.game, o.places.block_len, space->codes.len, o.places.metadata_len));
	uint8_t *out = malloc(room.bytes);
	slp_written w = slp_save(out, out ? room.bytes : 0, &o, space, file);
	int saved = !w.refused && save(path, out, w.len);
	if (saved)
		printf("saved %zu bytes, %s\n", w.len, w.len == len && memcmp(out, file, len) == 0 ? "the same" : "others");
	free(out);
	return saved;
}

static int open_and_save(const uint8_t *file, size_t len, const char *path)
{
	slp_measured m = slp_measure(file, len);
	if (m.refused) {
		printf("refused %u at %zu\n", m.refused, m.offset);
		return 0;
	}
	uint32_t *cells = malloc(4 * slp_space_cells(&m.lengths) + 1);
	uint8_t *bytes = malloc(slp_space_bytes(&m.lengths) + 1);
	slp_space space = slp_space_in(&m.lengths, cells, bytes);
	int saved = cells && bytes && save_opened(file, len, &space, path);
	free(cells);
	free(bytes);
	return saved;
}

int main(int argc, char **argv)
{
	size_t len = 0;
	uint8_t *file = argc == 3 ? contents(argv[1], &len) : NULL;
	if (!file) {
		fprintf(stderr, "usage: open_and_save REPLAY NEW\n");
		return 2;
	}
	int saved = open_and_save(file, len, argv[2]);
	free(file);
	return !saved;
}
