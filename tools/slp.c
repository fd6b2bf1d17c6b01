/* slp: says what Slippi replays are of, walks them, checks them, lists their events, shows their metadata, frames and a picture, finds a frame, writes
 * them again, whole or their final frames only, repairs them, writes a short match, says how much room to reserve. */
#include <errno.h>
#include <fcntl.h>
#include <getopt.h>
#include <signal.h>
#include <stdio.h>
#include <stdlib.h>
#include <string.h>
#include <unistd.h>

#include "tool.h"

static const char HELP_COMMANDS[] =
	"slp: Slippi replays, whole or cut\n"
	"\n"
	"  slp info FILE..     a line for each game: how long, where, who, how they\n"
	"                      stood at its end, and who won\n"
	"  slp walk FILE..     a line for each replay: EVENTS STRAY whole|cut, or\n"
	"                      refused NUMBER OFFSET; with several files after 'FILE: '\n"
	"  slp check FILE..    whether each replay is sound, whoever wrote it: sound, or\n"
	"                      NUMBER: why, and at which byte where there is one; with\n"
	"                      several files after 'FILE: '\n"
	"  slp events FILE     how many events of each code a replay has, their bytes\n"
	"  slp meta FILE..     the metadata of a replay: its map, an entry a line, maps\n"
	"                      inside it further in\n"
	"  slp table FILE      the frames of a replay as CSV: a line for each frame and\n"
	"                      player who is in it; or another family's rows\n"
	"  slp picture FILE    a game as a picture, SVG on standard output: percent and\n"
	"                      stocks over time\n"
	"  slp index FILE..    writes FILE.spx beside each replay, which says where its\n"
	"                      frames stand; another file of that name stays\n"
	"  slp find FILE ID    the last frame of an id: its row, offset and time; by\n"
	"                      FILE.spx where that is the replay's index, else by a\n"
	"                      walk, which is said on standard error\n"
	"  slp resave IN OUT   reads a replay into columns and writes it again\n"
	"  slp final IN OUT    the same of the final frames only: of each frame id the\n"
	"                      last row; says how many rows were dropped\n"
	"  slp repair IN OUT   the longest beginning of a broken replay that is read,\n"
	"                      with the right length; says what was wrong\n"
	"  slp demo OUT        writes a short match and walks it\n"
	"  slp room OPTION..   how many bytes to reserve for a replay before its match\n"
	"                      is known\n"
	"  slp help            this text (also --help, -h)\n"
	"  slp version         the tool's version, and the newest replay version (also\n"
	"                      --version)\n"
	"\n";

static const char HELP_OPTIONS[] =
	"A FILE or IN of - is standard input, an OUT of - standard output. Of info,\n"
	"walk, check and meta, a FILE may be a folder: then all files below it are taken\n"
	"whose names end in .slp. After -- nothing is an option. An option's value may\n"
	"follow it as a word of its own, and its name may be shortened as long as it is\n"
	"clear.\n"
	"\n"
	"  --force             an OUT or FILE.spx that is there is replaced, also where\n"
	"                      OUT is IN; without it, OUT must not exist yet, and - must\n"
	"                      not be a terminal\n"
	"  --jobs=N            info, walk, check, meta: so many files at a time, up to\n"
	"                      256; where it is not given, one for each processor\n"
	"  --json              info, walk, check, events, meta, room: a JSON value for\n"
	"                      each file, one a line\n"
	"  --progress=WHEN     a bar on standard error: auto (on a terminal, from 64 MB\n"
	"                      on), always, never\n"
	"\n"
	"What a table has; without them Pre and Post, all columns and rows:\n"
	"\n"
	"  --family=NAME       pre, post, start, end, item, fod, whispy or stadium\n"
	"  --columns=A,B..     these columns alone, in this order\n"
	"  --final             the last row of each frame id alone\n"
	"  --comma             decimal commas, and semicolons between columns\n"
	"\n"
	"What room is asked for; all but replay and block are 0 where they are not\n"
	"given:\n"
	"\n"
	"  --replay=VERSION    the replay's version (where it is not given, 3.18.0)\n"
	"  --block=BYTES       of the start block (where it is not given, the version's\n"
	"                      own length)\n"
	"  --slots=N           players, followers among them: at most 8\n"
	"  --frames=N          60 a second\n"
	"  --items=N --fods=N --whispys=N --stadiums=N\n"
	"                      rows of items, and of each stage family\n"
	"  --codes=BYTES --metadata=BYTES\n"
	"                      of the padded cheat codes, and of the metadata's body\n"
	"\n"
	"No replay of that version with at most these counts is longer than what room\n"
	"answers.\n"
	"\n";

static const char HELP_WORDS[] =
	"A game's time is the match's clock: frames from id 0 on, each id once, 60 a\n"
	"second. Stocks and percent are those of a player's last frame that no rollback\n"
	"replaced. The winner is who was placed first, or, where a replay has no\n"
	"placements, who has more stocks, then less percent; of a match that was not\n"
	"ended by the game there is none. Of a cut replay all is said that its whole\n"
	"frames have. Of several files, standard error sums up at the end.\n"
	"\n"
	"EVENTS counts the whole events after the table of payload sizes, STRAY the\n"
	"bytes after the last of them; whole means that all declared bytes are there.\n"
	"Reasons in words go to standard error. A length of zero was never filled in:\n"
	"such a replay is read to its end, and is cut.\n"
	"\n"
	"Where a replay is refused with 19, or is cut, standard error names the event,\n"
	"its byte and why, and how many events repair keeps. The GameStart is event 0.\n"
	"\n"
	"A row of find is counted from 0 in file order; the offset is that of the\n"
	"frame's first event; the time is that of the id, 60 frames a second from frame\n"
	"0 on, as minutes:seconds.\n"
	"\n"
	"A table has the frame's id, the port, 1 for a follower or 0, 1 for a frame that\n"
	"a later one of the same id replaced or 0, and the columns of its families that\n"
	"the version has; floats are shown as the shortest decimal that reads back as\n"
	"the same float. Ports are numbered 0 to 3, as in the file: port 0 is the\n"
	"console's first socket.\n"
	"\n"
	"Of a replay of a newer recorder, above 3.18.0 and below 4, info, table and\n"
	"picture show what 3.18 knows, and say so on standard error with its version;\n"
	"resave and final refuse it: the rest would be lost.\n"
	"\n"
	"An OUT gets its name when all of it is on the disk. resave says whether it is\n"
	"the same as IN, byte for byte; what stands after the event data and is no\n"
	"metadata is left out.\n"
	"\n"
	"repair keeps all events up to the last place at which a replay may end: behind\n"
	"a whole frame or the game's end. What the length field says is not looked at.\n"
	"The closing brace or metadata of IN stay where they stand right behind these\n"
	"events and end the file; else a closing brace is put there.\n"
	"\n"
	"Names and texts are shown on one line: what is no printable UTF-8 as \\xNN, and\n"
	"a name that has such a byte, or a colon and a space, in quotes. In JSON they\n"
	"are escaped, and read back as they are.\n"
	"\n"
	"Exit status: 0 if all went well and every replay is whole, for check sound; 1\n"
	"if a replay or a plan was refused, a replay cut, or a file could not be read or\n"
	"written; 2 for wrong usage.\n";

static int print_help(const request *q)
{
	(void)q;
	fputs(HELP_COMMANDS, stdout);
	fputs(HELP_OPTIONS, stdout);
	fputs(HELP_WORDS, stdout);
	return WELL;
}

static int print_version(const request *q)
{
	(void)q;
	puts("slp " SLP_VERSION ", replays to version 3.18.0");
	return WELL;
}

/* What getopt_long gives for an option. From FORCE on they are for some commands alone, each a bit of what a command takes. */
enum { ASKED_HELP = 'h', ASKED_VERSION = 256, PROGRESS, FORCE, FINAL, ROOM, JOBS, JSON, TABLE, OPTIONS_END };
#define TAKES(option) (1u << ((option) - FORCE))

static const struct option OPTIONS[] = {
	{ "help", no_argument, NULL, ASKED_HELP },
	{ "version", no_argument, NULL, ASKED_VERSION },
	{ "progress", required_argument, NULL, PROGRESS },
	{ "force", no_argument, NULL, FORCE },
	{ "final", no_argument, NULL, FINAL },
	{ "jobs", required_argument, NULL, JOBS },
	{ "json", no_argument, NULL, JSON },
	{ "family", required_argument, NULL, TABLE },
	{ "columns", required_argument, NULL, TABLE },
	{ "comma", no_argument, NULL, TABLE },
	{ "replay", required_argument, NULL, ROOM },
	{ "block", required_argument, NULL, ROOM },
	{ "slots", required_argument, NULL, ROOM },
	{ "frames", required_argument, NULL, ROOM },
	{ "items", required_argument, NULL, ROOM },
	{ "fods", required_argument, NULL, ROOM },
	{ "whispys", required_argument, NULL, ROOM },
	{ "stadiums", required_argument, NULL, ROOM },
	{ "codes", required_argument, NULL, ROOM },
	{ "metadata", required_argument, NULL, ROOM },
	{ NULL, 0, NULL, 0 },
};

/* A command: how many files it takes, that in words, which options of some commands, and whether its last file is an OUT. */
typedef struct {
	const char *name;
	int (*run)(const request *q);
	int least, most;
	const char *files;
	unsigned takes;
	int saves;
} command;

enum { ANY = 1 << 30 };

static const command COMMANDS[] = {
	{ "info", show_info, 1, ANY, "needs a file", TAKES(JOBS) | TAKES(JSON), 0 },
	{ "walk", walk_files, 1, ANY, "needs a file", TAKES(JOBS) | TAKES(JSON), 0 },
	{ "check", check_files, 1, ANY, "needs a file", TAKES(JOBS) | TAKES(JSON), 0 },
	{ "events", show_events, 1, 1, "needs one file", TAKES(JSON), 0 },
	{ "meta", show_metadata, 1, ANY, "needs a file", TAKES(JOBS) | TAKES(JSON), 0 },
	{ "table", show_table, 1, 1, "needs one file", TAKES(TABLE) | TAKES(FINAL), 0 },
	{ "picture", draw_picture, 1, 1, "needs one file", 0, 0 },
	{ "index", index_files, 1, ANY, "needs a file", TAKES(FORCE), 0 },
	{ "find", find_frame, 2, 2, "needs a file and a frame's id", 0, 0 },
	{ "resave", resave, 2, 2, "needs two files", TAKES(FORCE), 1 },
	{ "final", write_final_frames, 2, 2, "needs two files", TAKES(FORCE), 1 },
	{ "repair", repair, 2, 2, "needs two files", TAKES(FORCE), 1 },
	{ "demo", write_demo, 1, 1, "needs one file", TAKES(FORCE), 1 },
	{ "room", show_room, 0, 0, "takes no file", TAKES(ROOM) | TAKES(JSON), 0 },
	{ "help", print_help, 0, 0, "takes no file", 0, 0 },
	{ "version", print_version, 0, 0, "takes no file", 0, 0 },
};

/* What the words of the command line ask for; by each option of some commands, its name where it was given. */
typedef struct {
	request q;
	int help, version;
	const char *given[OPTIONS_END - FORCE];
} arguments;

static int try_help(void)
{
	fputs("Try 'slp --help'.\n", stderr);
	return WRONG_USAGE;
}

int wrong_usage(const char *what, const char *which)
{
	fprintf(stderr, "slp: %s", what);
	if (which) {
		fputc(' ', stderr);
		put_name(stderr, which);
	}
	fputc('\n', stderr);
	return try_help();
}

static int parse_progress(const char *when, request *q)
{
	static const char *const names[] = { [PROGRESS_AUTO] = "auto", [PROGRESS_ALWAYS] = "always", [PROGRESS_NEVER] = "never" };
	for (int i = 0; i < 3; i++)
		if (strcmp(when, names[i]) == 0) {
			q->progress = i;
			return WELL;
		}
	return wrong_usage("--progress is auto, always or never, not", when);
}

/* More than so many files at a time are in each other's way. */
enum { MOST_JOBS = 256 };

static int parse_jobs(const char *count, request *q)
{
	char *end;
	long n = strtol(count, &end, 10);
	if (*count < '0' || *count > '9' || *end || n < 1 || n > MOST_JOBS)
		return wrong_usage("--jobs is a number from 1 to 256, not", count);
	q->jobs = (int)n;
	return WELL;
}

static int take_table(const char *name, const char *value, request *q)
{
	if (strcmp(name, "family") == 0)
		q->family = value;
	else if (strcmp(name, "columns") == 0)
		q->columns = value;
	else
		q->comma = 1;
	return WELL;
}

static int parse_room(const char *name, const char *value, request *q)
{
	if (room_option(name, value, &q->room) == WELL)
		return WELL;
	fprintf(stderr, "slp: --%s: ", name);
	put_name(stderr, value);
	fputs(strcmp(name, "replay") == 0 ? " is no version, as 3.18.0 is\n" : " is no number, or too large\n", stderr);
	return try_help();
}

/* An option that getopt_long found, by its full name. */
static int take_option(int option, const char *name, arguments *a)
{
	if (option >= FORCE)
		a->given[option - FORCE] = name;
	switch (option) {
	case ASKED_HELP: a->help = 1; return WELL;
	case ASKED_VERSION: a->version = 1; return WELL;
	case PROGRESS: return parse_progress(optarg, &a->q);
	case FORCE: a->q.force = 1; return WELL;
	case FINAL: a->q.final = 1; return WELL;
	case ROOM: return parse_room(name, optarg, &a->q);
	case JOBS: return parse_jobs(optarg, &a->q);
	case JSON: a->q.json = 1; return WELL;
	case TABLE: return take_table(name, optarg, &a->q);
	default: return opterr ? try_help() : wrong_usage("an option that is not known, or not as it should be", NULL);
	}
}

/* No option begins with a digit, but a number may begin with a sign. */
static int is_operand(const char *word)
{
	return word[0] != '-' || word[1] == 0 || (word[1] >= '0' && word[1] <= '9');
}

/* Options may stand anywhere before --; what stays are operands, in their order, which take the places of words that were looked at before. */
static int sort_words(int argc, char **argv, arguments *a)
{
	int index = 0, option = 0;
	a->q.files = argv + 1;
	while (optind < argc)
		if (option == -1 || is_operand(argv[optind]))
			a->q.files[a->q.count++] = argv[optind++];
		else if ((option = getopt_long(argc, argv, "+h", OPTIONS, &index)) != -1 && take_option(option, OPTIONS[index].name, a) != WELL)
			return WRONG_USAGE;
	return WELL;
}

/* getopt_long's own messages show a word as it is, so they are left out where one is not plain. */
static int parse(int argc, char **argv, arguments *a)
{
	static char name[] = "slp";
	if (argc > 0)
		argv[0] = name;
	for (int i = 1; i < argc; i++)
		opterr = opterr && plain((const uint8_t *)argv[i], strlen(argv[i]));
	return sort_words(argc, argv, a);
}

static const command *find_command(const char *name)
{
	for (size_t i = 0; i < sizeof COMMANDS / sizeof *COMMANDS; i++)
		if (strcmp(COMMANDS[i].name, name) == 0)
			return &COMMANDS[i];
	return NULL;
}

static int wrong_for(const command *c, const char *what, const char *which)
{
	fprintf(stderr, "slp: %s %s%s\n", c->name, what, which);
	return try_help();
}

static int run(arguments *a)
{
	request *q = &a->q;
	if (a->help)
		return print_help(q);
	if (a->version)
		return print_version(q);
	if (q->count == 0)
		return wrong_usage("no command", NULL);
	const command *c = find_command(q->files[0]);
	if (!c)
		return wrong_usage("unknown command", q->files[0]);
	q->files++;
	q->count--;
	for (int option = FORCE; option < OPTIONS_END; option++)
		if (a->given[option - FORCE] && !(c->takes & TAKES(option)))
			return wrong_for(c, "has no option --", a->given[option - FORCE]);
	if (q->count < c->least || q->count > c->most)
		return wrong_for(c, c->files, "");
	const char *which, *wrong = table_wish_wrong(q, &which);
	if (wrong)
		return wrong_usage(wrong, which);
	if (c->saves && savable(q->files[q->count - 1], q->force) != WELL)
		return FAILED;
	return c->run(q);
}

/* A file must not become one of the standard three. What is closed of them stays what cannot be read or written, but for messages. */
static void open_standard(void)
{
	static const int modes[] = { O_WRONLY, O_RDONLY, O_WRONLY };
	for (int fd = 0; fd < 3; fd++)
		if (fcntl(fd, F_GETFD) < 0 && open("/dev/null", modes[fd]) != fd)
			exit(FAILED);
}

int main(int argc, char **argv)
{
	arguments a = { .q = { .room = { .plan = { .version = { 3, 18, 0 } } } } };
	open_standard();
	signal(SIGXFSZ, SIG_IGN);   /* then a file over its limit is an error like a full disk */
	int status = parse(argc, argv, &a);
	if (status == WELL)
		status = run(&a);
	if (fflush(stdout) != 0 || ferror(stdout)) {
		complain("standard output", "%s", strerror(errno));
		return FAILED;
	}
	return status;
}
