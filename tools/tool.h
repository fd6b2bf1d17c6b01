/* What the parts of the tool slp share. */
#ifndef TOOL_H
#define TOOL_H

#include <slp.h>
#include <stdio.h>

/* Exit statuses. */
enum { WELL = 0, FAILED = 1, WRONG_USAGE = 2 };

/* What is asked of `slp room`: the plan, and whether its block was given. */
typedef struct {
	slp_plan plan;
	int block_given;
} room_wish;

/* What is asked of a command: its files in their order, and the options. */
typedef struct {
	char **files;
	int count;
	int progress;   /* PROGRESS_.. */
	int force;      /* an OUT that is there may be replaced */
	int final;      /* the last row of each frame id alone */
	int json;       /* a JSON value a file */
	int jobs;       /* how many files at a time; 0 where that is left to the tool */
	int several;    /* there may be more than one file: what is said of one begins with its name */
	const char *family, *columns;   /* of a table, or NULL */
	int comma;                      /* decimal commas, and semicolons between */
	room_wish room;
} request;

/* ---- slp.c: what is wrong with the command line, and with which word of it, or NULL; WRONG_USAGE */

int wrong_usage(const char *what, const char *which);

/* How a file is, for the line that sums up many; only the first two are well. check says that it is sound or not. */
typedef enum { IS_WHOLE, IS_SOUND, IS_CUT, IS_REFUSED, IS_UNSOUND, IS_BARE, IS_UNREAD, OUTCOMES } outcome;

/* ---- streams.c: where the lines of a command go, and its messages */

FILE *out(void);
FILE *err(void);
/* For this thread, or NULL for the standard ones. */
void say_to(FILE *lines, FILE *messages);

/* ---- files.c */

typedef struct {
	char **paths;
	int count, room;
	int several;   /* a folder was asked for, or more than one file */
	int failed;    /* a folder could not be read, or has no replay: that was said */
} file_list;

/* The files of a request, of folders all *.slp below them by their names' order. WELL, or FAILED after words on standard error. */
int list_files(const request *q, file_list *l);
void free_files(file_list *l);

/* ---- many.c */

/* What a command does with a file. It may be done for several at a time: it prints to out() and by complain. */
typedef outcome (*one_file)(const request *q, const char *path);

/* Does it for all files of a request: the exit status. */
int each_file(const request *q, one_file does);

/* ---- text.c: what others wrote, on one line and never as commands to a terminal */

/* Whether a text is shown as it is: printable UTF-8 without quotes and backslashes. */
int plain(const uint8_t *text, size_t len);
/* A text in quotes, what is not plain in it as \xNN. */
void put_text(FILE *to, const uint8_t *text, size_t len);
/* A file's name: as it is where it is plain and could not be taken for a name and what is said of it, else as a text. */
void put_name(FILE *to, const char *name);

/* A text as JSON has it: what is not shown is escaped, and reads back as it was; bytes that are no UTF-8 are U+FFFD. */
void put_json_text(FILE *to, const uint8_t *text, size_t len);

/* A text as XML has it; what is not shown as \xNN. */
void put_xml_text(FILE *to, const uint8_t *text, size_t len);

/* ---- json.c */

/* A value that is being written. Objects and lists in it are begun with a bracket and ended with the other. */
typedef struct {
	FILE *to;
	int more;   /* a comma comes first */
} json;

/* Values by their names in an object; in a list, and behind json_name, the name is NULL. */
void json_begin(json *j, const char *name, char bracket);
void json_end(json *j, char bracket);
void json_text(json *j, const char *name, const uint8_t *text, size_t len);
void json_words(json *j, const char *name, const char *words);
void json_number(json *j, const char *name, int64_t n);
void json_count(json *j, const char *name, uint64_t n);
void json_real(json *j, const char *name, uint32_t bits);   /* null where it is no number */
void json_mark(json *j, const char *name, int yes);
void json_null(json *j, const char *name);
/* A name that others wrote. */
void json_name(json *j, const uint8_t *name, size_t len);
/* A file's value begins with its name, and ends a line. */
json json_file(const char *path);
void json_refused(json *j, unsigned number, size_t offset);
/* The same in other words. */
void json_refused_for(json *j, unsigned number, size_t offset, const char *words);
/* What slp_fault tells of a file, if it tells of a fault. */
void json_fault(json *j, const uint8_t *file, size_t len);
void json_line(json *j);

/* ---- words.c: messages; names in them are shown by put_name */

/* Why a call was refused, in words that are there to the end of the statement. */
#define REFUSAL_WORDS(number) (slp_refusal_words((uint8_t)(number)).text)
/* An event's name, or NULL. */
const char *event_name(uint8_t code);
/* What to call a file in messages: - is standard input or output. */
const char *input_name(const char *path);
const char *output_name(const char *path);
/* "NAME: " on out(), before what is said of one of several files. */
void print_prefix(const char *name);
/* "wrote NAME: LEN bytes" without a line's end, on standard output, or on standard error where the file itself is there; where the rest goes. */
FILE *say_wrote(const char *path, size_t len);
/* "slp: NAME: REASON" on err(), after all that was printed before. */
void complain(const char *name, const char *format, ...) __attribute__((format(printf, 2, 3)));
/* A file that cannot be read: as a message, and as a JSON value where that is asked for. */
outcome unread(const request *q, const char *path, int wrong);
/* A reader's refusal. */
void complain_refused(const char *name, unsigned number, size_t offset);
/* A replay that is cut, and how many of its event data's bytes there are. */
void complain_cut(const char *name, const uint8_t *file, size_t len);
/* Where slp_fault tells of a fault: which event, at which byte, why; and how many events slp repair keeps. Bytes that were not loaded, behind the event
 * data, may have more. */
typedef struct {
	char text[256];
} fault_text;
fault_text say_fault(slp_faulted why);
void complain_fault(const char *name, const uint8_t *file, size_t len);
/* The declared length of event data. */
size_t declared_length(const uint8_t *file);
void declare_length(uint8_t *file, size_t len);
/* Whether it was never filled in; and if so, that in words. */
int unfilled(const uint8_t *file, size_t len);
void complain_unfilled(const char *name, const uint8_t *file, size_t len);

/* ---- load.c */

typedef struct {
	uint8_t *bytes;
	size_t len;
} content;

/* A replay up to the end of its event data, and of what stands after that up to `more` bytes, in memory to be freed. What is no replay is not
 * read on, and a long one not much further than where slp_walk refuses it; but to its end, whatever its length field says, where ALL_OF_IT is asked
 * for. 0, or an errno. */
#define ALL_OF_IT SIZE_MAX
int load_more(const char *path, size_t more, content *c);
/* How many bytes files have, as far as that is known before reading. */
uint64_t total_size(char **paths, int count);

/* ---- tail.c: what stands after the event data */

/* The metadata's key, a body and two braces. Of a longer tail a byte more is enough to see that it has none. */
enum { TAIL_KEY = 11, TAIL_BRACES = 2, LONGEST_TAIL = TAIL_KEY + SLP_MAX_METADATA + TAIL_BRACES };

/* SLP_FILE_TAIL_..; where it is metadata, the body is the tail but for TAIL_KEY bytes and the braces. */
int tail_kind(const uint8_t *tail, size_t len);
/* Where a walk was refused, and all that is left of the file from that byte on is a proper tail: that the length field is wrong, and how. The
 * file was loaded with LONGEST_TAIL + 1 bytes more. */
void complain_length(const char *name, const content *c, unsigned number, size_t offset);

/* ---- save.c */

/* Whether a replay may be saved at a path: - is standard output, and no terminal; elsewhere nothing may stand that is not to be replaced. WELL,
 * or FAILED after words on standard error. Asked of an OUT before its command is run. */
int savable(const char *path, int force);
/* Saves a file so that its name has all of it or what it had before, whatever happens meanwhile, and that it is on the disk when this is done. 0, or
 * an errno. */
int save(const char *path, int force, const uint8_t *bytes, size_t len);

/* ---- open.c */

/* A replay with its columns, in memory to be freed by close_replay. */
typedef struct {
	content file;
	slp_opened opened;
	slp_space space;
	uint32_t *cells;
	uint8_t *bytes;
} replay;

/* WELL, or FAILED after words on standard error. */
int open_replay(const char *path, int progress, replay *r);
void close_replay(replay *r);
/* The same, without words and without a bar; of a replay that is cut, the front of it that can be read, as if it ended there: where not even its start
 * can be, IS_CUT with `cells` NULL. IS_REFUSED with r->opened.refused and its offset; IS_UNREAD with an errno. Closed in any case. */
outcome open_part(const char *path, replay *r, int *wrong);
/* In words, after what was printed of it: that it was refused, is cut, or is partly read. */
void complain_part(const char *name, const replay *r, outcome how);
/* That a newer recorder wrote it, and which, where only a part of it is read. */
void complain_partly(const char *name, const replay *r);
/* The mask of the frames that a later one of the same id replaced, to be freed. NULL where there is no memory, and where the number that is given
 * refuses it: ids that no game has are out of slp_rollbacks's range. */
unsigned find_replaced(const replay *r, uint8_t **mask);
/* Why a replay is refused: 14 to 17 have a place, and so has what 19 is for. Of one that is cut, how much of it there is. It was loaded with LONGEST_TAIL + 1 bytes more. */
void complain_unread(const char *name, const content *c, unsigned number, size_t offset);

/* ---- index.c */

/* FILE.spx, in memory to be freed, or NULL. */
char *index_name(const char *path);
/* All of an index, in memory to be freed. 0, or an errno. */
int load_index(const char *path, content *c);
/* The index of a replay by a walk, in memory to be freed: WELL, or FAILED after words on standard error. Loaded as for complain_unread. */
int work_out_index(const char *name, const content *file, content *index);

/* ---- resave.c: what writes a replay's columns again */

/* Whether a replay may be written again: WELL, or FAILED after words on standard error, where only a part of it is read. */
int rewritable(const char *name, const replay *r);
/* That a tail is left out, where it is. */
void warn_of_tail(const char *name, const replay *r);
/* How many bytes no file of these columns exceeds. */
size_t room_for(const replay *r);
/* Saves the file that was written, or says why it was refused: WELL, or FAILED after words on standard error. */
int save_written(const request *q, slp_written w, const uint8_t *file);

/* ---- names.c: NULL for a number that has no name */

const char *character_name(unsigned number);
const char *stage_name(unsigned number);
const char *end_name(unsigned number);

/* ---- japanese.c */

/* A text in UTF-8; from the game's own, no longer than these are. */
typedef struct {
	uint8_t bytes[256];
	size_t len;
} name_text;

/* A text of the game in UTF-8; the bytes as they are where they are no Shift-JIS. */
name_text from_japanese(const uint8_t *text, size_t len);

/* ---- lookup.c */

/* The text at a path of keys in a replay's metadata, which stands in its file; none where there is no such text. */
slp_bytes metadata_text(const replay *r, const char *const *keys, int depth);

/* ---- game.c: what info and picture say of a game */

enum { PLAYERS = 4, NO_SLOT = 8 };

typedef struct {
	const slp_seat *seat;
	unsigned port;
	name_text name;   /* the netplay name, or the tag, or what the metadata has; may be empty */
	size_t slot;      /* its leader's slot, or NO_SLOT */
	int seen;         /* it has a last row, with: */
	unsigned stocks;
	float percent;
	int won;
} player;

/* Players stand in the order of ports, in teams by team. `replaced` is find_replaced's mask. */
typedef struct {
	const replay *replay;
	uint8_t *replaced;
	size_t replaced_count;
	int64_t clock;   /* frames from id 0 on, each id once; -1 where the ids are none of a game */
	player players[PLAYERS];
	int count;
} game;

/* WELL, with memory to be freed by forget; or FAILED without memory. */
int describe(const replay *r, game *g);
void forget(game *g);
int same_team(const player *a, const player *b);
/* Whether a player is in a frame. */
int is_present(const replay *r, size_t slot, size_t frame);
/* A player's name as it is shown: without quotes where it is plain and cannot be taken for what stands round it. */
void put_player(FILE *to, const player *p);

/* ---- progress.c: a bar on standard error */

enum { PROGRESS_AUTO, PROGRESS_ALWAYS, PROGRESS_NEVER };

/* Shown if standard error is a terminal and there is much to do, or as it was asked for. */
void progress_begin(int when, const char *what, uint64_t total);
void progress_add(uint64_t done);
/* Takes the bar away, before a line is printed and at the end. */
void progress_clear(void);
/* The same, and it stays away until it is released: while other threads move it. */
void progress_hold(void);
void progress_release(void);

/* ---- the commands: each gives the exit status */

int show_info(const request *q);
int walk_files(const request *q);
int check_files(const request *q);
int show_events(const request *q);
int show_metadata(const request *q);
int show_table(const request *q);
int draw_picture(const request *q);
int index_files(const request *q);
int find_frame(const request *q);
int resave(const request *q);
int repair(const request *q);
int write_final_frames(const request *q);
int write_demo(const request *q);

/* ---- table.c: what is wrong with the table that is asked for, and with which word; NULL where nothing is */

const char *table_wish_wrong(const request *q, const char **which);

/* ---- room.c */

/* Takes the value of an option into a wish: WELL, or FAILED for a value that is none. */
int room_option(const char *name, const char *value, room_wish *w);
int show_room(const request *q);

#endif
