/* slp.h: Slippi replays, written and read. Link libslp.a or libslp.so; C11 or C++11, x86-64.
 *
 * Every call takes every input, ends, and answers with a refusal number or 0. A refused call changes no byte that is lent to it.
 * Nothing is allocated, nothing is kept between calls, and calls on different memory may run at the same time.
 *
 * A lent slice is a pointer and a count of elements. With a count of 0 the pointer may be NULL. Slices that are written (out, mask,
 * scratch, the stores of slp_read) must not overlap another slice of the same call. Cells must be aligned to four bytes.
 *
 * A mark is a byte: 0 is no, everything else is yes. Floats and signed numbers are their bits wherever a field or cell is unsigned.
 */
#ifndef SLP_H
#define SLP_H

#include <stddef.h>
#include <stdint.h>

/* The library's version. */
#define SLP_VERSION "0.1.0"

#ifdef __cplusplus
extern "C" {
#endif

/* ---- refusals: the lowest number that applies is given */

enum {
	SLP_OK = 0,
	/* version above 3.18.0; columns back: of major number 4 or more */
	SLP_VERSION_TOO_NEW = 1,
	/* a count exceeds its maximum: frames 1,048,576; items 4,194,304; rows of each stage family 1,048,576; padded codes 16,777,216
	 * bytes; metadata 65,535; length field: event data over 4,294,967,295 bytes; index: also an offset over 32 bits */
	SLP_TOO_MANY = 2,
	/* a cell store's length is not columns of this version times rows (times slots) */
	SLP_BAD_STORE = 3,
	/* a cell exceeds its width, absent players' rows included */
	SLP_WIDE_CELL = 4,
	/* offsets: not frames + 1 entries, first not 0, one falls, or last not rows; or offsets or rows given to a family that the version
	 * lacks */
	SLP_BAD_OFFSETS = 5,
	/* presence: a slot's bits neither empty nor ceil(frames / 8) bytes, a follower's bits without a follower, or another total of bytes than the
	 * slots' */
	SLP_BAD_PRESENCE = 6,
	/* over four port columns, a port above 3, or a port twice; room: over eight slots */
	SLP_BAD_PORTS = 7,
	/* start block shorter than the version's length, or over 65,535 */
	SLP_BAD_BLOCK = 8,
	/* a start field that the version writes is missing, a player type above 2, CPU without level, or a text that the version writes is
	 * too long or has a zero among its counted bytes */
	SLP_BAD_START = 9,
	/* codes given before 3.3, or their bytes are not the actual size rounded up to 512 */
	SLP_BAD_CODES = 10,
	/* double end without an end, or, from 2.0, an end's initiator outside -1..3 */
	SLP_BAD_END = 11,
	/* output, mask, scratch or a store to be filled too short; run of frames and end of a recording: also a place beyond the output */
	SLP_SHORT_OUTPUT = 12,
	/* mask, final frames: an id below -123 or above 1,048,452; row: an index not below frames or, for a family's own row, its rows; or a slot that is
	 * not there; run of frames: a range that is reversed or ends beyond the frames; rows of a run: no such family or slot, or a range that is reversed
	 * or goes past the rows; column: no such family or column */
	SLP_OUT_OF_RANGE = 13,
	/* reader, offset 0: under 15 bytes or wrong signature */
	SLP_NOT_A_REPLAY = 14,
	/* reader, offset 15: table absent, not whole, size byte not 1 modulo 3, a code twice, or a declared length, other than zero, too
	 * small for the table */
	SLP_BAD_TABLE = 15,
	/* reader, at the event: code not in the table */
	SLP_UNKNOWN_EVENT = 16,
	/* reader, at the event: event overruns event data that is present to its declared end; or, judged before 16, a place before the
	 * table's end or past the event data present */
	SLP_BAD_PLACE = 17,
	/* columns back: the first event is no GameStart of at least 4 bytes; or, judged after 1, the event data is cut, an event is out of the
	 * per-frame order or has a payload of the wrong size (above 3.18.0: one that is too short), ports do not ascend, a Pre has no Post or a Post
	 * no Pre, a record has another frame's id, neighbouring frames before 2.2 have one id, a code block is wrong, a port, follower flag or seat
	 * type is out of range, there are over two ends or unlike ones, or an initiator is outside -1..3; check: the same place in its order, by its
	 * own rules */
	SLP_BAD_EVENTS = 19,
	/* metadata map: a map more than 8 deep below the body's own */
	SLP_TOO_DEEP = 20,
	/* metadata map: a key or text over 255 bytes */
	SLP_LONG_TEXT = 21,
	/* metadata map: a key twice in one map */
	SLP_REPEATED_KEY = 22,
	/* metadata map: entries that are no map; a body that the writer cannot give; check: a tail that is not proper */
	SLP_BAD_BODY = 23,
	/* index: the first event is no GameStart of at least 4 bytes, the version is below 2.2, or a FrameStart has under 4 bytes */
	SLP_NO_INDEX = 24,
	/* index: wrong mark, version or length */
	SLP_BAD_INDEX = 25,
	/* index: it is another replay's */
	SLP_OTHER_REPLAY = 26,
	/* index: no row has the id */
	SLP_NO_SUCH_ID = 27
};

/* A text with zeros behind it. */
typedef struct {
	char text[128];
} slp_words;

/* Why a call was refused, in words. Every number is taken, those of no refusal too.
 *
 *     printf("refused %u: %s\n", w.refused, slp_refusal_words(w.refused).text);
 */
slp_words slp_refusal_words(uint8_t number);

/* ---- maxima */

#define SLP_MAX_FRAMES 1048576u
#define SLP_MAX_ITEMS 4194304u
#define SLP_MAX_STAGE_ROWS 1048576u   /* of each stage family */
#define SLP_MAX_CODES 16777216u       /* bytes, padded */
#define SLP_MAX_METADATA 65535u       /* bytes */
#define SLP_FIRST_FRAME_ID (-123)
#define SLP_LAST_FRAME_ID 1048452

/* ---- event codes */

enum {
	SLP_EVENT_MESSAGE_SPLITTER = 0x10,
	SLP_EVENT_PAYLOADS = 0x35,
	SLP_EVENT_GAME_START = 0x36,
	SLP_EVENT_FRAME_PRE = 0x37,
	SLP_EVENT_FRAME_POST = 0x38,
	SLP_EVENT_GAME_END = 0x39,
	SLP_EVENT_FRAME_START = 0x3a,
	SLP_EVENT_ITEM = 0x3b,
	SLP_EVENT_FRAME_END = 0x3c,
	SLP_EVENT_GECKO_CODES = 0x3d,
	SLP_EVENT_FOD_PLATFORM = 0x3f,
	SLP_EVENT_DREAMLAND_WHISPY = 0x40,
	SLP_EVENT_STADIUM_TRANSFORMATION = 0x41
};

/* ======== reading ======== */

/* A replay declares how long its event data is. A recorder fills that in when it closes the file: a length of zero never was, and then the
 * event data runs to the end of what is given and is always cut. */

/* What stands at a place. */
enum { SLP_STEP_EVENT = 0, SLP_STEP_ENDS = 1, SLP_STEP_CUT = 2, SLP_STEP_REFUSED = 3 };

typedef struct {
	uint8_t kind;      /* SLP_STEP_... */
	uint8_t refused;   /* SLP_STEP_REFUSED: the refusal, 14 to 17; else 0 */
	uint8_t code;      /* SLP_STEP_EVENT: the event's code, and the numbers below but offset; else 0 */
	size_t offset;     /* SLP_STEP_REFUSED: the file offset that the refusal names; else 0 */
	size_t at;         /* where the event stands */
	size_t payload;    /* where its payload begins */
	size_t len;        /* how many bytes the payload has */
	size_t next;       /* the place after it */
} slp_step;

/* Where the events of a replay start: after its payload table. Any file is taken; of one that is refused 14 or 15 the number means nothing. */
size_t slp_first_place(const uint8_t *file, size_t file_len);

/* The event at a place of a replay, whole or cut. The first event after the payload table stands at slp_first_place; from there `next` leads
 * on. Any number is taken as a place: one that is not in the event data is refused 17. Each call reads the table anew; slp_walk reads it once.
 *
 *     size_t place = slp_first_place(file, len);
 *     slp_step s;
 *     while ((s = slp_step_at(file, len, place)).kind == SLP_STEP_EVENT) {
 *         printf("%02x at %zu, %zu bytes\n", s.code, s.at, s.len);
 *         place = s.next;
 *     }
 */
slp_step slp_step_at(const uint8_t *file, size_t file_len, size_t place);

typedef struct {
	uint8_t refused;   /* 0, or 14 to 17 */
	uint8_t whole;     /* 1 if all declared bytes of event data are present, 0 if they are cut; 0 if the length is zero */
	size_t offset;     /* the file offset that a refusal names; else 0 */
	size_t events;     /* whole events after the payload table */
	size_t stray;      /* bytes of event data after the last whole event */
	size_t place;      /* where the walk stopped */
} slp_walked;

/* All events of a replay, whole or cut. Nothing is claimed of bytes after the event data; where the length is zero, all bytes to the end are
 * event data, a tail's too, whose first byte is then refused 16. On a refusal all numbers but `refused` and `offset` are 0.
 *
 *     slp_walked w = slp_walk(file, len);
 *     if (w.refused) printf("refused %u at %zu\n", w.refused, w.offset);
 *     else printf("%zu events, %zu stray bytes, %s\n", w.events, w.stray, w.whole ? "whole" : "cut");
 */
slp_walked slp_walk(const uint8_t *file, size_t file_len);

typedef struct {
	uint8_t refused;   /* 0 if the file is sound, else the number of what is wrong first */
	size_t offset;     /* the file offset that a refusal of 14 to 17 names; else 0 */
} slp_checked;

/* Whether a file is sound, whoever wrote it: all of its event data is there; the payload table is the version's, to the byte, with 3D and 10 listed or,
 * where there are no code blocks, not; GameStart comes first, then the code blocks, the frames, and at most two ends, which may be unlike. Blocks have
 * right lengths and flags. In a frame ports come in any order, the same for Pre and Post, each player once, a port's leader right before its follower
 * where both are there; from frame to frame the order is free. Before 2.2 a frame is a run of Pre and then Post of one id. Behind the event data stands
 * `7d` alone, or the metadata's key, a body that slp_read_map reads given room for its entries, and `7d 7d`.
 *
 * Every file that slp_write gives is sound, given such a body. Refusals, in this order: 14 to 17 over the whole walk; 19 if the first event is no GameStart
 * of at least 4 bytes; 1; 19 for anything else that is wrong up to the end of the event data; 23 for what stands behind it.
 *
 *     slp_checked c = slp_check(file, len);
 *     if (c.refused) printf("not sound: %u at %zu\n", c.refused, c.offset);
 *     else printf("sound\n");
 */
slp_checked slp_check(const uint8_t *file, size_t file_len);

/* ======== repair ========
 *
 * What a broken file still holds: the longest beginning of its events that slp_read accepts, as a file of its own. A beginning ends at a place behind an
 * event, and is accepted if slp_read accepts the file with a length field that says so. What the length field says is not looked at. */

/* What stands behind the events of a repaired file. */
enum { SLP_REPAIR_TAIL_BRACE = 0, SLP_REPAIR_TAIL_METADATA = 1, SLP_REPAIR_TAIL_REPLACED = 2 };

typedef struct {
	uint8_t refused;         /* 0, or why nothing is kept; then all else is 0 */
	uint8_t tail;            /* SLP_REPAIR_TAIL_..: one brace or metadata, both the file's own; or a brace that was put there */
	uint32_t said;           /* what the length field says of the file that is given */
	uint32_t length;         /* and of the repaired one: the bytes of its payload table and events */
	size_t bytes;            /* how many bytes the repaired file has */
	size_t events;           /* how many events are kept, */
	size_t event_bytes;      /* and their bytes */
	size_t dropped_events;   /* how many whole events stand behind them and are not kept, */
	size_t dropped_bytes;    /* and how many bytes: 0 where the file's own tail stays */
} slp_repaired;

/* What slp_repair would give, in numbers. Refusals, in this order: 14; 15 (absent, not whole, a size byte that is not 1 modulo 3, or a code twice); 19 if the
 * first event is no whole GameStart of at least 4 bytes; 1; 19 where no beginning is accepted. No refusal names a place.
 *
 *     slp_repaired need = slp_measure_repair(file, len);
 *     if (need.refused) printf("nothing to keep: %u\n", need.refused);
 */
slp_repaired slp_measure_repair(const uint8_t *file, size_t file_len);

/* The signature, the right length, the payload table and the events that are kept, byte for byte, and a tail: the file's own, where no event is dropped and
 * what stands there is `7d` alone or the metadata's key, a body that slp_read_map reads given room for its entries, and `7d 7d`; else `7d`. Bytes of `out`
 * past it stay. Refusals as slp_measure_repair, and last 12 for an output that is too short.
 *
 * slp_read accepts what is given, always. A file up to 3.18.0 that it accepts, with such a tail and no event behind its own, is repaired to itself, whatever
 * the four bytes of its length field are.
 *
 *     slp_repaired r = slp_repair(file, len, mended, need.bytes);
 *     if (!r.refused) printf("length %u, was %u; %zu events kept, %zu dropped\n", r.length, r.said, r.events, r.dropped_events);
 */
slp_repaired slp_repair(const uint8_t *file, size_t file_len, uint8_t *out, size_t out_len);

/* ======== fault ========
 *
 * Why slp_measure gives 19 (SLP_BAD_EVENTS): the first event that may not come where the events before it stand, or the end of the events, and a reason.
 * Of a newer recorder's file (above 3.18.0) reason, event and offset are 0. */

enum {
	SLP_FAULT_ORDER = 1,      /* out of order: nothing of its kind may stand there */
	SLP_FAULT_SIZE = 2,       /* of another size than its version's */
	SLP_FAULT_ID = 3,         /* another frame's id */
	SLP_FAULT_PORTS = 4,      /* ports do not ascend */
	SLP_FAULT_PRE = 5,        /* a Pre without its Post: its frame ends, and a Post is to come */
	SLP_FAULT_TWICE = 6,      /* a player twice in one frame */
	SLP_FAULT_PORT = 7,       /* a port above 3 */
	SLP_FAULT_FOLLOWER = 8,   /* a follower flag above 1 */
	SLP_FAULT_SEAT = 9,       /* a seat type above 3, in the start block */
	SLP_FAULT_INITIATOR = 10, /* an initiator outside -1 .. 3 */
	SLP_FAULT_BLOCK = 11,     /* a wrong block of codes */
	SLP_FAULT_THIRD = 12,     /* a third end */
	SLP_FAULT_UNLIKE = 13,    /* a second end unlike the first */
	SLP_FAULT_CUT = 14,       /* no event is wrong, and the replay is not finished */
	SLP_FAULT_LENGTH = 15,    /* the events are a replay's, and the event data is not whole: its length was never filled in, or says more bytes than there are */
	SLP_FAULT_START = 16,     /* the first event is no GameStart of at least 4 bytes */
	SLP_FAULT_SHORT = 17,     /* the start block is shorter than its version's */
	SLP_FAULT_VERSION = 18,   /* the version has no such event */
	SLP_FAULT_LISTED = 19,    /* codes are not there as the payload table lists them */
	SLP_FAULT_SAME = 20,      /* before 2.2, a frame with the id of the one before it */
	SLP_FAULT_POST = 21,      /* a Post without its Pre */
	SLP_FAULT_STRANGE = 22    /* an event that no replay has */
};

typedef struct {
	uint8_t refused; /* what slp_measure gives; where it is not 19, all else is 0 */
	uint8_t reason;  /* SLP_FAULT_.., or 0 */
	size_t event;    /* how many events stand before the fault: GameStart is event 0 */
	size_t offset;   /* the byte of the faulty event; of 14 and 15, the byte where the events end */
} slp_faulted;

/* Of any file. Nothing but the file is lent, which is only read.
 *
 *     slp_faulted why = slp_fault(file, len);
 *     if (why.reason) printf("event %zu, byte %zu: %s\n", why.event, why.offset, slp_fault_words(why.reason).text);
 */
slp_faulted slp_fault(const uint8_t *file, size_t file_len);

/* A reason in words. Every number is taken, those of no reason too. */
slp_words slp_fault_words(uint8_t reason);

/* ======== the index of a replay ========
 *
 * A file beside the replay, to jump to a frame without a walk: `SPX`, version 1 in two bytes, how many frames there are in four, and for each frame,
 * in file order, its id and the offset of its FrameStart's code byte, four bytes each, all big-endian. A frame of a cut replay counts once its
 * FrameStart is whole. Replays from 2.2 on have an index, those above 3.18.0 too. */

/* The bytes of an index of so many frames. */
#define SLP_INDEX_LEN(frames) (9 + 8 * (size_t)(frames))

typedef struct {
	uint8_t refused;   /* 0, or 14 to 17, then 24, then 2, then 12 */
	size_t offset;     /* of 14 to 17 the file offset that the refusal names; else 0 */
	size_t len;        /* how many bytes the index has: said with 12 too; 0 with every other refusal */
} slp_index_written;

/* Writes the index of a replay, whole or cut. Bytes past it stay. With an output of no bytes the call measures: it is refused 12, and says `len`.
 *
 *     slp_index_written need = slp_write_index(file, len, NULL, 0);    // 12, if there is an index
 *     uint8_t *index = malloc(need.len);
 *     slp_index_written w = slp_write_index(file, len, index, need.len);
 *     if (w.refused) printf("refused %u at %zu\n", w.refused, w.offset);
 *     else printf("%zu bytes for %zu frames\n", w.len, (w.len - 9) / 8);
 */
slp_index_written slp_write_index(const uint8_t *file, size_t file_len, uint8_t *out, size_t out_len);

typedef struct {
	uint8_t refused;   /* 0: it is the replay's; or 14 to 17, 24, 2 as of slp_write_index, then 25, then 26 */
	size_t offset;     /* of 14 to 17 the file offset that the refusal names; else 0 */
} slp_index_accepted;

/* Whether an index is a replay's: accepted exactly where it is, byte for byte, what slp_write_index gives of it. */
slp_index_accepted slp_accepts_index(const uint8_t *file, size_t file_len, const uint8_t *index, size_t index_len);

typedef struct {
	uint8_t refused;   /* 0, or 25, then 27; on a refusal all else is 0 */
	size_t row;        /* the frame, counted from 0 in file order */
	uint32_t offset;   /* where its FrameStart stands in the replay */
	int32_t id;
} slp_moment;

/* The last row of an id: after a rollback, the frame that counts. No replay is read. Through an index that slp_accepts_index takes it is what a walk
 * over the replay's events finds.
 *
 *     slp_moment m = slp_find_frame(index, index_len, 0);
 *     if (m.refused) printf("refused %u\n", m.refused);
 *     else printf("row %zu, byte %u\n", m.row, m.offset);
 */
slp_moment slp_find_frame(const uint8_t *index, size_t index_len, int32_t id);

/* ======== rollback masks ======== */

enum { SLP_EXCEPT_FIRST = 0, SLP_EXCEPT_LAST = 1 };

/* One byte of mask a frame: with SLP_EXCEPT_FIRST 0 at an id's first frame, with SLP_EXCEPT_LAST (or any other number but 0) at its last;
 * 1 at the others. `ids` are int32 by their bits, from SLP_FIRST_FRAME_ID to SLP_LAST_FRAME_ID. `scratch` needs the largest id + 124
 * bytes, none for no frames, and then has 1 where that id occurs, else 0. Bytes beyond both stay. Answers 0, or 2, 12 for a short mask,
 * 13, 12 for a short scratch, judged in that order.
 *
 *     uint32_t ids[4] = { (uint32_t)-123, (uint32_t)-122, (uint32_t)-122, (uint32_t)-121 };
 *     uint8_t mask[4], scratch[3];
 *     slp_rollbacks(ids, 4, SLP_EXCEPT_FIRST, mask, 4, scratch, 3);    // mask is 0 0 1 0
 */
uint8_t slp_rollbacks(const uint32_t *ids, size_t ids_len, uint8_t keep, uint8_t *mask, size_t mask_len, uint8_t *scratch,
                      size_t scratch_len);

/* ======== games ======== */

typedef struct {
	uint8_t major, minor, patch;
} slp_version;

/* How many rows the families have. */
typedef struct {
	size_t frames, items, fods, whispys, stadiums;
} slp_counts;

/* A port column: its port (0 to 3), whether it has a follower, and how many presence bytes leader and follower have: 0 (always present)
 * or ceil(frames / 8). Without a follower `follower_presence` must be 0. */
typedef struct {
	uint8_t port;
	uint8_t follower;   /* a mark */
	size_t leader_presence;
	size_t follower_presence;
} slp_port_column;

typedef struct {
	slp_version version;
	slp_counts counts;
	slp_port_column ports[4];
	size_t port_count;
} slp_frames;

/* A text: the first `len` bytes, none of them zero where the version writes it. What follows them is ignored. */
typedef struct {
	uint8_t bytes[50];
	size_t len;
} slp_text;

typedef struct {
	uint8_t given;   /* a mark */
	uint8_t value;
} slp_optional;

typedef struct {
	uint8_t given;   /* a mark: without a team the block keeps the template's colour and shade */
	uint8_t color, shade;
} slp_team;

typedef struct {
	uint8_t given;   /* a mark */
	uint32_t dash_back, shield_drop;
} slp_ucf;

/* Names of at most 30 bytes, connect codes of 9, Slippi user ids of 28. */
typedef struct {
	uint8_t given;        /* a mark, for name and code */
	slp_text name, code;
	uint8_t suid_given;   /* a mark */
	slp_text suid;
} slp_netplay;

enum { SLP_HUMAN = 0, SLP_CPU = 1, SLP_DEMO = 2 };

/* A port's player, who may be missing. */
typedef struct {
	uint8_t given;   /* a mark */
	uint8_t character;
	uint8_t kind;    /* SLP_HUMAN, SLP_CPU or SLP_DEMO */
	uint8_t stocks;
	uint8_t costume;
	slp_team team;
	uint8_t handicap;
	uint8_t bitfield;
	slp_optional cpu_level;
	uint16_t damage_start, damage_spawn;
	uint32_t offense_ratio, defense_ratio, model_scale;   /* floats by their bits */
	slp_ucf ucf;
	uint8_t name_tag_given;   /* a mark */
	slp_text name_tag;        /* at most 16 bytes */
	slp_netplay netplay;
} slp_seat;

typedef struct {
	uint8_t given;   /* a mark */
	uint8_t minor, major;
} slp_scene;

/* The bytes of the start block after the zero that ends the match id, through 751: zeros, or what the template has there. Who saves a file again
 * byte for byte keeps them. */
enum { SLP_TAIL_CLEARED = 0, SLP_TAIL_KEPT = 1 };

typedef struct {
	uint8_t given;   /* a mark */
	uint8_t tail;    /* SLP_TAIL_CLEARED, or SLP_TAIL_KEPT; every other number is kept too */
	slp_text id;     /* at most 50 bytes */
	uint32_t game, tiebreaker;
} slp_match;

/* What the start block says. Seat n is port n. Fields that the version does not write are ignored. */
typedef struct {
	uint8_t bitfield[4];
	uint8_t is_raining_bombs, is_teams;   /* marks, written as 1 or 0 */
	uint8_t item_spawn_frequency, self_destruct_score;
	uint16_t stage;
	uint32_t timer;
	uint8_t item_spawn_bitfield[5];
	uint32_t damage_ratio;   /* a float by its bits */
	slp_seat seats[4];
	uint32_t random_seed;
	slp_optional is_pal, is_frozen_ps;   /* their values are marks, written as 1 or 0 */
	slp_scene scene;
	slp_optional language;
	slp_match match_info;
} slp_start;

typedef struct {
	uint8_t given;   /* a mark */
	uint8_t method;
	uint8_t initiator;       /* 0 to 3, or 255 for none */
	uint8_t placed[4];       /* marks: a port without one gets 255 as its placement */
	uint8_t placements[4];
} slp_end;

typedef struct {
	slp_frames frames;
	slp_start start;
	slp_end end;
	uint8_t double_end;       /* a mark: GameEnd is written twice */
	uint8_t codes_given;      /* a mark: codes are ignored without it */
	uint8_t metadata_given;   /* a mark: metadata is ignored without it */
	uint32_t actual_size;     /* bytes of the cheat codes before they were padded to blocks of 512 */
} slp_game;

/* ======== the stores that are lent with a game ========
 *
 * Cells are 32-bit, columns one after another, as many columns as the version has:
 *   ids               a frame's id a cell
 *   starts, ends      FrameStart and FrameEnd, a row a frame
 *   pres, posts       slot after slot; the cell is at (slot * columns + column) * frames + frame. Slots are leader, then follower where
 *                     there is one, of each port column in order
 *   items, fods, whispys, stadiums    rows of items and of the stage families
 *   ..._offsets       frames + 1 numbers: frame i has the rows from offset i on and before offset i + 1; empty before the family's version
 *   presence          the slots' presence bytes one after another; bit i % 8 of byte i / 8, lowest first
 */

/* The families of records, in the order of their stores. */
enum {
	SLP_FAMILY_FRAME_START = 0,               /* starts, from 2.2 */
	SLP_FAMILY_PRE = 1,                       /* pres */
	SLP_FAMILY_POST = 2,                      /* posts */
	SLP_FAMILY_FRAME_END = 3,                 /* ends, from 3.0 */
	SLP_FAMILY_ITEM = 4,                      /* items, from 3.0 */
	SLP_FAMILY_FOD_PLATFORM = 5,              /* fods, from 3.18 */
	SLP_FAMILY_DREAMLAND_WHISPY = 6,          /* whispys, from 3.18 */
	SLP_FAMILY_STADIUM_TRANSFORMATION = 7     /* stadiums, from 3.18 */
};

/* How many columns a store of a family has in a version, ids not among them. 0 where the version lacks the family, and for any other number.
 *
 *     size_t cells = slp_columns(game.frames.version, SLP_FAMILY_POST) * game.frames.counts.frames;    // of one slot
 */
size_t slp_columns(slp_version version, uint8_t family);

/* The columns of each family by their numbers: a column's cells begin at its number times the rows. Behind each stands its width in bytes, which a
 * cell may not exceed, and the version from which it is there; a version has the columns up to some number. ..._COLUMNS are those of the newest. */
enum {
	SLP_FRAME_START_RANDOM_SEED,              /* 4, from 2.2 */
	SLP_FRAME_START_SCENE_FRAME_COUNTER,      /* 4, from 3.10 */
	SLP_FRAME_START_COLUMNS
};

enum {
	SLP_PRE_RANDOM_SEED,                      /* 4 */
	SLP_PRE_STATE,                            /* 2 */
	SLP_PRE_POSITION_X,                       /* 4 */
	SLP_PRE_POSITION_Y,                       /* 4 */
	SLP_PRE_DIRECTION,                        /* 4 */
	SLP_PRE_JOYSTICK_X,                       /* 4 */
	SLP_PRE_JOYSTICK_Y,                       /* 4 */
	SLP_PRE_CSTICK_X,                         /* 4 */
	SLP_PRE_CSTICK_Y,                         /* 4 */
	SLP_PRE_TRIGGERS,                         /* 4 */
	SLP_PRE_BUTTONS,                          /* 4 */
	SLP_PRE_BUTTONS_PHYSICAL,                 /* 2 */
	SLP_PRE_TRIGGERS_PHYSICAL_L,              /* 4 */
	SLP_PRE_TRIGGERS_PHYSICAL_R,              /* 4 */
	SLP_PRE_RAW_ANALOG_X,                     /* 1, from 1.2 */
	SLP_PRE_PERCENT,                          /* 4, from 1.4 */
	SLP_PRE_RAW_ANALOG_Y,                     /* 1, from 3.15 */
	SLP_PRE_RAW_ANALOG_CSTICK_X,              /* 1, from 3.17 */
	SLP_PRE_RAW_ANALOG_CSTICK_Y,              /* 1, from 3.17 */
	SLP_PRE_COLUMNS
};

enum {
	SLP_POST_CHARACTER,                       /* 1 */
	SLP_POST_STATE,                           /* 2 */
	SLP_POST_POSITION_X,                      /* 4 */
	SLP_POST_POSITION_Y,                      /* 4 */
	SLP_POST_DIRECTION,                       /* 4 */
	SLP_POST_PERCENT,                         /* 4 */
	SLP_POST_SHIELD,                          /* 4 */
	SLP_POST_LAST_ATTACK_LANDED,              /* 1 */
	SLP_POST_COMBO_COUNT,                     /* 1 */
	SLP_POST_LAST_HIT_BY,                     /* 1 */
	SLP_POST_STOCKS,                          /* 1 */
	SLP_POST_STATE_AGE,                       /* 4, from 0.2 */
	SLP_POST_STATE_FLAGS_0,                   /* 1, from 2.0 */
	SLP_POST_STATE_FLAGS_1,                   /* 1, from 2.0 */
	SLP_POST_STATE_FLAGS_2,                   /* 1, from 2.0 */
	SLP_POST_STATE_FLAGS_3,                   /* 1, from 2.0 */
	SLP_POST_STATE_FLAGS_4,                   /* 1, from 2.0 */
	SLP_POST_MISC_AS,                         /* 4, from 2.0 */
	SLP_POST_AIRBORNE,                        /* 1, from 2.0 */
	SLP_POST_GROUND,                          /* 2, from 2.0 */
	SLP_POST_JUMPS,                           /* 1, from 2.0 */
	SLP_POST_L_CANCEL,                        /* 1, from 2.0 */
	SLP_POST_HURTBOX_STATE,                   /* 1, from 2.1 */
	SLP_POST_VELOCITIES_SELF_X_AIR,           /* 4, from 3.5 */
	SLP_POST_VELOCITIES_SELF_Y,               /* 4, from 3.5 */
	SLP_POST_VELOCITIES_KNOCKBACK_X,          /* 4, from 3.5 */
	SLP_POST_VELOCITIES_KNOCKBACK_Y,          /* 4, from 3.5 */
	SLP_POST_VELOCITIES_SELF_X_GROUND,        /* 4, from 3.5 */
	SLP_POST_HITLAG,                          /* 4, from 3.8 */
	SLP_POST_ANIMATION_INDEX,                 /* 4, from 3.11 */
	SLP_POST_LAST_HIT_BY_INSTANCE,            /* 2, from 3.16 */
	SLP_POST_INSTANCE_ID,                     /* 2, from 3.16 */
	SLP_POST_COLUMNS
};

enum {
	SLP_FRAME_END_LATEST_FINALIZED_FRAME,     /* 4, from 3.7 */
	SLP_FRAME_END_COLUMNS
};

enum {
	SLP_ITEM_TYPE,                            /* 2, from 3.0 */
	SLP_ITEM_STATE,                           /* 1, from 3.0 */
	SLP_ITEM_DIRECTION,                       /* 4, from 3.0 */
	SLP_ITEM_VELOCITY_X,                      /* 4, from 3.0 */
	SLP_ITEM_VELOCITY_Y,                      /* 4, from 3.0 */
	SLP_ITEM_POSITION_X,                      /* 4, from 3.0 */
	SLP_ITEM_POSITION_Y,                      /* 4, from 3.0 */
	SLP_ITEM_DAMAGE,                          /* 2, from 3.0 */
	SLP_ITEM_TIMER,                           /* 4, from 3.0 */
	SLP_ITEM_ID,                              /* 4, from 3.0 */
	SLP_ITEM_MISC_0,                          /* 1, from 3.2 */
	SLP_ITEM_MISC_1,                          /* 1, from 3.2 */
	SLP_ITEM_MISC_2,                          /* 1, from 3.2 */
	SLP_ITEM_MISC_3,                          /* 1, from 3.2 */
	SLP_ITEM_OWNER,                           /* 1, from 3.6 */
	SLP_ITEM_INSTANCE_ID,                     /* 2, from 3.16 */
	SLP_ITEM_COLUMNS
};

enum {
	SLP_FOD_PLATFORM_PLATFORM,                /* 1, from 3.18 */
	SLP_FOD_PLATFORM_HEIGHT,                  /* 4, from 3.18 */
	SLP_FOD_PLATFORM_COLUMNS
};

enum {
	SLP_DREAMLAND_WHISPY_DIRECTION,           /* 1, from 3.18 */
	SLP_DREAMLAND_WHISPY_COLUMNS
};

enum {
	SLP_STADIUM_TRANSFORMATION_EVENT,         /* 2, from 3.18 */
	SLP_STADIUM_TRANSFORMATION_TYPE,          /* 2, from 3.18 */
	SLP_STADIUM_TRANSFORMATION_COLUMNS
};

/* What the cells of a column are: numbers, numbers with a sign, or floats, by their bits. */
enum { SLP_UNSIGNED = 'u', SLP_SIGNED = 'i', SLP_FLOAT = 'f' };

typedef struct {
	uint8_t refused;        /* 0, or 13 where there is no such column; then all else is 0 */
	uint8_t width;          /* in bytes */
	char kind;              /* SLP_UNSIGNED, SLP_SIGNED or SLP_FLOAT */
	uint8_t major, minor;   /* the first version that has it */
	char name[32];          /* in small letters, with zeros behind it */
} slp_column_answer;

/* Column `n` of a family, by the numbers above: what its name says there, for programs that go through all of them.
 *
 *     slp_column_answer c;
 *     for (size_t n = 0; !(c = slp_column(SLP_FAMILY_ITEM, n)).refused; n++)
 *         printf("%s: %u bytes, %c, from %u.%u\n", c.name, c.width, c.kind, c.major, c.minor);
 */
slp_column_answer slp_column(uint8_t family, size_t n);

/* The parameters of the fourteen lent stores, as they stand in the calls below: for each a pointer and a count. */
#define SLP_STORE_PARAMETERS \
	const uint32_t *ids, size_t ids_len, const uint32_t *starts, size_t starts_len, const uint32_t *pres, size_t pres_len, \
	const uint32_t *posts, size_t posts_len, const uint32_t *ends, size_t ends_len, const uint32_t *items, size_t items_len, \
	const uint32_t *fods, size_t fods_len, const uint32_t *whispys, size_t whispys_len, \
	const uint32_t *stadiums, size_t stadiums_len, const uint32_t *item_offsets, size_t item_offsets_len, \
	const uint32_t *fod_offsets, size_t fod_offsets_len, const uint32_t *whispy_offsets, size_t whispy_offsets_len, \
	const uint32_t *stadium_offsets, size_t stadium_offsets_len, const uint8_t *presence, size_t presence_len

/* The same as one struct, for slp_write_game and for SLP_STORES below. */
typedef struct {
	const uint32_t *p;
	size_t len;
} slp_cells;

typedef struct {
	const uint8_t *p;
	size_t len;
} slp_bytes;

typedef struct {
	slp_cells ids, starts, pres, posts, ends, items, fods, whispys, stadiums;
	slp_cells item_offsets, fod_offsets, whispy_offsets, stadium_offsets;
	slp_bytes presence;
} slp_stores;

/* A struct's slices as arguments. */
#define SLP_STORES(s) \
	(s)->ids.p, (s)->ids.len, (s)->starts.p, (s)->starts.len, (s)->pres.p, (s)->pres.len, (s)->posts.p, (s)->posts.len, \
	(s)->ends.p, (s)->ends.len, (s)->items.p, (s)->items.len, (s)->fods.p, (s)->fods.len, (s)->whispys.p, (s)->whispys.len, \
	(s)->stadiums.p, (s)->stadiums.len, (s)->item_offsets.p, (s)->item_offsets.len, (s)->fod_offsets.p, (s)->fod_offsets.len, \
	(s)->whispy_offsets.p, (s)->whispy_offsets.len, (s)->stadium_offsets.p, (s)->stadium_offsets.len, \
	(s)->presence.p, (s)->presence.len

/* ======== writing ======== */

typedef struct {
	uint8_t refused;   /* 0, or of a game 1 to 12, of final frames 1 to 11, 13 or 12, of a map 20 to 23, 2 or 12, each judged in that order */
	size_t len;        /* the length of the file, or of the map's body; 0 on a refusal */
} slp_written;

/* The replay file of a game, at the start of `out`; bytes past the file stay.
 *
 *   template_block    the start block whose unnamed bytes are kept; its length is GameStart's size
 *   codes             cheat codes, padded to blocks of 512 bytes
 *   metadata          the body of an encoded map
 *
 * slp_write_game below takes the slices as structs.
 */
slp_written slp_write(uint8_t *out, size_t out_len, slp_game game,
                      SLP_STORE_PARAMETERS,
                      const uint8_t *template_block, size_t template_len,
                      const uint8_t *codes, size_t codes_len,
                      const uint8_t *metadata, size_t metadata_len);

/* As slp_write.
 *
 *     slp_game game = { .frames = { .version = { 0, 1, 0 } } };    // no frames, no end
 *     slp_stores stores = { 0 };
 *     uint8_t block[320] = { 0 }, out[351];
 *     slp_bytes none = { NULL, 0 }, start = { block, sizeof block };
 *     slp_written w = slp_write_game(out, sizeof out, &game, &stores, start, none, none);    // w.len is 351
 */
static inline slp_written slp_write_game(uint8_t *out, size_t out_len, const slp_game *game, const slp_stores *s,
                                         slp_bytes template_block, slp_bytes codes, slp_bytes metadata)
{
	return slp_write(out, out_len, *game, SLP_STORES(s), template_block.p, template_block.len, codes.p, codes.len, metadata.p,
	                 metadata.len);
}

/* ======== final frames only ======== */

/* The replay of the frames that stand at the end of all rollbacks: of each id the last row, in the order of the rows, with its items and stage rows. It
 * is the file that slp_write gives for these rows by themselves, at the start of `out`; bytes past it stay. `scratch` needs a byte a frame, and then
 * begins with the mask of slp_rollbacks for SLP_EXCEPT_LAST, so that its ones are the rows that were left out; bytes past them stay. All rows are
 * judged, those that are left out too: refused with 1 to 11 as slp_write, then 13 for an id that the mask refuses, then 12 for a scratch or an output
 * that is too short, in this order; slp_room of the whole game is always enough. */
slp_written slp_write_final(uint8_t *out, size_t out_len, uint8_t *scratch, size_t scratch_len, slp_game game,
                            SLP_STORE_PARAMETERS,
                            const uint8_t *template_block, size_t template_len,
                            const uint8_t *codes, size_t codes_len,
                            const uint8_t *metadata, size_t metadata_len);

/* As slp_write_final.
 *
 *     uint8_t scratch[3];    // the ids are 5, 6 and 5: the last two rows are written
 *     slp_written w = slp_write_final_game(out, sizeof out, scratch, sizeof scratch, &game, &stores, start, none, none);
 */
static inline slp_written slp_write_final_game(uint8_t *out, size_t out_len, uint8_t *scratch, size_t scratch_len, const slp_game *game,
                                               const slp_stores *s, slp_bytes template_block, slp_bytes codes, slp_bytes metadata)
{
	return slp_write_final(out, out_len, scratch, scratch_len, *game, SLP_STORES(s), template_block.p, template_block.len, codes.p, codes.len,
	                       metadata.p, metadata.len);
}

/* ======== columns back from a replay ========
 *
 * A saved replay becomes a game with its stores again, as slp_write takes them: open it, change what you like, save it. slp_measure says how long each
 * store must be, slp_read fills them. What was written comes back: the cells of present rows, zeros for absent ones; presence bits for every slot,
 * never in the empty form, spare bits 0; a port column for each port whose leader or follower is ever there, ports ascending. Before 2.2, where there is
 * no FrameStart, a frame begins where the id changes.
 *
 * A replay of a newer recorder, above 3.18.0 with major number 3, is partly read: `partly` is 1, and what 3.18 knows is given. Payloads may be longer than
 * 3.18's, GameStart's and GameEnd's too, and what 3.18 knows of them is read from their front; two ends are alike where these bytes are. Events whose codes
 * the payload table lists and 3.18 does not know are passed over, wherever they stand after GameStart. All other rules are 3.18's. The game has the file's
 * own version, with the columns of 3.18; every call that writes, checks, repairs or gives rows refuses that version with 1, so that saving cannot lose what
 * was not read. Who wants rows of it says 3.18.0 in its frames:
 *
 *     if (o.partly) o.game.frames.version = (slp_version){ 3, 18, 0 };
 */

/* What stands behind the event data of a replay: one brace, the metadata, or something else, which is left alone and cannot be saved again. */
enum { SLP_FILE_TAIL_NONE = 0, SLP_FILE_TAIL_METADATA = 1, SLP_FILE_TAIL_ODD = 2 };

/* Where the bytes that are not copied stand in the file. */
typedef struct {
	size_t block_at, block_len;         /* the start block: the template for saving again */
	uint8_t tail;                       /* SLP_FILE_TAIL_NONE, SLP_FILE_TAIL_METADATA or SLP_FILE_TAIL_ODD */
	size_t metadata_at, metadata_len;   /* the metadata's body, where the tail is SLP_FILE_TAIL_METADATA; else 0 */
} slp_places;

/* How many elements of each store slp_read fills: cells, and bytes of the last two. */
typedef struct {
	size_t ids, starts, pres, posts, ends, items, fods, whispys, stadiums;
	size_t item_offsets, fod_offsets, whispy_offsets, stadium_offsets;
	size_t presence, codes;
} slp_lengths;

typedef struct {
	uint8_t refused;        /* 0, or 14 to 17, 19, 1 or 2; then all that follows is 0, but for the offset */
	uint8_t partly;         /* 1 if the version is above 3.18.0, so that only what 3.18 knows is read; else 0 */
	size_t offset;          /* the file offset that 14 to 17 name; else 0 */
	slp_frames frames;      /* as slp_read gives them */
	uint8_t codes_given;    /* 1 if the version is 3.3 or newer and the payload table lists GeckoCodes, else 0 */
	uint32_t actual_size;   /* bytes of the codes before they were padded */
	slp_lengths lengths;
	slp_places places;
} slp_measured;

/* What slp_read needs for a replay. Refusals, in this order: 14 to 17 over the whole walk; 19 if the first event is no GameStart of at least 4 bytes; 1;
 * 19 for the rest of its reasons; 2.
 *
 *     slp_measured m = slp_measure(file, len);
 *     if (m.refused) printf("refused %u at %zu\n", m.refused, m.offset);
 *     else printf("%zu frames, %zu ports\n", m.frames.counts.frames, m.frames.port_count);
 */
slp_measured slp_measure(const uint8_t *file, size_t file_len);

typedef struct {
	uint8_t refused;    /* as slp_measure, and last 12 for a store that is too short */
	uint8_t partly;     /* as slp_measure */
	size_t offset;      /* as slp_measure */
	slp_game game;      /* all 0 on a refusal */
	slp_places places;
} slp_opened;

/* The parameters of the stores that are filled: those of slp_write, and the codes. */
#define SLP_SPACE_PARAMETERS \
	uint32_t *ids, size_t ids_len, uint32_t *starts, size_t starts_len, uint32_t *pres, size_t pres_len, uint32_t *posts, size_t posts_len, \
	uint32_t *ends, size_t ends_len, uint32_t *items, size_t items_len, uint32_t *fods, size_t fods_len, uint32_t *whispys, size_t whispys_len, \
	uint32_t *stadiums, size_t stadiums_len, uint32_t *item_offsets, size_t item_offsets_len, uint32_t *fod_offsets, size_t fod_offsets_len, \
	uint32_t *whispy_offsets, size_t whispy_offsets_len, uint32_t *stadium_offsets, size_t stadium_offsets_len, \
	uint8_t *presence, size_t presence_len, uint8_t *codes, size_t codes_len

/* The game of a replay, and its columns at the start of each store; what lies past them stays. The start is read from the start block: a seat of type 3
 * is empty, a text ends at its first zero or its limit, a flag that is not 0 is 1, teams are given where the game has teams, and the match id's tail is
 * SLP_TAIL_KEPT. Of an end without an initiator (before 2.0) that is 255; a placement of 255 comes back as none. slp_read_game below takes the stores as a
 * struct.
 */
slp_opened slp_read(const uint8_t *file, size_t file_len, SLP_SPACE_PARAMETERS);

/* The same as one struct, for slp_read_game and for SLP_SPACE below. */
typedef struct {
	uint32_t *p;
	size_t len;
} slp_cell_space;

typedef struct {
	uint8_t *p;
	size_t len;
} slp_byte_space;

typedef struct {
	slp_cell_space ids, starts, pres, posts, ends, items, fods, whispys, stadiums;
	slp_cell_space item_offsets, fod_offsets, whispy_offsets, stadium_offsets;
	slp_byte_space presence, codes;
} slp_space;

/* A struct's slices as arguments. */
#define SLP_SPACE(s) SLP_STORES(s), (s)->codes.p, (s)->codes.len

/* How many cells, and how many bytes, all stores take together. */
static inline size_t slp_space_cells(const slp_lengths *n)
{
	return n->ids + n->starts + n->pres + n->posts + n->ends + n->items + n->fods + n->whispys + n->stadiums + n->item_offsets +
	       n->fod_offsets + n->whispy_offsets + n->stadium_offsets;
}

static inline size_t slp_space_bytes(const slp_lengths *n)
{
	return n->presence + n->codes;
}

/* The next `len` cells of some memory, which is moved on. */
static inline slp_cell_space slp_next_cells(uint32_t **cells, size_t len)
{
	slp_cell_space s;

	s.p = *cells;
	s.len = len;
	if (len)
		*cells += len;
	return s;
}

/* Stores of these lengths, one after another in memory for slp_space_cells cells and slp_space_bytes bytes. */
static inline slp_space slp_space_in(const slp_lengths *n, uint32_t *cells, uint8_t *bytes)
{
	slp_space s;

	s.ids = slp_next_cells(&cells, n->ids);
	s.starts = slp_next_cells(&cells, n->starts);
	s.pres = slp_next_cells(&cells, n->pres);
	s.posts = slp_next_cells(&cells, n->posts);
	s.ends = slp_next_cells(&cells, n->ends);
	s.items = slp_next_cells(&cells, n->items);
	s.fods = slp_next_cells(&cells, n->fods);
	s.whispys = slp_next_cells(&cells, n->whispys);
	s.stadiums = slp_next_cells(&cells, n->stadiums);
	s.item_offsets = slp_next_cells(&cells, n->item_offsets);
	s.fod_offsets = slp_next_cells(&cells, n->fod_offsets);
	s.whispy_offsets = slp_next_cells(&cells, n->whispy_offsets);
	s.stadium_offsets = slp_next_cells(&cells, n->stadium_offsets);
	s.presence.p = bytes;
	s.presence.len = n->presence;
	s.codes.p = n->presence ? bytes + n->presence : bytes;
	s.codes.len = n->codes;
	return s;
}

/* A filled store to be read. */
static inline slp_cells slp_filled(slp_cell_space s)
{
	slp_cells c;

	c.p = s.p;
	c.len = s.len;
	return c;
}

/* Bytes of a file, or of a filled store. */
static inline slp_bytes slp_part(const uint8_t *from, size_t at, size_t len)
{
	slp_bytes b;

	b.p = len ? from + at : from;
	b.len = len;
	return b;
}

/* Filled stores as slp_write_game and the rows take them; they must be as long as slp_measure says. */
static inline slp_stores slp_stores_in(const slp_space *s)
{
	slp_stores t;

	t.ids = slp_filled(s->ids);
	t.starts = slp_filled(s->starts);
	t.pres = slp_filled(s->pres);
	t.posts = slp_filled(s->posts);
	t.ends = slp_filled(s->ends);
	t.items = slp_filled(s->items);
	t.fods = slp_filled(s->fods);
	t.whispys = slp_filled(s->whispys);
	t.stadiums = slp_filled(s->stadiums);
	t.item_offsets = slp_filled(s->item_offsets);
	t.fod_offsets = slp_filled(s->fod_offsets);
	t.whispy_offsets = slp_filled(s->whispy_offsets);
	t.stadium_offsets = slp_filled(s->stadium_offsets);
	t.presence = slp_part(s->presence.p, 0, s->presence.len);
	return t;
}

/* As slp_read.
 *
 *     uint32_t *cells = malloc(4 * slp_space_cells(&m.lengths) + 1);
 *     uint8_t *bytes = malloc(slp_space_bytes(&m.lengths) + 1);
 *     slp_space space = slp_space_in(&m.lengths, cells, bytes);
 *     slp_opened o = slp_read_game(file, len, &space);
 *     slp_stores stores = slp_stores_in(&space);
 */
static inline slp_opened slp_read_game(const uint8_t *file, size_t file_len, const slp_space *s)
{
	return slp_read(file, file_len, SLP_SPACE(s));
}

/* The game that was read, saved again: with the old start block as template, the codes and the metadata. A replay that slp_write gave becomes the same
 * file, byte for byte, if its ports ascend and the seats that were not given have type 3 in its template. An odd tail is lost.
 *
 *     slp_written w = slp_save(out, out_len, &o, &space, file);    // out_len is len
 */
static inline slp_written slp_save(uint8_t *out, size_t out_len, const slp_opened *o, const slp_space *s, const uint8_t *file)
{
	slp_stores stores = slp_stores_in(s);

	return slp_write_game(out, out_len, &o->game, &stores, slp_part(file, o->places.block_at, o->places.block_len),
	                      slp_part(s->codes.p, 0, s->codes.len), slp_part(file, o->places.metadata_at, o->places.metadata_len));
}

/* The same of its final frames only. */
static inline slp_written slp_save_final(uint8_t *out, size_t out_len, uint8_t *scratch, size_t scratch_len, const slp_opened *o,
                                         const slp_space *s, const uint8_t *file)
{
	slp_stores stores = slp_stores_in(s);

	return slp_write_final_game(out, out_len, scratch, scratch_len, &o->game, &stores,
	                            slp_part(file, o->places.block_at, o->places.block_len), slp_part(s->codes.p, 0, s->codes.len),
	                            slp_part(file, o->places.metadata_at, o->places.metadata_len));
}

/* ======== how much room to reserve ======== */

/* What a file will have at most. */
typedef struct {
	slp_version version;
	size_t block;        /* bytes of the start block */
	size_t slots;        /* players, followers among them: at most eight */
	slp_counts counts;
	size_t codes;        /* bytes of the padded codes */
	size_t metadata;     /* bytes of the metadata's body */
} slp_plan;

typedef struct {
	uint8_t refused;   /* 0, or 1, 2, 7 for more than eight slots, or 8 */
	size_t bytes;      /* 0 on a refusal, and at most SLP_MAX_ROOM */
} slp_reserved;

#define SLP_MAX_ROOM 1530167375u

/* The bytes that no file of this version exceeds, if its block, its slots and all its counts are at most these. A game of exactly these counts takes
 * all of them where everybody is present in every frame, the end is doubled, metadata is given, and codes are given if the version has them. Rows
 * and codes that the version lacks count nothing, nor do rows without frames; code bytes are rounded down to blocks of 512. Refusal 2 is judged on the
 * numbers as they are, also for rows and codes that the version lacks.
 *
 *     slp_plan plan = { .version = { 3, 18, 0 }, .block = 760, .slots = 2, .counts = { .frames = 28800, .items = 20000 } };
 *     slp_reserved r = slp_room(plan);    // eight minutes of two players: r.bytes is 10289641
 */
slp_reserved slp_room(slp_plan plan);

/* The counts of a game as a plan: slp_room of it is enough for its file. Codes and metadata that are not given have no bytes. */
static inline slp_plan slp_plan_of(const slp_game *game, size_t template_len, size_t codes_len, size_t metadata_len)
{
	slp_plan plan;
	size_t ports = game->frames.port_count < 4 ? game->frames.port_count : 4;

	plan.version = game->frames.version;
	plan.block = template_len;
	plan.slots = ports;
	for (size_t k = 0; k < ports; k++)
		plan.slots += game->frames.ports[k].follower != 0;
	plan.counts = game->frames.counts;
	plan.codes = game->codes_given ? codes_len : 0;
	plan.metadata = game->metadata_given ? metadata_len : 0;
	return plan;
}

typedef struct {
	uint8_t refused;   /* 0, or of frames 1 to 7, 13 or 12, judged in that order; of a head 1, 2, 8, 9, 10 or 12 */
	size_t end;        /* the place after the last byte that was written; 0 on a refusal */
} slp_appended;

/* The events of the frames from `a` on and before `b`, at `place` of `out`, as they stand in the file of the game: what a live recorder appends. Bytes
 * before the place and from the end place on stay. An empty run (a and b the same) is accepted at every place up to `out_len` and writes nothing. All
 * stores are judged, so a recorder lends the frames that it has finished since the last call as a small game of their own.
 *
 *     slp_appended r = slp_write_frames(out, sizeof out, place, game.frames, SLP_STORES(&stores), 0, game.frames.counts.frames);
 *     if (!r.refused) place = r.end;    // where the next run goes
 */
slp_appended slp_write_frames(uint8_t *out, size_t out_len, size_t place, slp_frames frames, SLP_STORE_PARAMETERS, size_t a, size_t b);

/* Frame `i` alone: the run from i up to i + 1. */
slp_appended slp_write_frame(uint8_t *out, size_t out_len, size_t place, slp_frames frames, SLP_STORE_PARAMETERS, size_t i);

/* ======== a live recording ========
 *
 * A recorder begins its file with the head, appends the frames as they are finished (slp_write_frames), closes the file with the end, and fills in the
 * length last: byte for byte the file that slp_write gives for the game. Until then the length is zero, and what stands there is read as slp_walk says.
 *
 *     slp_game game = { .frames = { .version = { 0, 1, 0 } }, .end = { .given = 1, .method = 3 } };
 *     slp_bytes none = { NULL, 0 }, start = { block, sizeof block };
 *     slp_appended h = slp_write_game_head(out, sizeof out, &game, start, none);    // h.end is 350
 *     slp_closed c = slp_write_game_end(out, sizeof out, h.end, &game, none);    // behind the last frame; c.end is 353
 *     if (!c.refused) memcpy(out + 11, slp_length_field(c.events - 15).bytes, 4);    // 00 00 01 51
 */

/* All that stands before the first frame, at the start of `out`: the signature, a length of zero, the payload table, GameStart and the blocks of codes.
 * Bytes behind it stay. Refusals are those of slp_write for these parts. */
slp_appended slp_write_head(uint8_t *out, size_t out_len, slp_version version, slp_start start, uint8_t codes_given, uint32_t actual_size,
                            const uint8_t *template_block, size_t template_len,
                            const uint8_t *codes, size_t codes_len);

/* As slp_write_head; of the game, its version, start and codes are looked at. */
static inline slp_appended slp_write_game_head(uint8_t *out, size_t out_len, const slp_game *game, slp_bytes template_block, slp_bytes codes)
{
	return slp_write_head(out, out_len, game->frames.version, game->start, game->codes_given, game->actual_size, template_block.p,
	                      template_block.len, codes.p, codes.len);
}

typedef struct {
	uint8_t refused;   /* 0, or 1, 2, 11 or 12 */
	size_t events;     /* the place after the last event; 0 on a refusal */
	size_t end;        /* the place after the tail; 0 on a refusal */
} slp_closed;

/* All that stands behind the last frame, at `place` of `out`: the ends, and the tail with its metadata. The place need not be the file's: a recorder may
 * hold the end alone in memory. Bytes before the place and from the end place on stay. */
slp_closed slp_write_end(uint8_t *out, size_t out_len, size_t place, slp_version version, slp_end end, uint8_t double_end,
                         uint8_t metadata_given, const uint8_t *metadata, size_t metadata_len);

/* As slp_write_end; of the game, its version, ends and mark of metadata are looked at. */
static inline slp_closed slp_write_game_end(uint8_t *out, size_t out_len, size_t place, const slp_game *game, slp_bytes metadata)
{
	return slp_write_end(out, out_len, place, game->frames.version, game->end, game->double_end, game->metadata_given, metadata.p,
	                     metadata.len);
}

typedef struct {
	uint8_t refused;    /* 0, or 2 */
	uint8_t bytes[4];   /* zeros on a refusal */
} slp_field;

/* The bytes for offset 11 of a file with `n` bytes of event data: from offset 15 up to the place after the last event. */
slp_field slp_length_field(size_t n);

/* ======== the metadata map ========
 *
 * The body of an encoded map, as slp_write takes it: entries of a key and a value, which is a text of at most 255 bytes, a signed 32-bit number
 * or a map, at most 8 deep below the body's own. Keys are texts too, and stand once in a map. Texts are bytes and may hold zeros. */

enum { SLP_ENTRY_TEXT = 0, SLP_ENTRY_NUMBER = 1, SLP_ENTRY_MAP = 2 };

/* An entry: five cells. Entries stand in the order of the body, those of a map's value right behind its own. */
typedef struct {
	uint32_t kind;      /* SLP_ENTRY_... */
	uint32_t key;       /* where the key stands in the text store */
	uint32_t key_len;
	uint32_t value;     /* where a text stands in the text store; a number's bits; how many entries a map has itself */
	uint32_t len;       /* a text's length; else not looked at, and 0 where it was read */
} slp_entry;

/* How many cells so many entries are. */
#define SLP_ENTRY_CELLS 5u
#define SLP_CELLS(entries) (SLP_ENTRY_CELLS * (size_t)(entries))

/* The body of the map of `count` entries (those inside its maps not counted), at the start of `out`; bytes past it stay. `texts` holds the keys and
 * texts. `cells` is SLP_CELLS of all entries that are lent, and all of them must be the map's. `len` is the body's length. Refused with the lowest
 * number that applies of 20, 21, 22, 23, 2 (a body over SLP_MAX_METADATA bytes) and 12, in this order.
 *
 *     const uint8_t texts[] = "lastFrameplayedOndolphin";
 *     slp_entry entries[2] = { { SLP_ENTRY_NUMBER, 0, 9, 1234, 0 }, { SLP_ENTRY_TEXT, 9, 8, 17, 7 } };
 *     uint8_t body[64];
 *     slp_written m = slp_write_map(body, sizeof body, entries, SLP_CELLS(2), texts, 24, 2);    // m.len is 36
 */
slp_written slp_write_map(uint8_t *out, size_t out_len, const slp_entry *entries, size_t cells, const uint8_t *texts, size_t texts_len,
                          size_t count);

typedef struct {
	uint8_t refused;   /* 0, or 20 to 23, 2, 12 */
	size_t place;      /* 20 to 23: the first wrong place in the body; else 0 */
	size_t count;      /* how many entries the map has itself */
	size_t entries;    /* how many it has in all, those inside its maps too */
} slp_map_read;

/* The entries of a body, at the start of a store of `cells` cells; entries past them stay. Keys and texts stand in the body itself, which is their
 * text store. It takes exactly the bodies that slp_write_map gives. The first wrong place decides between 20 and 23; then come 2, and 12 for a store
 * that is too short. Looking for a key twice takes time with the square of a map's entries, and comes before 2: compare the length of a body that no replay
 * brought with SLP_MAX_METADATA first. Up to there it is at most some tenths of a second.
 *
 *     slp_entry back[8];
 *     slp_map_read r = slp_read_map(body, m.len, back, SLP_CELLS(8));    // r.count is 2, back[0].key is 2
 */
slp_map_read slp_read_map(const uint8_t *body, size_t body_len, slp_entry *entries, size_t cells);

/* ======== rows ========
 *
 * One record of a game as a struct with named fields. Fields that the version lacks are 0. `bits` has the record's cells as they are, in the order
 * of its columns: a float field is the float of its cell, and all patterns of a NaN are one NaN there, so look into `bits` for the pattern.
 * A player's row says whether the player is in the frame: `present` is 1 or 0 by the presence bit. The values of an absent player are those that the
 * stores have for it. Each call judges all stores, as slp_write does, and then reads one record: for many rows there is slp_rows. */

typedef struct {
	float x, y;
} slp_position;

typedef struct {
	float x, y;
} slp_velocity;

typedef struct {
	float l, r;
} slp_triggers_physical;

typedef struct {
	float self_x_air, self_y, knockback_x, knockback_y, self_x_ground;
} slp_velocities;

typedef struct {
	slp_version version;
	uint8_t present;              /* 1 or 0 */
	uint32_t bits[32];
	uint32_t random_seed;
	uint16_t state;
	slp_position position;
	float direction;
	slp_position joystick, cstick;
	float triggers;
	uint32_t buttons;
	uint16_t buttons_physical;
	slp_triggers_physical triggers_physical;
	int8_t raw_analog_x;          /* from 1.2 */
	float percent;                /* from 1.4 */
	int8_t raw_analog_y;          /* from 3.15 */
	int8_t raw_analog_cstick_x;   /* from 3.17 */
	int8_t raw_analog_cstick_y;   /* from 3.17 */
} slp_pre;

typedef struct {
	slp_version version;
	uint8_t present;                 /* 1 or 0 */
	uint32_t bits[32];
	uint8_t character;
	uint16_t state;
	slp_position position;
	float direction, percent, shield;
	uint8_t last_attack_landed, combo_count, last_hit_by, stocks;
	float state_age;                 /* from 0.2 */
	uint8_t state_flags[5];          /* from 2.0, as the next five */
	float misc_as;
	uint8_t airborne;
	uint16_t ground;
	uint8_t jumps, l_cancel;
	uint8_t hurtbox_state;           /* from 2.1 */
	slp_velocities velocities;       /* from 3.5 */
	float hitlag;                    /* from 3.8 */
	uint32_t animation_index;        /* from 3.11 */
	uint16_t last_hit_by_instance;   /* from 3.16 */
	uint16_t instance_id;            /* from 3.16 */
} slp_post;

typedef struct {
	slp_version version;
	uint32_t bits[32];
	uint16_t type_id;
	uint8_t state;
	float direction;
	slp_velocity velocity;
	slp_position position;
	uint16_t damage;
	float timer;
	uint32_t id;
	uint8_t misc[4];        /* from 3.2 */
	int8_t owner;           /* from 3.6 */
	uint16_t instance_id;   /* from 3.16 */
} slp_item;

typedef struct {
	slp_version version;
	uint32_t bits[32];
	uint32_t random_seed;           /* from 2.2 */
	uint32_t scene_frame_counter;   /* from 3.10 */
} slp_frame_start;

typedef struct {
	slp_version version;
	uint32_t bits[32];
	int32_t latest_finalized_frame;   /* from 3.7 */
} slp_frame_end;

typedef struct {
	slp_version version;
	uint32_t bits[32];
	uint8_t platform;
	float height;
} slp_fod_platform;

typedef struct {
	slp_version version;
	uint32_t bits[32];
	uint8_t direction;
} slp_dreamland_whispy;

typedef struct {
	slp_version version;
	uint32_t bits[32];
	uint16_t event, type_id;
} slp_stadium_transformation;

typedef struct {
	uint8_t present;   /* 1 or 0, as in both rows */
	slp_pre pre;
	slp_post post;
} slp_data;

typedef struct {
	uint8_t port;
	uint8_t follower_given;   /* 1 or 0 */
	slp_data leader;
	slp_data follower;        /* absent, all 0, where there is none */
} slp_port_data;

/* Which rows of a family a frame has: 0 and 0 where the version lacks the family. */
typedef struct {
	size_t first, count;
} slp_range;

typedef struct {
	slp_version version;
	int32_t id;
	size_t port_count;
	slp_port_data ports[4];   /* in the order of the port columns; the rest is all 0 */
	slp_frame_start start;
	slp_frame_end end;
	slp_range items, fod_platforms, dreamland_whispys, stadium_transformations;
} slp_frame;

/* The answers: `refused` is 0, or 1 to 7 as for slp_write, or 13 where there is no such frame, row or slot; then the row is all 0. */
typedef struct {
	uint8_t refused;
	slp_frame row;
} slp_frame_answer;

typedef struct {
	uint8_t refused;
	slp_pre row;
} slp_pre_answer;

typedef struct {
	uint8_t refused;
	slp_post row;
} slp_post_answer;

typedef struct {
	uint8_t refused;
	slp_item row;
} slp_item_answer;

typedef struct {
	uint8_t refused;
	slp_fod_platform row;
} slp_fod_platform_answer;

typedef struct {
	uint8_t refused;
	slp_dreamland_whispy row;
} slp_dreamland_whispy_answer;

typedef struct {
	uint8_t refused;
	slp_stadium_transformation row;
} slp_stadium_transformation_answer;

/* Frame `index`: its id, start, end and players, and which items and stage rows it has.
 *
 *     slp_frame_answer a = slp_frame_row(game.frames, SLP_STORES(&stores), 0);
 *     if (!a.refused) printf("frame %d: port %u has %.1f percent\n", a.row.id, a.row.ports[0].port, a.row.ports[0].leader.post.percent);
 */
slp_frame_answer slp_frame_row(slp_frames frames, SLP_STORE_PARAMETERS, size_t index);

/* A player's Pre and Post of frame `index`. Slots are leader, then follower where there is one, of each port column in order.
 *
 *     slp_post_answer a = slp_post_row(game.frames, SLP_STORES(&stores), 1, 0);    // the second slot's Post of the first frame
 */
slp_pre_answer slp_pre_row(slp_frames frames, SLP_STORE_PARAMETERS, size_t slot, size_t index);
slp_post_answer slp_post_row(slp_frames frames, SLP_STORE_PARAMETERS, size_t slot, size_t index);

/* Row `index` of the items or of a stage family, counted over the whole game; a frame's row says which are its own.
 *
 *     for (size_t i = 0; i < frame.items.count; i++)
 *         use(slp_item_row(game.frames, SLP_STORES(&stores), frame.items.first + i).row);
 */
slp_item_answer slp_item_row(slp_frames frames, SLP_STORE_PARAMETERS, size_t index);
slp_fod_platform_answer slp_fod_platform_row(slp_frames frames, SLP_STORE_PARAMETERS, size_t index);
slp_dreamland_whispy_answer slp_dreamland_whispy_row(slp_frames frames, SLP_STORE_PARAMETERS, size_t index);
slp_stadium_transformation_answer slp_stadium_transformation_row(slp_frames frames, SLP_STORE_PARAMETERS, size_t index);

/* ---- many rows, judged once */

typedef struct {
	uint8_t refused;   /* 0, or 1 to 7, 13 or 12, judged in that order */
	size_t len;        /* how many cells were put; 0 on a refusal */
} slp_run;

/* How many cells a row has in slp_rows: one a column, and for a player's row one more, its mark. */
static inline size_t slp_row_cells(slp_version version, uint8_t family)
{
	return slp_columns(version, family) + (family == SLP_FAMILY_PRE || family == SLP_FAMILY_POST);
}

/* Rows `from` up to `to` (which is not among them) of a family and slot, row after row, at the start of `out`; cells past them stay. A row is its
 * cells in the order of the columns, and for Pre and Post the mark behind them: 1 where the player is in the frame, else 0. Families without
 * players have slot 0. All stores are judged, once, so that the time is that of the judge and of the cells. `out` overlaps no other slice.
 *
 *     size_t cells = slp_row_cells(game.frames.version, SLP_FAMILY_POST), columns = cells - 1;
 *     slp_run run = slp_rows(out, out_len, game.frames, SLP_STORES(&stores), SLP_FAMILY_POST, 0, 0, game.frames.counts.frames);
 *     for (const uint32_t *row = out; row < out + run.len; row += cells)
 *         show(slp_post_of(row, columns, game.frames.version, row[columns]));
 */
slp_run slp_rows(uint32_t *out, size_t out_len, slp_frames frames, SLP_STORE_PARAMETERS, uint8_t family, size_t slot, size_t from, size_t to);

/* A row of cells, whatever they are: nothing is judged or refused. Missing cells are 0, cells past the version's columns are not looked at, and of a
 * cell over its column's width the low bytes count. `present` is a mark. Of a game that slp_rows takes, the row of its cells is the one that the
 * calls above give; FrameStart's and FrameEnd's are those in the frame's row. */
slp_pre slp_pre_of(const uint32_t *cells, size_t cells_len, slp_version version, uint32_t present);
slp_post slp_post_of(const uint32_t *cells, size_t cells_len, slp_version version, uint32_t present);
slp_item slp_item_of(const uint32_t *cells, size_t cells_len, slp_version version);
slp_frame_start slp_frame_start_of(const uint32_t *cells, size_t cells_len, slp_version version);
slp_frame_end slp_frame_end_of(const uint32_t *cells, size_t cells_len, slp_version version);
slp_fod_platform slp_fod_platform_of(const uint32_t *cells, size_t cells_len, slp_version version);
slp_dreamland_whispy slp_dreamland_whispy_of(const uint32_t *cells, size_t cells_len, slp_version version);
slp_stadium_transformation slp_stadium_transformation_of(const uint32_t *cells, size_t cells_len, slp_version version);

#ifdef __cplusplus
}
#endif

#endif
