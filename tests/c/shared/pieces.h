/* A replay in pieces: its table, its events and its tail, to be changed and put together again. */
#ifndef PIECES_H
#define PIECES_H

#include "slp.h"

enum { MOST_PIECES = 256, MOST_ENTRIES = 40, LONGEST_PIECE = 1088 };

typedef struct {
	uint8_t code;
	uint8_t bytes[LONGEST_PIECE];
	size_t len;
} piece;

typedef struct {
	uint8_t codes[MOST_ENTRIES];
	size_t sizes[MOST_ENTRIES], entries;
	piece events[MOST_PIECES];
	size_t n;
	uint8_t tail[128];
	size_t tail_len;
} pieces;

/* The pieces of a small replay that the reader takes. */
void take_apart(pieces *p, const uint8_t *file, size_t len);
/* Those of a game of a version that the reader takes: three frames of port 0 with a follower and of port 2, two rows of each family a frame where the
 * version has it, two code blocks, metadata, two ends. */
void take_whole(pieces *p, slp_version v);
/* Its bytes, in memory to be freed. The length is that of the event data. */
uint8_t *put_together(const pieces *p, size_t *len);

/* The size that the table has for a code, to be changed; a new entry where it has none. */
size_t *listed(pieces *p, uint8_t code);
void unlist(pieces *p, uint8_t code);
/* The k-th event of a code, counted from 0. */
size_t find(const pieces *p, uint8_t code, size_t k);
/* An event moves to another place, is doubled there, or goes. */
void move_piece(pieces *p, size_t from, size_t to);
void double_piece(pieces *p, size_t from, size_t to);
void drop_piece(pieces *p, size_t at);
/* A new event of zeros, as long as its code is listed. */
piece *insert_piece(pieces *p, size_t at, uint8_t code);
/* All events of a code, and its entry, get so many bytes. */
void resize(pieces *p, uint8_t code, size_t len);

#endif
