/* Games made for tests: random in all that a version leaves free, and accepted. */
#ifndef MADE_H
#define MADE_H

#include "guard.h"

/* What a game should have. Rows of families that the version lacks are left out. */
typedef struct {
	slp_version version;
	size_t frames, items, fods, whispys, stadiums;
	size_t ports, followers;   /* followers: bit p for port column p */
	int presence;              /* whether slots have presence bits, by chance */
	int seats;                 /* how many players the start block has */
	int codes, metadata, end, double_end;
	uint32_t actual_size;
	size_t metadata_len, block_more;
} plan;

/* Each store has more memory than it lends, so that its length can grow. */
enum { SPARE_CELLS = 4, SPARE_BYTES = 1024 };

/* A game with the memory of its stores, in the order of slp_write; what is damaged there shows in `in`. */
typedef struct {
	input in, whole;   /* whole: as it was made */
	uint32_t *cells[CELL_STORES];
	uint8_t *presence, *block, *codes, *metadata;
} made;

made make_game(const plan *p);
/* A game that comes back from its file: ports ascend, seats that are not given have type 3 in the template, and before 2.2 the id changes from frame to
 * frame and in each somebody is. */
made make_returning(plan p);
/* Whether a slot's player is in a frame. */
int is_present(const input *in, size_t slot, size_t frame);
void unmake(made *m);
plan random_plan(size_t most_frames);
/* One of the versions at which something changes, or near one. */
slp_version random_version(void);
/* 3.18.0 with a frame, a leader, an end, and nothing left to chance but the bytes. */
plan one_frame_plan(void);
/* 3.18.0 with all there is: followers, presence, items, stage rows, codes, metadata. */
plan rich_plan(void);

#endif
