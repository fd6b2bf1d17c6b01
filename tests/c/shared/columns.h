/* The columns of the eight record families, from the text of the format and apart from the library's own table. */
#ifndef COLUMNS_H
#define COLUMNS_H

#include "slp.h"

typedef enum { PRE, POST, FRAME_START, ITEM, FRAME_END, FOD, WHISPY, STADIUM, FAMILIES } family;

enum { MOST_COLUMNS = 32 };

/* Whether a version is major.minor or newer. */
int reaches(slp_version v, int major, int minor);
/* Whether a version has records of this family. */
int has_family(family f, slp_version v);
/* The widths of the columns that a version has; how many there are. */
size_t widths_of(family f, slp_version v, uint8_t widths[MOST_COLUMNS]);
size_t columns_of(family f, slp_version v);
/* How many bytes the columns take in a record. */
size_t bytes_of(family f, slp_version v);
/* The start block's length. */
size_t block_length(slp_version v);
/* The largest number that a column of so many bytes holds. */
uint32_t most(uint8_t width);

#endif
