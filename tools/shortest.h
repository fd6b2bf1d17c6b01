/* Floats as decimals. */
#ifndef SHORTEST_H
#define SHORTEST_H

#include <stddef.h>
#include <stdint.h>

#ifdef __cplusplus
extern "C" {
#endif

/* A sign, nine digits, a point, an exponent's mark, sign and two digits, and some to spare. */
enum { SHORTEST_ROOM = 24 };

/* The shortest decimal that reads back as the float of these bits, "inf" or "-inf", or "nan" for all that are no number; not ended by a zero. How
 * many bytes it has. */
size_t shortest(uint32_t bits, char *text);

#ifdef __cplusplus
}
#endif

#endif
