/* Formulas typed as text, made from a seed: the same seed gives the same bytes. */
#ifndef ORACLE_TEXTS_H
#define ORACLE_TEXTS_H

#include <stddef.h>
#include <stdint.h>

enum { ORACLE_MOST_TEXT = 8192 }; /* room for any text of a seed */

/* A text: about half are good, a tenth are good but over a bound of nodes or
 * depth, the others are bad.  Writes at most `room` bytes, which are to be
 * ORACLE_MOST_TEXT at least, and answers how many it wrote. */
size_t oracle_text(uint64_t seed, uint8_t *text, size_t room);

#endif
