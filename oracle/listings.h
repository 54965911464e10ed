/* Listings of whole programs made from a seed: the same seed gives the same
 * bytes. */
#ifndef ORACLE_LISTINGS_H
#define ORACLE_LISTINGS_H

#include <stddef.h>
#include <stdint.h>

enum { ORACLE_MOST_LISTING = 262144 }; /* room for any listing of a seed */

/* A listing: about a third are good, a third have good lines but stand for a
 * program that is refused with 2 to 4, a third have a bad line.  Writes at most
 * `room` bytes, which are to be ORACLE_MOST_LISTING at least, and answers how
 * many it wrote. */
size_t oracle_listing(uint64_t seed, uint8_t *out, size_t room);

#endif
