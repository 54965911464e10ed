/* Programs and recordings made from a seed: the same seed gives the same bytes.
 *
 * Each call writes at most `room` bytes to `out` and answers how long the whole
 * is; if that is over `room`, the rest was left out.
 */
#ifndef ORACLE_RECORDINGS_H
#define ORACLE_RECORDINGS_H

#include <stddef.h>
#include <stdint.h>

enum {
    ORACLE_MOST_RECORDING = 2000000, /* room for any recording */
    ORACLE_MOST_PROGRAM = 65536      /* room for any program */
};

/* A recording for the listing program: program length, program, scans.  About
 * two thirds are good throughout; the others are damaged somewhere.  A seed
 * divisible by 500 gives a long one, in which a counter reaches its stop. */
size_t oracle_recording(uint64_t seed, uint8_t *out, size_t room);

/* A program alone: about two thirds are good, the others damaged. */
size_t oracle_program(uint64_t seed, uint8_t *out, size_t room);

#endif
