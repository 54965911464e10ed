/* What a comparison has covered, as it can be seen from outside: from the
 * program, the inputs, the answers and the state before and after.
 */
#ifndef DIFFERENTIAL_COVERAGE_H
#define DIFFERENTIAL_COVERAGE_H

#include <stdbool.h>
#include <stddef.h>
#include <stdint.h>

#include "lanwezik.h"

/* The calls, and what they are called in reports. */
typedef enum { ACCEPT, FORMULA, FRESH, SCAN, TAKE, CALLS } call;

extern const char *const CALL_NAMES[CALLS];

/* What a state given was: good, or bad in one way. */
typedef enum {
    GOOD_STATE,
    BAD_TICKS, BAD_PINS, BAD_HELD, BAD_NUMBER, BAD_TIME_BEYOND, BAD_NUMBER_BEYOND,
    BAD_OUTPUT, BAD_ALARMS, /* these two no oracle_state can be */
    WAYS
} way;

/* Notes a call that was compared and found the same. */
void cover_call(call which, uint32_t refusal, way how);

/* Notes what a program was refused for, by 1, 2, 3 or 8. */
void cover_fault(call which, const uint8_t *program, size_t length, uint32_t refusal,
                 uint64_t place);

/* Notes what a formula was read as, or where it is bad. */
void cover_formula(const uint8_t *text, size_t length, const lanwezik_expression *answer);

/* Notes a refused call whose state was compared with the one before it. */
void cover_untouched(call which);

/* Notes what a good scan did. */
void cover_scan(const uint8_t *program, const lanwezik_state *before,
                const lanwezik_inputs *given, const lanwezik_scanned *answer, uint32_t figure,
                const lanwezik_state *after);

/* Notes what a refused scan could also have been refused for, and which of the
 * two a refusal 6 came from. */
void cover_refused_scan(uint32_t refusal, way how, const lanwezik_state *before,
                        uint16_t elapsed);

/* Notes what a good take did. */
void cover_take(const lanwezik_state *before, const lanwezik_taken *answer);

/* Prints every count, and how many of them are 0; true if none is. */
bool print_coverage(void);

#endif
