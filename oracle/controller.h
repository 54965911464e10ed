/* The controller of document 01 with requests L2 and L3, read a second time.
 *
 * Four calls: accept, fresh, scan, take.  They keep no memory of their own
 * and answer for any content: any bytes of any length, any state, any inputs.
 */
#ifndef ORACLE_CONTROLLER_H
#define ORACLE_CONTROLLER_H

#include <stdbool.h>
#include <stddef.h>
#include <stdint.h>

enum {
    ORACLE_PLACES = 200,
    ORACLE_ENTRIES = 32,
    ORACLE_ANALOGS = 8
};

/* The numbers of refusal; 0 is none, 7 is in formula.h and 12 in listing.h. */
enum {
    ORACLE_GOOD = 0,
    ORACLE_MALFORMED = 1, /* a number not shortest, or over three groups */
    ORACLE_OUTSIDE = 2,   /* a count, kind, field, code or expression; extra bytes */
    ORACLE_ABSENT = 3,    /* no such block, or a kind without a word */
    ORACLE_MEMORY = 4,    /* memory over 5,000 */
    ORACLE_BAD_STATE = 5,
    ORACLE_OVERRUN = 6,   /* the time, or missed, would run over */
    ORACLE_CUT = 8        /* a number cut by the end of the data */
};

/* What a block keeps from scan to scan. */
typedef struct {
    uint32_t ticks;
    int16_t word;
    uint8_t pins; /* last pins, first field lowest */
    bool output;
} oracle_place;

typedef struct {
    uint64_t time;
    uint8_t number; /* of the alarm, 0..31 */
} oracle_entry;

/* Oldest entry first; entries beyond those held are zero. */
typedef struct {
    oracle_entry entries[ORACLE_ENTRIES];
    uint64_t held;
    uint64_t missed;
} oracle_journal;

typedef struct {
    oracle_place places[ORACLE_PLACES];
    uint64_t time;
    uint32_t alarms; /* last alarm word */
    oracle_journal journal;
} oracle_state;

typedef struct {
    unsigned refusal;
    size_t place;    /* offset of the fault; 0 if good and for 4 */
    uint32_t memory; /* 0 if refused, as is the step figure */
    uint32_t steps;
} oracle_acceptance;

typedef struct {
    unsigned refusal;
    size_t place;
    uint32_t alarms; /* alarm word; 0 if refused, as are steps and rises */
    uint32_t steps;
    uint32_t rises;
} oracle_answer;

typedef struct {
    unsigned refusal; /* 0 or 5 */
    bool found;
    oracle_entry entry; /* zero if none was found */
} oracle_taken;

/* Reads a whole program: refusals 1 to 4 and 8, or memory and step figure. */
oracle_acceptance oracle_accept(const uint8_t *program, size_t length);

/* Makes the state all zero and off. */
void oracle_fresh(oracle_state *state);

/* Runs one scan: refusals 1 to 6 and 8.  A refused scan leaves the state as it
 * was. */
oracle_answer oracle_scan(const uint8_t *program, size_t length,
                          oracle_state *state, uint16_t elapsed, uint32_t bits,
                          const int16_t words[ORACLE_ANALOGS]);

/* Takes the oldest entry out of the journal: refusal 5 only. */
oracle_taken oracle_take(oracle_state *state);

#endif
