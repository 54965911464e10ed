/* Lanwezik: a proved controller for parcel halls, as a C library (x86-64).
 *
 * A console lends a program, starts from a fresh state and then, tick after
 * tick, scans and takes:
 *
 *     lanwezik_state state;
 *     lanwezik_inputs inputs = {0};
 *     lanwezik_fresh(&state);
 *     inputs.elapsed = 10;
 *     inputs.bits = 1;
 *     scanned = lanwezik_scan(program, length, &state, &inputs);
 *     taken = lanwezik_take(&state);
 *
 * Every call answers for any content: any bytes as a program, any state, any
 * inputs.  What it cannot do it refuses with a number, and then changes
 * nothing.  No call allocates, keeps anything from one call to the next, or
 * keeps a pointer that it was given; so calls on different states may run at
 * the same time.  All memory is the caller's.
 *
 * A tick is 10 ms.  The rules are those of document 01.
 */
#ifndef LANWEZIK_H
#define LANWEZIK_H

#include <stdbool.h>
#include <stddef.h>
#include <stdint.h>

#ifdef __cplusplus
extern "C" {
#endif

/* ---- Numbers of refusal ---- */

enum {
    LANWEZIK_GOOD = 0,      /* not refused */
    LANWEZIK_MALFORMED = 1, /* a number is not shortest, or over three groups: throw the
                               program away, no bytes behind it would mend it */
    LANWEZIK_OUTSIDE = 2,   /* a count, kind, field, code or expression is out of bounds;
                               or bytes follow the end */
    LANWEZIK_ABSENT = 3,    /* a reference to no block, or to the word of a kind without one */
    LANWEZIK_MEMORY = 4,    /* the program's memory is over 5,000 */
    LANWEZIK_BAD_STATE = 5, /* no state is like the one given */
    LANWEZIK_OVERRUN = 6,   /* the time would run over, or missed might */
    LANWEZIK_BAD_TEXT = 7,  /* a text is no formula */
    LANWEZIK_CUT = 8        /* the end of the data cuts a number: send the program again */
};

/* The program's own refusal, 1 to 4 or 8, comes before 5, and 5 before 6; of a
 * formula 7 comes before 2.  At one place 1 and 8 cannot both apply.  A good
 * program that lacks bytes at its end, few or all, is refused with 8. */

/* ---- State ---- */

enum {
    LANWEZIK_COUNTS = 4,
    LANWEZIK_ENTRIES = 32,
    LANWEZIK_PLACES = 200,
    LANWEZIK_ANALOGS = 8
};

/* What stands where in counts. */
enum {
    LANWEZIK_TIME = 0,   /* ticks since fresh */
    LANWEZIK_MISSED = 1, /* alarms that found the journal full */
    LANWEZIK_HELD = 2,   /* entries in the journal, 0..32 */
    LANWEZIK_ALARMS = 3  /* the last alarm word, below 2^32 */
};

/* Everything that is kept from call to call: 1,920 bytes of plain data, without
 * pointers and without gaps.  It may be copied, compared by memcmp, stored and
 * given back, in the byte order of the machine.  A state that was changed on
 * the way is either again a good one or refused as LANWEZIK_BAD_STATE. */
typedef struct {
    uint64_t counts[LANWEZIK_COUNTS];
    uint64_t times[LANWEZIK_ENTRIES];  /* of the journal's entries, oldest first; */
    uint8_t numbers[LANWEZIK_ENTRIES]; /* and their alarm numbers, 0..31; zero beyond held */
    uint32_t ticks[LANWEZIK_PLACES];   /* of each block, at most 6,553,399 */
    int16_t words[LANWEZIK_PLACES];
    uint8_t pins[LANWEZIK_PLACES];     /* last pins, first field lowest, at most 15 */
    uint8_t outputs[LANWEZIK_PLACES];  /* 0 or 1 */
} lanwezik_state;

/* The compiler lays a state out as said above, or stops here. */
typedef char lanwezik_state_has_1920_bytes[sizeof(lanwezik_state) == 1920 ? 1 : -1];

/* ---- Inputs ---- */

/* Of one scan.  Any content is good. */
typedef struct {
    uint32_t bits;    /* input 0 lowest */
    uint16_t elapsed; /* ticks since the last scan */
    int16_t analogs[LANWEZIK_ANALOGS]; /* A01 first */
} lanwezik_inputs;

/* ---- Answers ----
 *
 * Two of them, and the inputs, have bytes of padding, which may hold anything:
 * compare them field by field, never by memcmp.
 */

/* Of lanwezik_accept. */
typedef struct {
    uint32_t refusal; /* LANWEZIK_GOOD to LANWEZIK_MEMORY, or LANWEZIK_CUT */
    uint32_t memory;  /* at most 5,000; 0 if refused */
    uint32_t steps;   /* the most that a scan of this program takes; 0 if refused */
    uint64_t place;   /* offset of the fault for 1 to 3 and 8, else 0 */
} lanwezik_acceptance;

/* Of lanwezik_scan.  Refused, all but refusal and place are 0. */
typedef struct {
    uint32_t refusal;
    uint32_t alarms; /* the alarm word: bit n is alarm n */
    uint32_t steps;  /* that this scan took */
    uint32_t rises;  /* alarms that are on and were off before */
    uint64_t place;  /* offset of the program's fault for 1 to 3 and 8, else 0 */
} lanwezik_scanned;

/* Of lanwezik_take.  If none was found, number and time are 0. */
typedef struct {
    uint32_t refusal; /* LANWEZIK_GOOD or LANWEZIK_BAD_STATE */
    uint32_t found;   /* 1 if an entry was taken, else 0 */
    uint32_t number;  /* of the alarm, 0..31 */
    uint64_t time;    /* at the end of the scan in which it rose */
} lanwezik_taken;

/* The most nodes of an expression, and their places: one more, never used. */
enum {
    LANWEZIK_NODES = 63,
    LANWEZIK_NODE_PLACES = 64
};

/* Of lanwezik_formula.  Refused, all but refusal and place are 0. */
typedef struct {
    uint32_t refusal; /* LANWEZIK_GOOD, LANWEZIK_OUTSIDE or LANWEZIK_BAD_TEXT */
    uint32_t count;   /* of the nodes, 1..63 */
    uint64_t place;   /* for 7: offset of the first bad byte, or the text's length if it
                         only stops too soon; else 0 */
    uint8_t nodes[LANWEZIK_NODE_PLACES]; /* their numbers, operator first; zero beyond count */
} lanwezik_expression;

/* What is passed by value is laid out as the archive has it, or the compiler stops here. */
typedef char lanwezik_inputs_have_24_bytes[sizeof(lanwezik_inputs) == 24 ? 1 : -1];
typedef char lanwezik_acceptance_has_24_bytes[sizeof(lanwezik_acceptance) == 24 ? 1 : -1];
typedef char lanwezik_scanned_has_24_bytes[sizeof(lanwezik_scanned) == 24 ? 1 : -1];
typedef char lanwezik_taken_has_24_bytes[sizeof(lanwezik_taken) == 24 ? 1 : -1];
typedef char lanwezik_expression_has_80_bytes[sizeof(lanwezik_expression) == 80 ? 1 : -1];

/* ---- What the archive exports ----
 *
 * The program is passed as a pointer and its number of bytes, the arrays of a
 * state as pointers to their first elements, each with as many behind it as in
 * lanwezik_state.  Arrays that are written must not overlap any other.  With a
 * lanwezik_state at hand, use the calls further below instead.
 */

/* Reads a whole program; answers the first fault, or its memory and its steps. */
lanwezik_acceptance lanwezik_accept(const uint8_t *program, size_t length);

void lanwezik_fresh_in(uint64_t *counts, uint64_t *times, uint8_t *numbers, uint32_t *ticks,
                       int16_t *words, uint8_t *pins, uint8_t *outputs);

lanwezik_scanned lanwezik_scan_in(const uint8_t *program, size_t length, uint64_t *counts,
                                  uint64_t *times, uint8_t *numbers, uint32_t *ticks,
                                  int16_t *words, uint8_t *pins, uint8_t *outputs,
                                  lanwezik_inputs inputs);

lanwezik_taken lanwezik_take_in(uint64_t *counts, uint64_t *times, uint8_t *numbers,
                                const uint32_t *ticks, const int16_t *words,
                                const uint8_t *pins, const uint8_t *outputs);

/* Reads a formula, as `I01 & !(B003 | I02)`, and answers the node numbers of
 * that expression, each a number of a BL's fields: the kind 0 and they, each in
 * its one or two bytes, are the block.  Any bytes may stand in the text, of any
 * length; it needs no zero at its end. */
lanwezik_expression lanwezik_formula(const uint8_t *text, size_t length);

/* ---- Calls ---- */

/* Makes any state the one in which nothing has happened: all zero and off. */
static inline void lanwezik_fresh(lanwezik_state *state)
{
    lanwezik_fresh_in(state->counts, state->times, state->numbers, state->ticks, state->words,
                      state->pins, state->outputs);
}

/* Runs every block once, inputs->elapsed ticks after the last scan, and stores
 * the alarms that rose; or refuses (1 to 6, 8) and leaves the state as it was.  The
 * program is read anew in each scan: it may lie in read-only memory, and may be
 * another one than in the last scan.  The inputs are only read. */
static inline lanwezik_scanned lanwezik_scan(const uint8_t *program, size_t length,
                                             lanwezik_state *state,
                                             const lanwezik_inputs *inputs)
{
    return lanwezik_scan_in(program, length, state->counts, state->times, state->numbers,
                            state->ticks, state->words, state->pins, state->outputs, *inputs);
}

/* Takes the oldest entry out of the journal and frees its place; with none
 * held, finds nothing.  Refuses only a bad state, and leaves it as it was. */
static inline lanwezik_taken lanwezik_take(lanwezik_state *state)
{
    return lanwezik_take_in(state->counts, state->times, state->numbers, state->ticks,
                            state->words, state->pins, state->outputs);
}

/* ---- Reading a state ---- */

/* Ticks since fresh. */
static inline uint64_t lanwezik_time(const lanwezik_state *state)
{
    return state->counts[LANWEZIK_TIME];
}

/* Entries in the journal. */
static inline uint64_t lanwezik_held(const lanwezik_state *state)
{
    return state->counts[LANWEZIK_HELD];
}

/* Alarms that found the journal full, since fresh. */
static inline uint64_t lanwezik_missed(const lanwezik_state *state)
{
    return state->counts[LANWEZIK_MISSED];
}

/* The output of a block, 0..199, as the last scan left it; off for any other number. */
static inline bool lanwezik_output(const lanwezik_state *state, uint32_t block)
{
    return block < LANWEZIK_PLACES && state->outputs[block] != 0;
}

#ifdef __cplusplus
}
#endif

#endif
