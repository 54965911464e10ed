/* Passes over a program up to the place of its fault, and says what stands
 * there.  That the place is right was compared before. */
#include "faults.h"

#include <stdbool.h>

enum {
    BL = 0,
    KINDS = 13,
    NODE_NOT = 0,
    NODE_LEAF = 6,
    NODE_LIMIT = 239,
    MOST_NODES = 63,
    MOST_DEPTH = 16,
    WORD_BLOCK = 8,
    WORD_CONSTANT = 1000,
    SIGNED_ZERO = 32768
};

#define FAULT_TEXT(fault, text) text,

const char *const FAULT_TEXTS[FAULT_COUNT] = {FAULTS(FAULT_TEXT)};

typedef struct {
    const uint8_t *program;
    size_t next;
    size_t place;
    uint32_t refusal;
    uint32_t value; /* of the number last read */
    uint32_t blocks;
} walk;

/* Reads the next number; false if the fault is at it. */
static bool pass(walk *w)
{
    bool passed = w->next != w->place;
    unsigned shift = 0;
    uint8_t byte;

    w->value = 0;
    do {
        byte = w->program[w->next++];
        w->value |= (byte & 0x7Fu) << shift;
        shift += 7;
    } while (byte >= 0x80);
    return passed;
}

/* Refusal 1: what is wrong with the number that these bytes begin with. */
static fault fault_of_number(const uint8_t *bytes, size_t left)
{
    if (bytes[1] < 0x80)
        return NOT_SHORTEST_TWO;
    if (bytes[2] < 0x80)
        return NOT_SHORTEST_THREE;
    return left > 3 ? OVER_THREE : OVER_THREE_LAST;
}

/* Refusal 8: how many bytes of the number are left. */
static fault fault_of_cut(size_t left)
{
    return left == 0 ? CUT_BEFORE : left == 1 ? CUT_AFTER_ONE : CUT_AFTER_TWO;
}

/* The fault of a field whose number was just read. */
static fault fault_of_field(const walk *w, char type)
{
    switch (type) {
    case 'b':
        return w->refusal == 3 ? BIT_ABSENT : BIT_OVER;
    case 'w':
        if (w->refusal == 3)
            return w->value - WORD_BLOCK < w->blocks ? WORD_OF_NONE : WORD_ABSENT;
        return w->value < WORD_CONSTANT ? WORD_BETWEEN : WORD_OVER;
    case 'c': return CHOICE_OVER;
    case 'u': return UNIT_OVER;
    case 'r': return RELATION_OVER;
    case 't': return TIME_OVER;
    case 'o': return w->value == 0 ? BOTH_ZERO : TIME_OVER;
    case 'd': return w->value == SIGNED_ZERO ? DIVISOR_ZERO : SETTING_OVER;
    default: return SETTING_OVER;
    }
}

/* Passes over an expression; FAULT_COUNT if the fault is not in it. */
static fault find_in_expression(walk *w)
{
    uint8_t second[MOST_DEPTH]; /* the depth of each second part still to come */
    unsigned seconds = 0, depth = 1, nodes = 0;

    for (;; nodes++) {
        if (!pass(w))
            return w->refusal == 3      ? NODE_ABSENT
                : w->value > NODE_LIMIT ? NODE_OVER
                : nodes == MOST_NODES   ? NODES_OVER
                                        : DEPTH_OVER;
        if (w->value < NODE_LEAF) {
            depth++;
            if (w->value != NODE_NOT)
                second[seconds++] = (uint8_t)depth;
        } else if (seconds > 0) {
            depth = second[--seconds];
        } else {
            return FAULT_COUNT;
        }
    }
}

/* Passes over a block; FAULT_COUNT if the fault is not in it.  Fields by their
 * types: b bit, w word, c choice, u unit, r relation, t time or preset, o the
 * off time of FL, s setting marked +-, d the B of OG. */
static fault find_in_block(walk *w)
{
    static const char *const fields[KINDS] = {
        "", "bbc", "bc", "bb", "bbutt", "bbut", "buto", "bbt", "bbbbs", "brww",
        "bsdsw", "bcwww", "bwww"
    };
    const char *type;

    if (!pass(w))
        return KIND_OVER;
    if (w->value == BL)
        return find_in_expression(w);
    for (type = fields[w->value]; *type != '\0'; type++)
        if (!pass(w))
            return fault_of_field(w, *type);
    return FAULT_COUNT;
}

static fault find_in_program(walk *w)
{
    uint32_t block, alarms;
    fault found;

    if (!pass(w))
        return w->value == 0 ? NO_BLOCKS : BLOCKS_OVER;
    w->blocks = w->value;
    for (block = 0; block < w->blocks; block++) {
        found = find_in_block(w);
        if (found != FAULT_COUNT)
            return found;
    }
    if (!pass(w))
        return ALARMS_OVER;
    for (alarms = w->value; alarms > 0; alarms--)
        if (!pass(w))
            return w->refusal == 3 ? ALARM_ABSENT : ALARM_OVER;
    return BYTES_AFTER;
}

fault find_fault(const uint8_t *program, size_t length, uint32_t refusal, uint64_t place)
{
    walk w = {program, 0, (size_t)place, refusal, 0, 0};

    if (refusal == 1)
        return fault_of_number(program + place, length - w.place);
    if (refusal == 8)
        return fault_of_cut(length - w.place);
    return find_in_program(&w);
}
