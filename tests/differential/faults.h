/* Which of the faults that document 01 and request L2 name a refused program has.
 */
#ifndef DIFFERENTIAL_FAULTS_H
#define DIFFERENTIAL_FAULTS_H

#include <stddef.h>
#include <stdint.h>

#define FAULTS(X) \
    X(CUT_BEFORE, "8, cut before its first byte") \
    X(CUT_AFTER_ONE, "8, cut after one byte") \
    X(CUT_AFTER_TWO, "8, cut after two bytes") \
    X(NOT_SHORTEST_TWO, "1, not shortest in two groups") \
    X(NOT_SHORTEST_THREE, "1, not shortest in three") \
    X(OVER_THREE, "1, over three groups") \
    X(OVER_THREE_LAST, "1, over three groups by the last byte") \
    X(NO_BLOCKS, "2, no blocks") \
    X(BLOCKS_OVER, "2, over 200 blocks") \
    X(KIND_OVER, "2, kind") \
    X(BIT_OVER, "2, bit reference") \
    X(WORD_BETWEEN, "2, word reference between blocks and constants") \
    X(WORD_OVER, "2, word reference over the constants") \
    X(CHOICE_OVER, "2, priority or mode") \
    X(UNIT_OVER, "2, unit") \
    X(RELATION_OVER, "2, relation") \
    X(TIME_OVER, "2, time or preset") \
    X(BOTH_ZERO, "2, FL with on and off both 0") \
    X(SETTING_OVER, "2, setting") \
    X(DIVISOR_ZERO, "2, OG with B 0") \
    X(NODE_OVER, "2, node's number") \
    X(NODES_OVER, "2, node too many") \
    X(DEPTH_OVER, "2, node too deep") \
    X(ALARMS_OVER, "2, over 32 alarms") \
    X(ALARM_OVER, "2, alarm's reference") \
    X(BYTES_AFTER, "2, bytes after the end") \
    X(BIT_ABSENT, "3, pin of no block") \
    X(NODE_ABSENT, "3, node of no block") \
    X(WORD_ABSENT, "3, word of no block") \
    X(WORD_OF_NONE, "3, word of a kind without one") \
    X(ALARM_ABSENT, "3, alarm of no block")

#define FAULT_NAME(fault, text) fault,

typedef enum { FAULTS(FAULT_NAME) FAULT_COUNT } fault;

extern const char *const FAULT_TEXTS[FAULT_COUNT];

/* The fault of a program that is refused by 1, 2, 3 or 8 at that place. */
fault find_fault(const uint8_t *program, size_t length, uint32_t refusal, uint64_t place);

#endif
