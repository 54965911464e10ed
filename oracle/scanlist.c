/* The listing program of document 01: a recording on standard input, one line
 * for each scan on standard output. */
#include <inttypes.h>
#include <stdio.h>

#include "controller.h"

enum {
    MOST_LENGTH = 16384,
    MOST_INPUT = 65535,
    SIGNED_ZERO = 32768,
    SCAN_NUMBERS = 3 + ORACLE_ANALOGS
};

/* How reading went: ENDED if the input stops before the first byte, CUT if it
 * stops later, MALFORMED if a number is badly formed or out of range. */
typedef enum { READ, ENDED, CUT, MALFORMED } reading;

static reading read_number(uint32_t *value)
{
    unsigned shift;

    *value = 0;
    for (shift = 0; shift < 21; shift += 7) {
        int byte = getchar();

        if (byte == EOF)
            return shift == 0 ? ENDED : CUT;
        *value |= (uint32_t)(byte & 0x7F) << shift;
        if (byte < 0x80)
            return byte == 0 && shift > 0 ? MALFORMED : READ;
    }
    return MALFORMED;
}

/* Reads the length and the program. */
static reading read_program(uint8_t *program, uint32_t *length)
{
    reading one = read_number(length);

    if (one != READ)
        return one;
    if (*length > MOST_LENGTH)
        return MALFORMED;
    return fread(program, 1, *length, stdin) == *length ? READ : CUT;
}

/* Reads the numbers of one scan. */
static reading read_scan(uint32_t numbers[SCAN_NUMBERS])
{
    unsigned i;

    for (i = 0; i < SCAN_NUMBERS; i++) {
        reading one = read_number(&numbers[i]);

        if (one == ENDED)
            return i == 0 ? ENDED : CUT;
        if (one != READ)
            return one;
        if (numbers[i] > MOST_INPUT)
            return MALFORMED;
    }
    return READ;
}

static void print_refusal(unsigned refusal, size_t place)
{
    printf("refused %u at %zu\n", refusal, place);
}

/* Reads and runs scans until the input ends or one of them is not good. */
static void list_scans(const uint8_t *program, uint32_t length)
{
    static oracle_state state;
    uint32_t numbers[SCAN_NUMBERS];
    int16_t words[ORACLE_ANALOGS];
    reading one;
    unsigned i;

    oracle_fresh(&state);
    while ((one = read_scan(numbers)) == READ) {
        uint32_t bits = numbers[1] | numbers[2] << 16;
        oracle_answer answer;

        for (i = 0; i < ORACLE_ANALOGS; i++)
            words[i] = (int16_t)((int32_t)numbers[3 + i] - SIGNED_ZERO);
        answer = oracle_scan(program, length, &state, (uint16_t)numbers[0],
                             bits, words);
        if (answer.refusal != ORACLE_GOOD) {
            print_refusal(answer.refusal, answer.place);
            return;
        }
        printf("%" PRIu64 " %" PRIu32 " %" PRIu64 " %" PRIu64 "\n", state.time,
               answer.steps, state.journal.held, state.journal.missed);
    }
    if (one != ENDED) /* cut or malformed: the paper has one line for both */
        puts("bad scan");
}

int main(void)
{
    static uint8_t program[MOST_LENGTH];
    oracle_acceptance acceptance;
    uint32_t length;

    if (read_program(program, &length) != READ) {
        puts("bad program");
        return 0;
    }
    acceptance = oracle_accept(program, length);
    if (acceptance.refusal != ORACLE_GOOD)
        print_refusal(acceptance.refusal, acceptance.place);
    else
        list_scans(program, length);
    return 0;
}
