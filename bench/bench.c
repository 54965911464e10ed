/* bench [ROUNDS]
 *
 * Runs the same recordings through the library and the oracle, in turn, and
 * prints what a scan costs in each: the median of the rounds.  A scan includes
 * the reading of the program, which every call does anew.  Before a recording
 * is timed, every answer of the two is compared, and so are their sums after
 * each round; a difference ends the run with status 1.
 */
#include <inttypes.h>
#include <stdio.h>
#include <stdlib.h>
#include <string.h>
#include <time.h>

#include "chance.h"
#include "controller.h"
#include "lanwezik.h"

enum { BL, SR, PL, AL, DL, OS, FL, CN, UD, CP, OG, ZC, ST, KINDS };

enum {
    SCANS = 500, /* of a recording */
    ALARMS = 8,
    MOST_PROGRAM = 16384,
    MOST_ROUNDS = 101,
    ROUND_MS = 10, /* a round takes at least so long */
    NODE_AND = 1,
    NODE_OPERATORS = 5, /* of two parts */
    NODE_LEAF = 6,
    BIT_INPUT = 2,
    BIT_OUTPUT = 34,
    WORD_ZERO = 33768,
    SIGNED_ZERO = 32768
};

/* The recording under way. */
static uint8_t program[MOST_PROGRAM];
static size_t length;
static lanwezik_inputs scans[SCANS];

/* ---- Programs ---- */

static void put(uint32_t value)
{
    for (; value >= 0x80; value >>= 7)
        program[length++] = (uint8_t)(value | 0x80);
    program[length++] = (uint8_t)value;
}

/* An input, or the output of a lower block. */
static uint32_t some_bit(uint32_t block)
{
    return block == 0 || percent(60) ? BIT_INPUT + below(32) : BIT_OUTPUT + below(block);
}

/* An analog, or a constant near 0. */
static uint32_t some_word(void)
{
    return percent(50) ? below(LANWEZIK_ANALOGS) : WORD_ZERO + below(50);
}

/* A full tree of 2^levels - 1 nodes. */
static void put_tree(uint32_t block, unsigned levels)
{
    if (levels == 1) {
        put(NODE_LEAF + some_bit(block));
        return;
    }
    put(NODE_AND + below(NODE_OPERATORS));
    put_tree(block, levels - 1);
    put_tree(block, levels - 1);
}

/* The fields of one block by their types: b bit, w word, c choice, u unit,
 * r relation, t time or preset, s setting marked +- and not 0. */
static void put_fields(uint32_t block, const char *types)
{
    for (; *types != '\0'; types++) {
        switch (*types) {
        case 'b': put(some_bit(block)); break;
        case 'w': put(some_word()); break;
        case 'c': put(below(2)); break;
        case 'u': put(below(3)); break;
        case 'r': put(below(6)); break;
        case 't': put(1 + below(40)); break;
        default: put(SIGNED_ZERO + 1 + below(20)); break;
        }
    }
}

static void put_alarms(uint32_t blocks)
{
    uint32_t alarms = blocks < ALARMS ? blocks : ALARMS;

    put(alarms);
    while (alarms > 0)
        put(BIT_OUTPUT + blocks - alarms--);
}

/* Blocks of all kinds in turn; a BL has 7 nodes. */
static void make_mixed(uint32_t blocks)
{
    static const char *const fields[KINDS] = {
        "", "bbc", "bc", "bb", "bbutt", "bbut", "butt", "bbt", "bbbbs", "brww",
        "bsssw", "bcwww", "bwww"
    };
    uint32_t block;

    put(blocks);
    for (block = 0; block < blocks; block++) {
        put(block % KINDS);
        if (block % KINDS == BL)
            put_tree(block, 3);
        else
            put_fields(block, fields[block % KINDS]);
    }
    put_alarms(blocks);
}

/* BL alone, each a full tree of 63 nodes. */
static void make_expressions(uint32_t blocks)
{
    uint32_t block;

    put(blocks);
    for (block = 0; block < blocks; block++) {
        put(BL);
        put_tree(block, 6);
    }
    put_alarms(blocks);
}

/* P1 of document 01: one counter and an alarm on it. */
static void make_p1(uint32_t blocks)
{
    put(blocks);
    put(CN);
    put(BIT_INPUT);
    put(0);
    put(2);
    put_alarms(blocks);
}

/* Inputs of which a quarter changes from scan to scan. */
static void make_scans(void)
{
    uint32_t bits = 0;
    unsigned i, k;

    for (i = 0; i < SCANS; i++) {
        bits ^= (uint32_t)(chance() & chance());
        scans[i].elapsed = (uint16_t)below(20);
        scans[i].bits = bits;
        for (k = 0; k < LANWEZIK_ANALOGS; k++)
            scans[i].analogs[k] = (int16_t)between(-50, 50);
    }
}

/* ---- Runs ---- */

/* What a run answered, summed so that no answer can be left out. */
static uint64_t add(uint64_t sum, uint32_t refusal, uint32_t alarms, uint32_t steps, uint32_t rises)
{
    return sum * 31 + ((uint64_t)refusal << 48 ^ (uint64_t)rises << 40
                       ^ (uint64_t)steps << 32 ^ alarms);
}

static uint64_t run_library(void)
{
    lanwezik_state state;
    uint64_t sum = 0;
    unsigned i;

    lanwezik_fresh(&state);
    for (i = 0; i < SCANS; i++) {
        lanwezik_scanned answer = lanwezik_scan(program, length, &state, &scans[i]);

        sum = add(sum, answer.refusal, answer.alarms, answer.steps, answer.rises);
    }
    return sum;
}

static uint64_t run_oracle(void)
{
    oracle_state state;
    uint64_t sum = 0;
    unsigned i;

    oracle_fresh(&state);
    for (i = 0; i < SCANS; i++) {
        oracle_answer answer = oracle_scan(program, length, &state, scans[i].elapsed,
                                           scans[i].bits, scans[i].analogs);

        sum = add(sum, answer.refusal, answer.alarms, answer.steps, answer.rises);
    }
    return sum;
}

/* Compares every answer and the journal after the last; false if any differs or
 * is refused.  Answers the mean of the steps. */
static bool agree(double *steps)
{
    lanwezik_state library;
    oracle_state oracle;
    unsigned i;

    *steps = 0;
    lanwezik_fresh(&library);
    oracle_fresh(&oracle);
    for (i = 0; i < SCANS; i++) {
        lanwezik_scanned a = lanwezik_scan(program, length, &library, &scans[i]);
        oracle_answer b = oracle_scan(program, length, &oracle, scans[i].elapsed,
                                      scans[i].bits, scans[i].analogs);

        if (a.refusal != LANWEZIK_GOOD || b.refusal != ORACLE_GOOD || a.alarms != b.alarms
            || a.steps != b.steps || a.rises != b.rises)
            return false;
        *steps += (double)a.steps / SCANS;
    }
    return lanwezik_time(&library) == oracle.time
        && lanwezik_held(&library) == oracle.journal.held
        && lanwezik_missed(&library) == oracle.journal.missed;
}

/* ---- Times ---- */

typedef uint64_t (*runner)(void);

/* Runs the recording `times` over; answers the time in clocks. */
static clock_t time_of(runner run, unsigned times, uint64_t wanted)
{
    clock_t start = clock();

    while (times-- > 0) {
        if (run() != wanted) {
            fputs("bench: a run answered otherwise than before\n", stderr);
            exit(1);
        }
    }
    return clock() - start;
}

static int by_size(const void *a, const void *b)
{
    double x = *(const double *)a, y = *(const double *)b;

    return (x > y) - (x < y);
}

static double median(double *values, unsigned count)
{
    qsort(values, count, sizeof *values, by_size);
    return values[count / 2];
}

static void print_row(const char *name, unsigned rounds)
{
    static double library[MOST_ROUNDS], oracle[MOST_ROUNDS];
    uint64_t wanted = run_oracle();
    unsigned times = 1;
    double steps, scale, first, second;
    unsigned i;

    if (!agree(&steps)) {
        fprintf(stderr, "bench: %s: the two do not agree, or refuse\n", name);
        exit(1);
    }
    while (time_of(run_oracle, times, wanted) < (clock_t)(CLOCKS_PER_SEC / 1000 * ROUND_MS))
        times *= 2;
    scale = 1e9 / CLOCKS_PER_SEC / SCANS / times;
    for (i = 0; i < rounds; i++) {
        library[i] = (double)time_of(run_library, times, wanted) * scale;
        oracle[i] = (double)time_of(run_oracle, times, wanted) * scale;
    }
    first = median(library, rounds);
    second = median(oracle, rounds);
    printf("| %-26s | %6zu | %7.1f | %11.0f | %9.0f | %5.2f |\n",
           name, length, steps, first, second, first / second);
}

/* ---- The table ---- */

static const struct {
    const char *name;
    void (*make)(uint32_t blocks);
    uint32_t blocks;
} ROWS[] = {
    {"small: P1", make_p1, 1},
    {"middle: 40 mixed", make_mixed, 40},
    {"full: 200 mixed", make_mixed, 200},
    {"expressions: 68 of 63", make_expressions, 68},
    {"size: 10 mixed", make_mixed, 10},
    {"size: 20 mixed", make_mixed, 20},
    {"size: 50 mixed", make_mixed, 50},
    {"size: 100 mixed", make_mixed, 100},
    {"size: 150 mixed", make_mixed, 150},
    {"size: 200 mixed", make_mixed, 200}
};

int main(int argc, char **argv)
{
    unsigned long rounds = argc == 2 ? strtoul(argv[1], NULL, 10) : 15;
    unsigned i;

    if (argc > 2 || rounds < 1 || rounds > MOST_ROUNDS) {
        fprintf(stderr, "usage: bench [ROUNDS], of which there are 1 to %d\n", MOST_ROUNDS);
        return 2;
    }
    puts("| program (blocks)           |  bytes |   steps | lanwezik ns | oracle ns | ratio |");
    puts("|---|---|---|---|---|---|");
    for (i = 0; i < sizeof ROWS / sizeof ROWS[0]; i++) {
        chance_state = 1;
        length = 0;
        ROWS[i].make(ROWS[i].blocks);
        make_scans();
        print_row(ROWS[i].name, (unsigned)rounds);
    }
    return 0;
}
