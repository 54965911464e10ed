/* console PROGRAM < inputs
 *
 * A console in small.  Loads a program, accepts it, and then reads a line for
 * each scan: elapsed ticks, input bits and up to eight analog words; those left
 * out are 0.  Numbers are decimal, or hexadecimal after 0x.  Prints for each
 * scan the time, the alarm word, the steps and the blocks whose output is on,
 * then the alarms that it takes out of the journal.  Of a program that is
 * refused it prints number and place, and whether a cut or badly formed one is
 * to be sent again or thrown away.
 */
#include <errno.h>
#include <inttypes.h>
#include <stdbool.h>
#include <stdio.h>
#include <stdlib.h>
#include <string.h>

#include "lanwezik.h"

enum { MOST_PROGRAM = 65536 };

/* Loads the whole file; false if it cannot be read or does not fit. */
static bool load(const char *name, uint8_t *program, size_t *length)
{
    FILE *file = fopen(name, "rb");
    bool whole;

    if (file == NULL)
        return false;
    *length = fread(program, 1, MOST_PROGRAM, file);
    whole = fgetc(file) == EOF && !ferror(file);
    return fclose(file) == 0 && whole;
}

/* What to do with a program that is refused so; nothing if it is to be corrected. */
static const char *advice(uint32_t refusal)
{
    switch (refusal) {
    case LANWEZIK_CUT: return ": cut on its way, send again";
    case LANWEZIK_MALFORMED: return ": badly formed, throw away";
    default: return "";
    }
}

/* Moves past blanks; true if nothing else is left. */
static bool at_end(const char **at)
{
    *at += strspn(*at, " \t\r\n");
    return **at == '\0';
}

/* Reads a number from `least` to `most` and moves past it. */
static bool read_number(const char **at, long long least, long long most, long long *value)
{
    char *end;

    if (at_end(at))
        return false;
    errno = 0;
    *value = strtoll(*at, &end, strncmp(*at, "0x", 2) == 0 ? 16 : 10);
    if (end == *at || errno != 0)
        return false;
    *at = end;
    return *value >= least && *value <= most;
}

/* Reads `elapsed bits [A01 .. A08]` and nothing else. */
static bool read_inputs(const char *line, lanwezik_inputs *inputs)
{
    static const lanwezik_inputs none;
    long long value;
    unsigned i;

    *inputs = none;
    if (!read_number(&line, 0, UINT16_MAX, &value))
        return false;
    inputs->elapsed = (uint16_t)value;
    if (!read_number(&line, 0, UINT32_MAX, &value))
        return false;
    inputs->bits = (uint32_t)value;
    for (i = 0; i < LANWEZIK_ANALOGS && !at_end(&line); i++) {
        if (!read_number(&line, INT16_MIN, INT16_MAX, &value))
            return false;
        inputs->analogs[i] = (int16_t)value;
    }
    return at_end(&line);
}

/* Takes and prints every entry of the journal. */
static bool print_entries(lanwezik_state *state)
{
    for (;;) {
        lanwezik_taken taken = lanwezik_take(state);

        if (taken.refusal != LANWEZIK_GOOD) {
            fprintf(stderr, "take refused %" PRIu32 "\n", taken.refusal);
            return false;
        }
        if (!taken.found)
            return true;
        printf("  alarm %" PRIu32 " at %" PRIu64 "\n", taken.number, taken.time);
    }
}

/* Runs one scan and prints what it answers. */
static bool run_scan(const uint8_t *program, size_t length, lanwezik_state *state,
                     const lanwezik_inputs *inputs)
{
    lanwezik_scanned scanned = lanwezik_scan(program, length, state, inputs);
    uint32_t block;

    if (scanned.refusal != LANWEZIK_GOOD) {
        fprintf(stderr, "scan refused %" PRIu32 " at %" PRIu64 "\n",
                scanned.refusal, scanned.place);
        return false;
    }
    printf("time %" PRIu64 " alarms %08" PRIx32 " steps %" PRIu32 " on",
           lanwezik_time(state), scanned.alarms, scanned.steps);
    for (block = 0; block < LANWEZIK_PLACES; block++)
        if (lanwezik_output(state, block))
            printf(" %" PRIu32, block);
    putchar('\n');
    return print_entries(state);
}

/* Runs a scan for each line of standard input. */
static bool run(const uint8_t *program, size_t length)
{
    lanwezik_state state;
    lanwezik_inputs inputs;
    char line[256];

    lanwezik_fresh(&state);
    while (fgets(line, sizeof line, stdin) != NULL) {
        if (!read_inputs(line, &inputs)) {
            fputs("a line is: elapsed bits [A01 .. A08]\n", stderr);
            return false;
        }
        if (!run_scan(program, length, &state, &inputs))
            return false;
    }
    printf("held %" PRIu64 " missed %" PRIu64 "\n", lanwezik_held(&state), lanwezik_missed(&state));
    return !ferror(stdin) && fflush(stdout) == 0;
}

int main(int argc, char **argv)
{
    static uint8_t program[MOST_PROGRAM];
    lanwezik_acceptance acceptance;
    size_t length;

    if (argc != 2) {
        fputs("usage: console PROGRAM < inputs\n", stderr);
        return 2;
    }
    if (!load(argv[1], program, &length)) {
        fprintf(stderr, "%s: cannot be loaded\n", argv[1]);
        return 2;
    }
    acceptance = lanwezik_accept(program, length);
    if (acceptance.refusal != LANWEZIK_GOOD) {
        printf("refused %" PRIu32 " at %" PRIu64 "%s\n", acceptance.refusal, acceptance.place,
               advice(acceptance.refusal));
        return 1;
    }
    printf("memory %" PRIu32 " steps at most %" PRIu32 "\n", acceptance.memory, acceptance.steps);
    return run(program, length) ? 0 : 1;
}
