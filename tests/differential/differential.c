/* differential CALLS SEED...
 *
 * Gives the library and the oracle the same programs, states, inputs and texts, CALLS
 * times from each seed, and compares every field of every answer and the whole
 * state after it.  What no oracle_state can be is judged here, from the paper:
 * the program's refusal, else 5, and the state untouched.  At the first
 * difference it prints seed, case and both answers and ends with status 1; else
 * it prints what it covered, and ends with 3 if that is not all there is.
 */
#include <inttypes.h>
#include <signal.h>
#include <stdio.h>
#include <stdlib.h>
#include <string.h>

#include "chance.h"
#include "controller.h"
#include "coverage.h"
#include "formula.h"
#include "lanwezik.h"
#include "recordings.h"
#include "texts.h"

enum {
    MOST_TICKS = 6553399,
    MOST_PINS = 15,
    MOST_ALARM_NUMBER = 31,
    SIGNED_ZERO = 32768,
    BEYOND = 8 /* elements behind every array that must stay as they are */
};

static uint64_t seed;
static uint64_t case_number;
static uint64_t calls_made;

/* The program of this case, and the rest of its recording. */
static struct {
    uint8_t bytes[ORACLE_MOST_PROGRAM];
    size_t length;
    uint32_t figure; /* 0 if refused */
} program;

static struct {
    uint8_t bytes[ORACLE_MOST_RECORDING];
    size_t length;
    size_t next;
} recording;

/* ---- Reports ---- */

static void print_inputs(const lanwezik_inputs *given)
{
    unsigned i;

    printf("  elapsed %u, bits %08" PRIx32 ", analogs", given->elapsed, given->bits);
    for (i = 0; i < LANWEZIK_ANALOGS; i++)
        printf(" %d", given->analogs[i]);
    putchar('\n');
}

static void print_program(const uint8_t *bytes, size_t length)
{
    size_t i;

    printf("  program of %zu bytes:", length);
    for (i = 0; i < length; i++)
        printf(" %02X", bytes[i]);
    putchar('\n');
}

#define PRINT_DIFFERENCE(field, count) \
    for (i = 0; i < (count); i++) \
        if (library->field[i] != right->field[i]) \
            printf("  state: " #field " %u: library %lld, right %lld, before %lld\n", i, \
                   (long long)library->field[i], (long long)right->field[i], \
                   (long long)before->field[i])

/* Prints where two states differ, and what stood there before the call. */
static void print_states(const lanwezik_state *library, const lanwezik_state *right,
                         const lanwezik_state *before)
{
    unsigned i;

    PRINT_DIFFERENCE(counts, LANWEZIK_COUNTS);
    PRINT_DIFFERENCE(times, LANWEZIK_ENTRIES);
    PRINT_DIFFERENCE(numbers, LANWEZIK_ENTRIES);
    PRINT_DIFFERENCE(ticks, LANWEZIK_PLACES);
    PRINT_DIFFERENCE(words, LANWEZIK_PLACES);
    PRINT_DIFFERENCE(pins, LANWEZIK_PLACES);
    PRINT_DIFFERENCE(outputs, LANWEZIK_PLACES);
}

/* The head of every report. */
static void print_failure(call which)
{
    printf("DIFFERENT: seed %" PRIu64 ", case %" PRIu64 ", call %" PRIu64 ": %s\n",
           seed, case_number, calls_made, CALL_NAMES[which]);
}

/* A call broke down: says which, as far as a broken process can. */
static void print_breakdown(int number)
{
    printf("BROKEN DOWN by signal %d: seed %" PRIu64 ", case %" PRIu64 ", after call %" PRIu64 "\n",
           number, seed, case_number, calls_made);
    fflush(stdout);
    _Exit(1);
}

static void print_scanned(const char *whose, const lanwezik_scanned *answer)
{
    printf("  %s: refusal %" PRIu32 ", place %" PRIu64 ", alarms %08" PRIx32
           ", steps %" PRIu32 ", rises %" PRIu32 "\n", whose, answer->refusal,
           answer->place, answer->alarms, answer->steps, answer->rises);
}

static void print_taken(const char *whose, const lanwezik_taken *answer)
{
    printf("  %s: refusal %" PRIu32 ", found %" PRIu32 ", number %" PRIu32
           ", time %" PRIu64 "\n", whose, answer->refusal, answer->found,
           answer->number, answer->time);
}

static void print_acceptance(const char *whose, const lanwezik_acceptance *answer)
{
    printf("  %s: refusal %" PRIu32 ", place %" PRIu64 ", memory %" PRIu32
           ", steps %" PRIu32 "\n", whose, answer->refusal, answer->place,
           answer->memory, answer->steps);
}

static void print_expression(const char *whose, const lanwezik_expression *answer)
{
    uint32_t i;

    printf("  %s: refusal %" PRIu32 ", place %" PRIu64 ", count %" PRIu32 ", nodes", whose,
           answer->refusal, answer->place, answer->count);
    for (i = 0; i < LANWEZIK_NODE_PLACES; i++)
        printf(" %u", (unsigned)answer->nodes[i]);
    putchar('\n');
}

static void print_text(const uint8_t *text, size_t length)
{
    size_t i;

    printf("  text of %zu bytes: ", length);
    for (i = 0; i < length; i++)
        printf(text[i] >= 32 && text[i] <= 126 && text[i] != '\\' ? "%c" : "\\%02X", text[i]);
    putchar('\n');
}

/* ---- The right answers ---- */

/* Reads an image as a state of the oracle; false if none has this image. */
static bool to_oracle(const lanwezik_state *image, oracle_state *state)
{
    bool is_state = image->counts[LANWEZIK_ALARMS] <= UINT32_MAX;
    unsigned i;

    state->time = image->counts[LANWEZIK_TIME];
    state->alarms = (uint32_t)image->counts[LANWEZIK_ALARMS];
    state->journal.missed = image->counts[LANWEZIK_MISSED];
    state->journal.held = image->counts[LANWEZIK_HELD];
    for (i = 0; i < LANWEZIK_ENTRIES; i++) {
        state->journal.entries[i].time = image->times[i];
        state->journal.entries[i].number = image->numbers[i];
    }
    for (i = 0; i < LANWEZIK_PLACES; i++) {
        is_state = is_state && image->outputs[i] <= 1;
        state->places[i].ticks = image->ticks[i];
        state->places[i].word = image->words[i];
        state->places[i].pins = image->pins[i];
        state->places[i].output = image->outputs[i];
    }
    return is_state;
}

static void to_image(const oracle_state *state, lanwezik_state *image)
{
    unsigned i;

    image->counts[LANWEZIK_TIME] = state->time;
    image->counts[LANWEZIK_MISSED] = state->journal.missed;
    image->counts[LANWEZIK_HELD] = state->journal.held;
    image->counts[LANWEZIK_ALARMS] = state->alarms;
    for (i = 0; i < LANWEZIK_ENTRIES; i++) {
        image->times[i] = state->journal.entries[i].time;
        image->numbers[i] = state->journal.entries[i].number;
    }
    for (i = 0; i < LANWEZIK_PLACES; i++) {
        image->ticks[i] = state->places[i].ticks;
        image->words[i] = state->places[i].word;
        image->pins[i] = state->places[i].pins;
        image->outputs[i] = state->places[i].output;
    }
}

static lanwezik_acceptance right_accept(const uint8_t *bytes, size_t length)
{
    oracle_acceptance given = oracle_accept(bytes, length);
    lanwezik_acceptance right = {given.refusal, given.memory, given.steps, given.place};

    return right;
}

static lanwezik_expression right_formula(const uint8_t *text, size_t length)
{
    oracle_formula given = oracle_read_formula(text, length);
    lanwezik_expression right = {given.refusal, (uint32_t)given.count, given.place, {0}};

    memcpy(right.nodes, given.nodes, sizeof given.nodes);
    return right;
}

/* Leaves the state after the scan in `image`. */
static lanwezik_scanned right_scan(const uint8_t *bytes, size_t length,
                                   const lanwezik_inputs *given, lanwezik_state *image)
{
    oracle_state state;
    oracle_answer answer = {0, 0, 0, 0, 0};
    lanwezik_scanned right;

    if (to_oracle(image, &state)) {
        answer = oracle_scan(bytes, length, &state, given->elapsed, given->bits,
                             given->analogs);
        to_image(&state, image);
    } else {
        oracle_acceptance acceptance = oracle_accept(bytes, length);

        answer.refusal = acceptance.refusal ? acceptance.refusal : LANWEZIK_BAD_STATE;
        answer.place = acceptance.place;
    }
    right.refusal = answer.refusal;
    right.alarms = answer.alarms;
    right.steps = answer.steps;
    right.rises = answer.rises;
    right.place = answer.place;
    return right;
}

/* Leaves the state after the take in `image`. */
static lanwezik_taken right_take(lanwezik_state *image)
{
    lanwezik_taken right = {LANWEZIK_BAD_STATE, 0, 0, 0};
    oracle_state state;
    oracle_taken answer;

    if (!to_oracle(image, &state))
        return right;
    answer = oracle_take(&state);
    to_image(&state, image);
    right.refusal = answer.refusal;
    right.found = answer.found;
    right.number = answer.entry.number;
    right.time = answer.entry.time;
    return right;
}

/* ---- Arrays ---- */

/* A state as arrays, with elements behind each that no call may write. */
typedef struct {
    uint64_t counts[LANWEZIK_COUNTS + BEYOND];
    uint64_t times[LANWEZIK_ENTRIES + BEYOND];
    uint8_t numbers[LANWEZIK_ENTRIES + BEYOND];
    uint32_t ticks[LANWEZIK_PLACES + BEYOND];
    int16_t words[LANWEZIK_PLACES + BEYOND];
    uint8_t pins[LANWEZIK_PLACES + BEYOND];
    uint8_t outputs[LANWEZIK_PLACES + BEYOND];
} rooms;

static void put_image(rooms *to, uint8_t behind, const lanwezik_state *image)
{
    memset(to, behind, sizeof *to);
    memcpy(to->counts, image->counts, sizeof image->counts);
    memcpy(to->times, image->times, sizeof image->times);
    memcpy(to->numbers, image->numbers, sizeof image->numbers);
    memcpy(to->ticks, image->ticks, sizeof image->ticks);
    memcpy(to->words, image->words, sizeof image->words);
    memcpy(to->pins, image->pins, sizeof image->pins);
    memcpy(to->outputs, image->outputs, sizeof image->outputs);
}

static void get_image(const rooms *from, lanwezik_state *image)
{
    memcpy(image->counts, from->counts, sizeof image->counts);
    memcpy(image->times, from->times, sizeof image->times);
    memcpy(image->numbers, from->numbers, sizeof image->numbers);
    memcpy(image->ticks, from->ticks, sizeof image->ticks);
    memcpy(image->words, from->words, sizeof image->words);
    memcpy(image->pins, from->pins, sizeof image->pins);
    memcpy(image->outputs, from->outputs, sizeof image->outputs);
}

#define PASS(to) \
    (to).counts, (to).times, (to).numbers, (to).ticks, (to).words, (to).pins, (to).outputs

/* Says that a call wrote behind its arrays, and ends. */
static void check_behind(call which, const rooms *library, uint8_t behind)
{
    lanwezik_state image;
    rooms wanted;

    get_image(library, &image);
    put_image(&wanted, behind, &image);
    if (memcmp(&wanted, library, sizeof wanted) == 0)
        return;
    print_failure(which);
    puts("  the library wrote behind an array");
    exit(1);
}

/* ---- Calls of both ---- */

/* Whether the state is as it has to be: after a refusal, as it was before. */
static bool is_right(call which, uint32_t refusal, const lanwezik_state *before,
                     const lanwezik_state *image, const lanwezik_state *after)
{
    if (memcmp(image, after, sizeof *after) != 0)
        return false;
    if (refusal == LANWEZIK_GOOD)
        return true;
    cover_untouched(which);
    return memcmp(image, before, sizeof *before) == 0;
}

/* True for the refusals whose place is a number of the program. */
static bool is_of_a_number(uint32_t refusal)
{
    return refusal == LANWEZIK_MALFORMED || refusal == LANWEZIK_OUTSIDE
        || refusal == LANWEZIK_ABSENT || refusal == LANWEZIK_CUT;
}

/* Answers the right acceptance. */
static lanwezik_acceptance check_accept(const uint8_t *bytes, size_t length)
{
    lanwezik_acceptance library = lanwezik_accept(bytes, length);
    lanwezik_acceptance right = right_accept(bytes, length);

    calls_made++;
    if (library.refusal == right.refusal && library.place == right.place
        && library.memory == right.memory && library.steps == right.steps) {
        cover_call(ACCEPT, right.refusal, GOOD_STATE);
        if (is_of_a_number(right.refusal))
            cover_fault(ACCEPT, bytes, length, right.refusal, right.place);
        return right;
    }
    print_failure(ACCEPT);
    print_acceptance("library", &library);
    print_acceptance("right  ", &right);
    print_program(bytes, length);
    exit(1);
}

/* Answers the right expression. */
static lanwezik_expression check_formula(const uint8_t *text, size_t length)
{
    lanwezik_expression library = lanwezik_formula(text, length);
    lanwezik_expression right = right_formula(text, length);

    calls_made++;
    if (library.refusal == right.refusal && library.place == right.place
        && library.count == right.count
        && memcmp(library.nodes, right.nodes, sizeof right.nodes) == 0) {
        cover_call(FORMULA, right.refusal, GOOD_STATE);
        cover_formula(text, length, &right);
        return right;
    }
    print_failure(FORMULA);
    print_expression("library", &library);
    print_expression("right  ", &right);
    print_text(text, length);
    exit(1);
}

/* Makes any image fresh, through the arrays or through the state. */
static void check_fresh(lanwezik_state *image)
{
    uint8_t behind = (uint8_t)below(256);
    lanwezik_state before = *image, after;
    rooms arrays;

    calls_made++;
    memset(&after, 0, sizeof after);
    if (percent(50)) {
        lanwezik_fresh(image);
    } else {
        put_image(&arrays, behind, image);
        lanwezik_fresh_in(PASS(arrays));
        check_behind(FRESH, &arrays, behind);
        get_image(&arrays, image);
    }
    if (is_right(FRESH, LANWEZIK_GOOD, &before, image, &after)) {
        cover_call(FRESH, LANWEZIK_GOOD, GOOD_STATE);
        return;
    }
    print_failure(FRESH);
    print_states(image, &after, &before);
    exit(1);
}

/* Calls the library's scan, through the arrays or through the state. */
static lanwezik_scanned call_scan(const uint8_t *bytes, size_t length, lanwezik_state *image,
                                  const lanwezik_inputs *given)
{
    uint8_t behind = (uint8_t)below(256);
    lanwezik_scanned library;
    rooms arrays;

    if (percent(50))
        return lanwezik_scan(bytes, length, image, given);
    put_image(&arrays, behind, image);
    library = lanwezik_scan_in(bytes, length, PASS(arrays), *given);
    check_behind(SCAN, &arrays, behind);
    get_image(&arrays, image);
    return library;
}

static void check_scan(const uint8_t *bytes, size_t length, uint32_t figure,
                       lanwezik_state *image, const lanwezik_inputs *given, way how)
{
    lanwezik_state before = *image, after = *image;
    lanwezik_scanned library = call_scan(bytes, length, image, given);
    lanwezik_scanned right = right_scan(bytes, length, given, &after);

    calls_made++;
    if (library.refusal == right.refusal && library.place == right.place
        && library.alarms == right.alarms && library.steps == right.steps
        && library.rises == right.rises
        && is_right(SCAN, right.refusal, &before, image, &after)) {
        cover_call(SCAN, right.refusal, how);
        if (is_of_a_number(right.refusal))
            cover_fault(SCAN, bytes, length, right.refusal, right.place);
        if (right.refusal == LANWEZIK_GOOD)
            cover_scan(bytes, &before, given, &right, figure, &after);
        else
            cover_refused_scan(right.refusal, how, &before, given->elapsed);
        return;
    }
    print_failure(SCAN);
    print_scanned("library", &library);
    print_scanned("right  ", &right);
    print_states(image, &after, &before);
    print_inputs(given);
    print_program(bytes, length);
    exit(1);
}

/* Calls the library's take, through the arrays or through the state. */
static lanwezik_taken call_take(lanwezik_state *image)
{
    uint8_t behind = (uint8_t)below(256);
    lanwezik_taken library;
    rooms arrays;

    if (percent(50))
        return lanwezik_take(image);
    put_image(&arrays, behind, image);
    library = lanwezik_take_in(PASS(arrays));
    check_behind(TAKE, &arrays, behind);
    get_image(&arrays, image);
    return library;
}

static void check_take(lanwezik_state *image, way how)
{
    lanwezik_state before = *image, after = *image;
    lanwezik_taken library = call_take(image);
    lanwezik_taken right = right_take(&after);

    calls_made++;
    if (library.refusal == right.refusal && library.found == right.found
        && library.number == right.number && library.time == right.time
        && is_right(TAKE, right.refusal, &before, image, &after)) {
        cover_call(TAKE, right.refusal, how);
        if (right.refusal == LANWEZIK_GOOD)
            cover_take(&before, &right);
        return;
    }
    print_failure(TAKE);
    print_taken("library", &library);
    print_taken("right  ", &right);
    print_states(image, &after, &before);
    exit(1);
}

/* ---- Programs ---- */

/* Reads the next number of the recording; false if there is none. */
static bool read_number(uint32_t *value)
{
    unsigned shift = 0;

    *value = 0;
    while (recording.next < recording.length && shift <= 14) {
        uint8_t byte = recording.bytes[recording.next++];

        *value |= (byte & 0x7Fu) << shift;
        if (byte < 0x80)
            return true;
        shift += 7;
    }
    return false;
}

/* The program of a recording, whose scans then follow. */
static void use_recording(void)
{
    uint32_t length;

    recording.length = oracle_recording(chance(), recording.bytes, sizeof recording.bytes);
    recording.next = 0;
    if (!read_number(&length) || length > recording.length - recording.next
        || length > sizeof program.bytes)
        length = 0;
    memcpy(program.bytes, recording.bytes + recording.next, length);
    program.length = length;
    recording.next += length;
}

static void use_random_bytes(void)
{
    size_t i;

    program.length = below(percent(50) ? 6 : 60);
    for (i = 0; i < program.length; i++)
        program.bytes[i] = (uint8_t)(percent(70) ? below(40) : below(256));
}

static void use_program(void)
{
    recording.next = recording.length = 0;
    if (percent(55))
        use_recording();
    else if (percent(97))
        program.length = oracle_program(chance(), program.bytes, sizeof program.bytes);
    else
        use_random_bytes();
}

/* Changes a copy of the program in a few bytes, or its length, or cuts it and
 * begins another number there: cut too, or over three groups by its last byte. */
static size_t alter_program(uint8_t *bytes)
{
    uint32_t length = (uint32_t)program.length;
    uint32_t times = 1 + below(2);

    memcpy(bytes, program.bytes, length);
    if (length == 0 || percent(25))
        return below(length + 1);
    if (percent(20)) {
        bytes[length] = (uint8_t)below(256);
        return length + 1;
    }
    if (percent(20)) {
        length = below(length + 1);
        for (times = 1 + below(3); times > 0; times--)
            bytes[length++] = (uint8_t)(128 + below(128));
        return length;
    }
    while (times-- > 0) {
        uint32_t at = percent(30) ? below(length < 4 ? length : 4) : below(length);

        bytes[at] = (uint8_t)(percent(50) ? below(256)
                              : percent(50) ? bytes[at] ^ (1u << below(8))
                                            : bytes[at] + (percent(50) ? 1u : 255u));
    }
    return length;
}

/* ---- Inputs ---- */

static int16_t some_word(void)
{
    static const int16_t ends[] = {-32768, -32767, -1, 0, 1, 32766, 32767};

    return percent(50) ? ONE_OF(ends)
        : percent(70)  ? (int16_t)between(-9, 9)
                       : (int16_t)between(-32768, 32767);
}

static uint16_t some_elapsed(void)
{
    static const uint16_t usual[] = {0, 1, 2, 10, 20, 100, 1000, 65535};

    return percent(70) ? ONE_OF(usual) : (uint16_t)below(65536);
}

/* The next scan of the recording, or chance ones after it. */
static void next_inputs(lanwezik_inputs *given)
{
    uint32_t number[3 + LANWEZIK_ANALOGS];
    unsigned i, read = 0;

    while (read < 3 + LANWEZIK_ANALOGS && read_number(&number[read]))
        read++;
    if (read == 3 + LANWEZIK_ANALOGS) {
        given->elapsed = (uint16_t)number[0];
        given->bits = (number[1] & 0xFFFF) | number[2] << 16;
        for (i = 0; i < LANWEZIK_ANALOGS; i++)
            given->analogs[i] = (int16_t)((int32_t)(number[3 + i] & 0xFFFF) - SIGNED_ZERO);
        return;
    }
    given->elapsed = some_elapsed();
    given->bits ^= percent(10) ? UINT32_MAX
        : (uint32_t)(chance() & (percent(50) ? chance() : UINT64_MAX));
    for (i = 0; i < LANWEZIK_ANALOGS; i++)
        given->analogs[i] = some_word();
}

/* ---- States ---- */

static void put_garbage(lanwezik_state *image)
{
    uint8_t *byte = (uint8_t *)image;
    size_t i;

    for (i = 0; i < sizeof *image; i++)
        byte[i] = (uint8_t)below(256);
}

static uint32_t some_ticks(void)
{
    static const uint32_t ends[] = {0, 1, 65535, MOST_TICKS - 1, MOST_TICKS};

    return percent(30) ? ONE_OF(ends) : percent(70) ? below(3000) : below(MOST_TICKS + 1);
}

/* Any good state, reached or not. */
static void put_good(lanwezik_state *image)
{
    static const uint8_t ends[] = {0, 1, 31, 32};
    uint32_t held = percent(50) ? ONE_OF(ends) : below(LANWEZIK_ENTRIES + 1);
    unsigned i;

    memset(image, 0, sizeof *image);
    image->counts[LANWEZIK_TIME] = percent(50) ? below(100000) : chance() >> 1;
    image->counts[LANWEZIK_MISSED] = percent(50) ? below(100) : chance() >> 1;
    image->counts[LANWEZIK_HELD] = held;
    image->counts[LANWEZIK_ALARMS] = percent(30) ? 0 : percent(20) ? UINT32_MAX : chance() >> 32;
    for (i = 0; i < held; i++) {
        image->times[i] = percent(80) ? below(1000000) : percent(50) ? chance() : 0;
        image->numbers[i] = (uint8_t)below(MOST_ALARM_NUMBER + 1);
    }
    for (i = 0; i < LANWEZIK_PLACES; i++) {
        image->ticks[i] = some_ticks();
        image->words[i] = some_word();
        image->pins[i] = (uint8_t)below(MOST_PINS + 1);
        image->outputs[i] = (uint8_t)below(2);
    }
}

/* Moves the time or missed to where this scan just may, or may not, run. */
static void put_near_end(lanwezik_state *image, uint16_t elapsed)
{
    uint64_t *time = &image->counts[LANWEZIK_TIME];
    uint64_t *missed = &image->counts[LANWEZIK_MISSED];
    uint32_t which = below(4);

    if (which != 1)
        *time = UINT64_MAX - elapsed + (uint64_t)(int64_t)between(-1, 1);
    if (which == 1 || which == 2)
        *missed = UINT64_MAX - LANWEZIK_ENTRIES + (uint64_t)(int64_t)between(-1, 1);
    if (which == 3 && percent(30))
        *missed = UINT64_MAX;
}

/* Something over 2^32 whose low half may look good. */
static uint64_t some_large(uint32_t low)
{
    return percent(30) ? UINT64_MAX
        : percent(50)  ? (UINT64_C(1) << (32 + below(32))) + low
                       : (chance() | UINT64_C(1) << 32);
}

/* Makes the journal of a good state bad in the given way. */
static void put_bad_journal(lanwezik_state *image, way how)
{
    uint64_t *held = &image->counts[LANWEZIK_HELD];
    uint64_t beyond;

    if (how == BAD_HELD) {
        *held = percent(40) ? 33 + below(3) : some_large((uint32_t)*held);
        return;
    }
    if (how == BAD_NUMBER) {
        *held += *held == 0;
        image->numbers[below((uint32_t)*held)]
            = (uint8_t)(percent(50) ? 32 : 32 + below(224));
        return;
    }
    if (*held == LANWEZIK_ENTRIES) {
        *held -= 1;
        image->times[*held] = image->numbers[*held] = 0;
    }
    beyond = percent(40) ? *held : *held + below((uint32_t)(LANWEZIK_ENTRIES - *held));
    if (how == BAD_TIME_BEYOND)
        image->times[beyond] = percent(50) ? UINT64_C(1) << below(64) : chance() | 1;
    else
        image->numbers[beyond] = (uint8_t)(1 + below(255));
}

/* Makes a good state bad in the given way. */
static void put_bad(lanwezik_state *image, way how)
{
    uint64_t *alarms = &image->counts[LANWEZIK_ALARMS];
    uint32_t place = percent(20) ? (percent(50) ? 0 : 199) : below(LANWEZIK_PLACES);

    switch (how) {
    case BAD_TICKS:
        image->ticks[place] = percent(40) ? MOST_TICKS + 1
            : percent(30)                 ? UINT32_MAX
                                          : MOST_TICKS + 1 + below(UINT32_MAX - MOST_TICKS);
        break;
    case BAD_PINS:
        image->pins[place] = (uint8_t)(percent(40) ? 16 : 16 + below(240));
        break;
    case BAD_OUTPUT:
        image->outputs[place] = (uint8_t)(percent(40) ? 2 : 2 + below(254));
        break;
    case BAD_ALARMS:
        *alarms = some_large((uint32_t)*alarms);
        break;
    case BAD_HELD:
    case BAD_NUMBER:
    case BAD_TIME_BEYOND:
    case BAD_NUMBER_BEYOND:
        put_bad_journal(image, how);
        break;
    default:
        break;
    }
}

/* ---- Cases ---- */

/* A bad state, on a copy of the state. */
static void run_bad(const lanwezik_state *image, const lanwezik_inputs *given)
{
    way how = (way)(1 + below(WAYS - 1));
    lanwezik_state copy = *image;

    if (percent(30))
        put_good(&copy);
    put_bad(&copy, how);
    if (percent(5))
        put_near_end(&copy, given->elapsed);
    if (percent(5))
        check_fresh(&copy);
    else if (percent(60))
        check_scan(program.bytes, program.length, program.figure, &copy, given, how);
    else
        check_take(&copy, how);
}

/* Another program on a copy of the state. */
static void run_altered(const lanwezik_state *image, const lanwezik_inputs *given)
{
    static uint8_t bytes[ORACLE_MOST_PROGRAM + 3];
    size_t length = alter_program(bytes);
    lanwezik_state copy = *image;
    lanwezik_acceptance acceptance = check_accept(bytes, length);
    way how = percent(20) ? (way)(1 + below(WAYS - 1)) : GOOD_STATE;

    put_bad(&copy, how);
    check_scan(bytes, length, acceptance.steps, &copy, given, how);
}

/* Times and missed near their ends, on a copy of the state. */
static void run_near_end(const lanwezik_state *image, const lanwezik_inputs *given)
{
    lanwezik_state copy = *image;

    put_near_end(&copy, given->elapsed);
    check_scan(program.bytes, program.length, program.figure, &copy, given, GOOD_STATE);
    if (percent(30))
        check_take(&copy, GOOD_STATE);
}

/* A program of one BL, whose expression a formula gave. */
static void accept_nodes(const lanwezik_expression *expression)
{
    uint8_t bytes[4 + 2 * LANWEZIK_NODES] = {1, 0};
    size_t length = 2;
    uint32_t i;

    for (i = 0; i < expression->count; i++) {
        uint8_t node = expression->nodes[i];

        bytes[length++] = node; /* from 128 on it has the high bit, and one group follows */
        if (node >= 0x80)
            bytes[length++] = 1;
    }
    bytes[length++] = 0;
    check_accept(bytes, length);
}

/* Bytes that formulas are made of, in any order. */
static size_t put_signs(uint8_t *text)
{
    static const uint8_t signs[] = " !&|^()0123IB";
    size_t length = below(24), i;

    for (i = 0; i < length; i++)
        text[i] = signs[below(sizeof signs - 1)];
    return length;
}

/* Formulas, good or damaged, or any bytes; what a good one gives is a program's. */
static void run_formulas(void)
{
    static uint8_t text[ORACLE_MOST_TEXT];
    uint32_t texts = 1 + below(10);

    while (texts-- > 0) {
        size_t length = percent(80) ? oracle_text(chance(), text, sizeof text) : put_signs(text);
        lanwezik_expression expression = check_formula(text, length);

        if (expression.refusal == LANWEZIK_GOOD && percent(20))
            accept_nodes(&expression);
    }
}

/* One program: its acceptance, then scans and takes from some state. */
static void run_case(void)
{
    lanwezik_state image;
    lanwezik_inputs given = {0, 0, {0}};
    uint32_t turns, style;

    run_formulas();
    use_program();
    program.figure = check_accept(program.bytes, program.length).steps;
    put_garbage(&image);
    check_fresh(&image);
    if (percent(45))
        put_good(&image);
    turns = program.figure > 0 ? 8 + below(60) : 2 + below(4);
    while (turns-- > 0) {
        next_inputs(&given);
        style = below(100);
        if (style < 65)
            check_scan(program.bytes, program.length, program.figure, &image, &given,
                       GOOD_STATE);
        else if (style < 78)
            check_take(&image, GOOD_STATE);
        else if (style < 82)
            run_near_end(&image, &given);
        else if (style < 92)
            run_bad(&image, &given);
        else
            run_altered(&image, &given);
    }
}

static bool read_argument(const char *text, uint64_t *value)
{
    char *end;

    *value = strtoull(text, &end, 10);
    return end != text && *end == '\0';
}

/* As many calls from this seed as asked for; the last case is run to its end. */
static void run_seed(uint64_t calls)
{
    chance_state = seed;
    case_number = calls_made = 0;
    while (calls_made < calls) {
        case_number++;
        run_case();
    }
    printf("seed %" PRIu64 ": %" PRIu64 " calls in %" PRIu64 " cases compared, none differ\n",
           seed, calls_made, case_number);
    fflush(stdout);
}

int main(int argc, char **argv)
{
    uint64_t calls;
    int i;

    for (i = 1; i < argc; i++)
        if (!read_argument(argv[i], &seed))
            argc = 0;
    if (argc < 3) {
        fputs("usage: differential CALLS SEED...\n", stderr);
        return 2;
    }
    signal(SIGSEGV, print_breakdown);
    signal(SIGFPE, print_breakdown);
    signal(SIGILL, print_breakdown);
    (void)read_argument(argv[1], &calls);
    for (i = 2; i < argc; i++) {
        (void)read_argument(argv[i], &seed);
        run_seed(calls);
    }
    return print_coverage() ? 0 : 3;
}
