/* Stand-in for the archive: its interface over the oracle's controller and its
 * reader of formulas.  It is compiled with these under other names (see run), so
 * that a wrong one can be put in their place and the oracle stays as it is.
 */
#include <string.h>

#include "controller.h"
#include "formula.h"
#include "lanwezik.h"

/* The arrays of a state, as every call is given them. */
typedef struct {
    uint64_t *counts;
    uint64_t *times;
    uint8_t *numbers;
    uint32_t *ticks;
    int16_t *words;
    uint8_t *pins;
    uint8_t *outputs;
} arrays;

/* Reads the state; false if no state has this image. */
static bool load(const arrays *from, oracle_state *state)
{
    unsigned i;

    if (from->counts[LANWEZIK_ALARMS] > UINT32_MAX)
        return false;
    state->time = from->counts[LANWEZIK_TIME];
    state->journal.missed = from->counts[LANWEZIK_MISSED];
    state->journal.held = from->counts[LANWEZIK_HELD];
    state->alarms = (uint32_t)from->counts[LANWEZIK_ALARMS];
    for (i = 0; i < LANWEZIK_ENTRIES; i++) {
        state->journal.entries[i].time = from->times[i];
        state->journal.entries[i].number = from->numbers[i];
    }
    for (i = 0; i < LANWEZIK_PLACES; i++) {
        if (from->outputs[i] > 1)
            return false;
        state->places[i].ticks = from->ticks[i];
        state->places[i].word = from->words[i];
        state->places[i].pins = from->pins[i];
        state->places[i].output = from->outputs[i];
    }
    return true;
}

static void store(const arrays *to, const oracle_state *state)
{
    unsigned i;

    to->counts[LANWEZIK_TIME] = state->time;
    to->counts[LANWEZIK_MISSED] = state->journal.missed;
    to->counts[LANWEZIK_HELD] = state->journal.held;
    to->counts[LANWEZIK_ALARMS] = state->alarms;
    for (i = 0; i < LANWEZIK_ENTRIES; i++) {
        to->times[i] = state->journal.entries[i].time;
        to->numbers[i] = state->journal.entries[i].number;
    }
    for (i = 0; i < LANWEZIK_PLACES; i++) {
        to->ticks[i] = state->places[i].ticks;
        to->words[i] = state->places[i].word;
        to->pins[i] = state->places[i].pins;
        to->outputs[i] = state->places[i].output;
    }
}

lanwezik_acceptance lanwezik_accept(const uint8_t *program, size_t length)
{
    oracle_acceptance given = oracle_accept(program, length);
    lanwezik_acceptance answer = {given.refusal, given.memory, given.steps, given.place};

    return answer;
}

void lanwezik_fresh_in(uint64_t *counts, uint64_t *times, uint8_t *numbers, uint32_t *ticks,
                       int16_t *words, uint8_t *pins, uint8_t *outputs)
{
    arrays image = {counts, times, numbers, ticks, words, pins, outputs};
    oracle_state state;

    oracle_fresh(&state);
    store(&image, &state);
}

lanwezik_scanned lanwezik_scan_in(const uint8_t *program, size_t length, uint64_t *counts,
                                  uint64_t *times, uint8_t *numbers, uint32_t *ticks,
                                  int16_t *words, uint8_t *pins, uint8_t *outputs,
                                  lanwezik_inputs inputs)
{
    arrays image = {counts, times, numbers, ticks, words, pins, outputs};
    lanwezik_scanned answer = {0, 0, 0, 0, 0};
    oracle_acceptance acceptance = oracle_accept(program, length);
    oracle_state state;
    oracle_answer given;

    answer.refusal = acceptance.refusal;
    answer.place = acceptance.place;
    if (answer.refusal != LANWEZIK_GOOD)
        return answer;
    answer.refusal = LANWEZIK_BAD_STATE;
    if (!load(&image, &state))
        return answer;
    given = oracle_scan(program, length, &state, inputs.elapsed, inputs.bits, inputs.analogs);
    answer.refusal = given.refusal;
    answer.alarms = given.alarms;
    answer.steps = given.steps;
    answer.rises = given.rises;
    answer.place = given.place;
    store(&image, &state);
    return answer;
}

lanwezik_taken lanwezik_take_in(uint64_t *counts, uint64_t *times, uint8_t *numbers,
                                const uint32_t *ticks, const int16_t *words,
                                const uint8_t *pins, const uint8_t *outputs)
{
    arrays image = {counts, times, numbers, (uint32_t *)ticks, (int16_t *)words,
                    (uint8_t *)pins, (uint8_t *)outputs};
    lanwezik_taken answer = {LANWEZIK_BAD_STATE, 0, 0, 0};
    oracle_state state;
    oracle_taken given;

    if (!load(&image, &state))
        return answer;
    given = oracle_take(&state);
    answer.refusal = given.refusal;
    answer.found = given.found;
    answer.number = given.entry.number;
    answer.time = given.entry.time;
    store(&image, &state);
    return answer;
}

lanwezik_expression lanwezik_formula(const uint8_t *text, size_t length)
{
    oracle_formula given = oracle_read_formula(text, length);
    lanwezik_expression answer = {given.refusal, (uint32_t)given.count, given.place, {0}};

    memcpy(answer.nodes, given.nodes, sizeof given.nodes);
    return answer;
}
