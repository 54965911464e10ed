/* The library's calls on Arm, over the module that the kit made for x86-64.
 *
 * There a struct is answered through a pointer that is passed first, and the
 * inputs lie on the stack.  Arm's C has neither.  So bench/native renames these
 * calls in the module, takes `byval` from the inputs, which makes them a
 * pointer, and here they are called as they then are.  lanwezik_fresh_in has no
 * struct, and is the same on both.
 */
#include "lanwezik.h"

#define LOG uint64_t *counts, uint64_t *times, uint8_t *numbers

void *module_accept(lanwezik_acceptance *answer, const uint8_t *program, size_t length);
void *module_formula(lanwezik_expression *answer, const uint8_t *text, size_t length);
void *module_scan_in(lanwezik_scanned *answer, const uint8_t *program, size_t length, LOG,
                     uint32_t *ticks, int16_t *words, uint8_t *pins, uint8_t *outputs,
                     const lanwezik_inputs *inputs);
void *module_take_in(lanwezik_taken *answer, LOG, const uint32_t *ticks, const int16_t *words,
                     const uint8_t *pins, const uint8_t *outputs);

lanwezik_acceptance lanwezik_accept(const uint8_t *program, size_t length)
{
    lanwezik_acceptance answer;

    (void)module_accept(&answer, program, length);
    return answer;
}

lanwezik_expression lanwezik_formula(const uint8_t *text, size_t length)
{
    lanwezik_expression answer;

    (void)module_formula(&answer, text, length);
    return answer;
}

lanwezik_scanned lanwezik_scan_in(const uint8_t *program, size_t length, LOG, uint32_t *ticks,
                                  int16_t *words, uint8_t *pins, uint8_t *outputs,
                                  lanwezik_inputs inputs)
{
    lanwezik_scanned answer;

    (void)module_scan_in(&answer, program, length, counts, times, numbers, ticks, words, pins,
                         outputs, &inputs);
    return answer;
}

lanwezik_taken lanwezik_take_in(LOG, const uint32_t *ticks, const int16_t *words,
                                const uint8_t *pins, const uint8_t *outputs)
{
    lanwezik_taken answer;

    (void)module_take_in(&answer, counts, times, numbers, ticks, words, pins, outputs);
    return answer;
}
