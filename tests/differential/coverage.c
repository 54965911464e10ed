/* Counts, and the reading of an accepted program block by block.  Nothing here
 * decides whether an answer is right. */
#include "coverage.h"

#include <inttypes.h>
#include <stdio.h>

#include "faults.h"

enum { BL, SR, PL, AL, DL, OS, FL, CN, UD, CP, OG, ZC, ST, KINDS };

/* Operators of an expression; LEAF + r is the bit reference r. */
enum { NOT, AND, OR, XOR, NAND, NOR, LEAF, OPERATORS = LEAF };

enum {
    BIT_INPUT = 2,
    BIT_OUTPUT = 34,
    WORD_BLOCK = 8,
    WORD_CONSTANT = 1000,
    WORD_ZERO = 33768,
    SIGNED_ZERO = 32768,
    RELATIONS = 6
};

const char *const CALL_NAMES[CALLS] = {"accept", "formula", "fresh", "scan", "take"};

static const char *const KIND_NAMES[KINDS] = {
    "BL", "SR", "PL", "AL", "DL", "OS", "FL", "CN", "UD", "CP", "OG", "ZC", "ST"
};

static const char *const OPERATOR_NAMES[OPERATORS] = {"NOT", "AND", "OR", "XOR", "NAND", "NOR"};

static const char *const RELATION_NAMES[RELATIONS] = {"=", ">", ">=", "<", "<=", "<>"};

static const char *const WAY_NAMES[WAYS] = {
    "good state",
    "ticks over", "pins over", "held over", "alarm number over",
    "time beyond held", "alarm number beyond held",
    "output over 1", "alarm word over 32 bits"
};

#define EVENTS(X) \
    X(FORMULA_FULL, "a formula of 63 nodes") \
    X(FORMULA_DEEP, "a formula 16 deep") \
    X(FORMULA_OPEN, "a formula with 16 parentheses open") \
    X(FORMULA_LEFT, "a formula that groups to the left") \
    X(FORMULA_WIDE, "a byte of a name or sign beside a space") \
    X(FORMULA_MANY, "a formula of more than 63 nodes") \
    X(FORMULA_TALL, "a formula of 63 nodes at most, but too deep") \
    X(FORMULA_SHORT, "a formula that stops too soon") \
    X(FORMULA_OPENS_17, "a formula with a 17th parenthesis") \
    X(FORMULA_IN_NAME, "a formula bad in a name") \
    X(FORMULA_BEHIND_BANG, "a formula bad behind a !") \
    X(FORMULA_BOTH, "a formula bad behind more than 63 nodes") \
    X(FORMULA_ELSE, "a formula bad elsewhere") \
    X(PIN_RISES, "a pin rises") \
    X(PIN_FALLS, "a pin falls") \
    X(BIT_LOWER, "a lower block's output is read, changed in this scan") \
    X(BIT_OWN, "a block's own output is read, and changes") \
    X(BIT_HIGHER, "a higher block's output is read, and changes after") \
    X(WORD_LOWER, "a lower block's word is read, changed in this scan") \
    X(WORD_OWN, "a block's own word is read, and changes") \
    X(WORD_HIGHER, "a higher block's word is read, and changes after") \
    X(WORD_ANALOG, "an analog word is read") \
    X(WORD_GIVEN, "a constant word is read") \
    X(BL_SKIPS, "BL leaves nodes unvisited") \
    X(BL_FULL, "every node of all BL visited") \
    X(SR_SETS, "SR sets") \
    X(SR_RESETS, "SR resets") \
    X(SR_HOLDS_ON, "SR holds on") \
    X(SR_BOTH_OFF, "SR both, off") \
    X(SR_BOTH_ON, "SR both, on") \
    X(PL_RISE, "PL on by a rise") \
    X(PL_FALL, "PL on by a fall") \
    X(AL_INVERTS, "AL inverts") \
    X(AL_CLEARED, "AL cleared while on") \
    X(AL_CLEARED_RISE, "AL cleared at a rise") \
    X(DL_CLEARED, "DL cleared while on") \
    X(DL_GROWS, "DL under way") \
    X(DL_BROKEN_OFF, "DL under way, then I as the output again") \
    X(DL_ON, "DL on time reached") \
    X(DL_OFF, "DL off time reached") \
    X(DL_I_CHANGES, "DL I changes, nothing grows") \
    X(DL_C_FALLS, "DL C falls, nothing grows") \
    X(DL_BOTH_CHANGE, "DL I changes and C falls, nothing grows") \
    X(DL_NOT_EARLY, "DL a pin changes, elapsed alone would reach the time") \
    X(DL_DROPS, "DL a pin changes, ticks that were there become 0") \
    X(DL_I_AT_ONCE, "DL I changes, time 0 reached") \
    X(DL_C_AT_ONCE, "DL C falls, time 0 reached") \
    X(DL_BEYOND, "DL no pin changes, though bits 2 or 3 were on") \
    X(OS_CLEARED, "OS cleared while on") \
    X(OS_STARTS, "OS starts") \
    X(OS_RUNS, "OS under way") \
    X(OS_LOST, "OS rise while on is lost") \
    X(OS_OUT, "OS runs out") \
    X(FL_OFF, "FL off after on") \
    X(FL_RISE, "FL starts") \
    X(FL_RUNS, "FL within its period") \
    X(FL_WRAPS, "FL wraps its period once") \
    X(FL_WRAPS_MORE, "FL wraps its period more than once") \
    X(CN_CLEARED, "CN cleared") \
    X(CN_CLEARED_RISE, "CN cleared at a rise") \
    X(CN_RELEASED, "CN released from clear, pin held") \
    X(CN_COUNTS, "CN counts") \
    X(CN_STOPS, "CN stops at 32767") \
    X(UD_CLEARED, "UD cleared") \
    X(UD_CLEARED_PRESET, "UD cleared and preset") \
    X(UD_PRESET, "UD preset") \
    X(UD_UP, "UD up") \
    X(UD_DOWN, "UD down") \
    X(UD_BOTH, "UD both rise") \
    X(UD_BOTH_TOP, "UD both rise at 32767") \
    X(UD_BOTH_BOTTOM, "UD both rise at -32768") \
    X(UD_TOP, "UD stops at 32767") \
    X(UD_BOTTOM, "UD stops at -32768") \
    X(CP_OFF, "CP I off") \
    X(OG_OFF, "OG I off, word kept") \
    X(OG_EXACT, "OG in range") \
    X(OG_CUT, "OG cuts a negative quotient") \
    X(OG_TOP, "OG held to 32767") \
    X(OG_BOTTOM, "OG held to -32768") \
    X(ZC_INSIDE, "ZC mode 0 on") \
    X(ZC_NOT_INSIDE, "ZC mode 0 off, I on") \
    X(ZC_OUTSIDE, "ZC mode 1 on") \
    X(ZC_NOT_OUTSIDE, "ZC mode 1 off, I on") \
    X(ST_KEEPS, "ST I off, on held") \
    X(ST_ON, "ST turns on") \
    X(ST_OFF, "ST turns off") \
    X(ST_HOLDS, "ST I on, on held") \
    X(ALARM_FALLS, "an alarm falls") \
    X(ONE_RISE, "one alarm rises") \
    X(MANY_RISES, "several alarms rise in one scan") \
    X(JOURNAL_FILLS, "journal becomes full") \
    X(MISSED_GROWS, "missed grows") \
    X(PART_MISSED, "some rises stored, the rest missed") \
    X(TIME_AT_END, "time becomes 2^64 - 1") \
    X(MISSED_AT_END, "scan with missed at 2^64 - 33") \
    X(PROGRAM_BEFORE_STATE, "refused 1 to 4, the state bad too") \
    X(CUT_BEFORE_STATE, "refused 8, the state bad too") \
    X(PROGRAM_BEFORE_OVERRUN, "refused 1 to 4, an overrun too") \
    X(CUT_BEFORE_OVERRUN, "refused 8, an overrun too") \
    X(STATE_BEFORE_OVERRUN, "refused 5, an overrun too") \
    X(OVERRUN_TIME, "refused 6 by the time") \
    X(OVERRUN_MISSED, "refused 6 by missed") \
    X(TAKE_FOUND, "take finds an entry") \
    X(TAKE_FULL, "take from a full journal") \
    X(TAKE_LAST, "take of the only entry") \
    X(TAKE_EMPTY, "take from an empty journal")

#define EVENT_NAME(event, text) event,
#define EVENT_TEXT(event, text) text,

typedef enum { EVENTS(EVENT_NAME) EVENT_COUNT } event;

static const char *const EVENT_TEXTS[EVENT_COUNT] = {EVENTS(EVENT_TEXT)};

enum { REFUSALS = 9 };

static uint64_t calls[CALLS][REFUSALS];
static uint64_t ways[CALLS][WAYS];
static uint64_t untouched[CALLS];
static uint64_t faults[CALLS][FAULT_COUNT];
static uint64_t kinds[KINDS];
static uint64_t formula_operators[OPERATORS];
static uint64_t operators[OPERATORS][2];
static uint64_t relations[RELATIONS][2];
static uint64_t events[EVENT_COUNT];

static void note(event what, bool holds)
{
    events[what] += holds;
}

/* ---- Formulas ---- */

enum { MOST_OPEN = 16, MOST_DEPTH = 16 };

/* The most parentheses that are open at once. */
static uint32_t most_open(const uint8_t *text, size_t length)
{
    uint32_t open = 0, most = 0;
    size_t i;

    for (i = 0; i < length; i++) {
        open += (uint32_t)(text[i] == '(') - (uint32_t)(text[i] == ')');
        most = open > most ? open : most;
    }
    return most;
}

/* The nodes of a good text: its names and its signs. */
static size_t nodes_in(const uint8_t *text, size_t length)
{
    size_t nodes = 0;
    bool named = false, banged = false; /* the byte before was of a name; a `!` */
    size_t i;

    for (i = 0; i < length; i++) {
        bool name = (text[i] >= '0' && text[i] <= '9') || text[i] == 'I' || text[i] == 'B';
        bool sign = text[i] == '!' || text[i] == '^' || ((text[i] == '&' || text[i] == '|') && !banged);

        nodes += sign || (name && !named);
        named = name;
        banged = text[i] == '!';
    }
    return nodes;
}

/* The depth of the deepest node. */
static uint32_t depth_of(const lanwezik_expression *e)
{
    uint32_t left[LANWEZIK_NODES + 2] = {1}, parts = 1, deepest = 0, i;

    for (i = 0; i < e->count; i++) {
        uint32_t depth = left[--parts];

        deepest = depth > deepest ? depth : deepest;
        if (e->nodes[i] < LEAF)
            left[parts++] = depth + 1;
        if (e->nodes[i] != NOT && e->nodes[i] < LEAF)
            left[parts++] = depth + 1;
    }
    return deepest;
}

static void cover_good_formula(const uint8_t *text, size_t length, const lanwezik_expression *e)
{
    uint32_t i;

    for (i = 0; i < e->count; i++) {
        if (e->nodes[i] >= LEAF)
            continue;
        formula_operators[e->nodes[i]]++;
        note(FORMULA_LEFT, e->nodes[i] != NOT && e->nodes[i + 1] == e->nodes[i]);
    }
    note(FORMULA_FULL, e->count == LANWEZIK_NODES);
    note(FORMULA_DEEP, depth_of(e) == MOST_DEPTH);
    note(FORMULA_OPEN, most_open(text, length) == MOST_OPEN);
    for (i = 0; i + 1 < length; i++)
        note(FORMULA_WIDE, (text[i] == ' ') != (text[i + 1] == ' '));
}

/* Whether the bytes before a place are the beginning of a name. */
static bool in_name(const uint8_t *text, uint64_t place)
{
    uint64_t i = place;

    while (i > 0 && place - i < 3 && text[i - 1] >= '0' && text[i - 1] <= '9')
        i--;
    return i > 0 && ((text[i - 1] == 'I' && place - i < 2) || (text[i - 1] == 'B' && place - i < 3));
}

static void cover_bad_formula(const uint8_t *text, size_t length, uint64_t place)
{
    note(FORMULA_BOTH, nodes_in(text, place) > LANWEZIK_NODES);
    if (place == length)
        note(FORMULA_SHORT, true);
    else if (text[place] == '(' && most_open(text, place + 1) > MOST_OPEN)
        note(FORMULA_OPENS_17, true);
    else if (in_name(text, place))
        note(FORMULA_IN_NAME, true);
    else if (place > 0 && text[place - 1] == '!')
        note(FORMULA_BEHIND_BANG, true);
    else
        note(FORMULA_ELSE, true);
}

void cover_formula(const uint8_t *text, size_t length, const lanwezik_expression *answer)
{
    bool many = nodes_in(text, length) > LANWEZIK_NODES;

    switch (answer->refusal) {
    case LANWEZIK_GOOD:
        cover_good_formula(text, length, answer);
        break;
    case LANWEZIK_OUTSIDE:
        note(FORMULA_MANY, many);
        note(FORMULA_TALL, !many);
        break;
    default:
        cover_bad_formula(text, length, answer->place);
        break;
    }
}

/* ---- The blocks of an accepted program ---- */

/* One block of a scan: its settings and its place before and after. */
typedef struct {
    const uint8_t *next;
    const lanwezik_state *before;
    const lanwezik_state *after;
    const lanwezik_inputs *given;
    uint32_t block;
    unsigned last, now, rises; /* pins */
    bool was, is;              /* output */
    int32_t word_was, word_is;
} view;

static uint32_t next_number(view *v)
{
    uint32_t value = *v->next & 0x7F;
    unsigned shift = 0;

    while (*v->next++ & 0x80) {
        shift += 7;
        value |= (*v->next & 0x7Fu) << shift;
    }
    return value;
}

/* The bit that a reference names, as this block reads it. */
static bool see_bit(const view *v, uint32_t reference)
{
    bool changes;

    if (reference < BIT_INPUT)
        return reference;
    if (reference < BIT_OUTPUT)
        return v->given->bits >> (reference - BIT_INPUT) & 1;
    reference -= BIT_OUTPUT;
    changes = v->before->outputs[reference] != v->after->outputs[reference];
    note(BIT_LOWER, changes && reference < v->block);
    note(BIT_OWN, changes && reference == v->block);
    note(BIT_HIGHER, changes && reference > v->block);
    return reference < v->block ? v->after->outputs[reference] : v->before->outputs[reference];
}

/* The word that the next reference names, as this block reads it. */
static int32_t next_word(view *v)
{
    uint32_t reference = next_number(v);
    bool changes;

    note(WORD_ANALOG, reference < WORD_BLOCK);
    note(WORD_GIVEN, reference >= WORD_CONSTANT);
    if (reference >= WORD_CONSTANT)
        return (int32_t)reference - WORD_ZERO;
    if (reference < WORD_BLOCK)
        return v->given->analogs[reference];
    reference -= WORD_BLOCK;
    changes = v->before->words[reference] != v->after->words[reference];
    note(WORD_LOWER, changes && reference < v->block);
    note(WORD_OWN, changes && reference == v->block);
    note(WORD_HIGHER, changes && reference > v->block);
    return reference < v->block ? v->after->words[reference] : v->before->words[reference];
}

static uint32_t next_unit(view *v)
{
    static const uint32_t ticks[] = {1, 10, 100};

    return ticks[next_number(v)];
}

/* Passes over one part of an expression. */
static void skip_part(view *v)
{
    unsigned parts = 1;

    while (parts > 0) {
        uint32_t node = next_number(v);

        if (node >= LEAF)
            parts--;
        else if (node != NOT)
            parts++;
    }
}

/* The value of the next part of an expression; notes what the first part of
 * each operator visited was, on which it depends whether the second is. */
static bool see_part(view *v)
{
    uint32_t node = next_number(v);
    bool first;

    if (node >= LEAF)
        return see_bit(v, node - LEAF);
    first = see_part(v);
    operators[node][first]++;
    if (node == NOT)
        return !first;
    if (node == XOR)
        return see_part(v) != first;
    if (first == (node == OR || node == NOR))
        skip_part(v);
    else
        first = see_part(v);
    return first != (node == NAND || node == NOR);
}

static void see_sr(view *v)
{
    bool priority = next_number(v);

    note(SR_SETS, v->now == 1 && !v->was);
    note(SR_RESETS, v->now == 2 && v->was);
    note(SR_HOLDS_ON, v->now == 0 && v->was);
    note(SR_BOTH_OFF, v->now == 3 && !priority && v->was);
    note(SR_BOTH_ON, v->now == 3 && priority && !v->was);
}

static void see_pl(view *v)
{
    bool falls = next_number(v);

    note(falls ? PL_FALL : PL_RISE, v->is);
}

static void see_al(const view *v)
{
    bool clear = v->now & 2;

    note(AL_CLEARED, clear && v->was);
    note(AL_CLEARED_RISE, clear && (v->rises & 1));
    note(AL_INVERTS, !clear && v->was != v->is);
}

static void see_dl(view *v)
{
    bool clear = v->now & 2, input = v->now & 1;
    unsigned changed = (v->last ^ v->now) & 3;
    uint32_t ticks = v->before->ticks[v->block], elapsed = v->given->elapsed;
    uint32_t unit = next_unit(v);
    uint32_t on = next_number(v) * unit;
    uint32_t off = next_number(v) * unit;
    uint32_t time = input ? on : off;
    bool due = !clear && input != v->was; /* the output is to follow I */
    bool timed = due && time > 0;

    note(DL_CLEARED, clear && v->was);
    note(DL_GROWS, !clear && v->after->ticks[v->block] > ticks);
    note(DL_BROKEN_OFF, !clear && input == v->was && ticks > 0);
    note(DL_ON, !clear && !v->was && v->is);
    note(DL_OFF, !clear && v->was && !v->is);
    note(DL_I_CHANGES, timed && changed == 1 && elapsed > 0);
    note(DL_C_FALLS, timed && changed == 2 && elapsed > 0);
    note(DL_BOTH_CHANGE, timed && changed == 3 && elapsed > 0);
    note(DL_NOT_EARLY, timed && changed && elapsed >= time);
    note(DL_DROPS, timed && changed && ticks > 0);
    note(DL_I_AT_ONCE, due && !timed && (changed & 1));
    note(DL_C_AT_ONCE, due && !timed && (changed & 2));
    note(DL_BEYOND, timed && !changed && v->last > 3 && ticks + elapsed > 0);
}

static void see_os(view *v)
{
    bool clear = v->now & 2;

    next_number(v);
    next_number(v);
    note(OS_CLEARED, clear && v->was);
    note(OS_STARTS, !v->was && v->is);
    note(OS_RUNS, v->was && v->is);
    note(OS_LOST, !clear && v->was && (v->rises & 1));
    note(OS_OUT, !clear && v->was && !v->is);
}

static void see_fl(view *v)
{
    uint32_t unit = next_unit(v);
    uint32_t on = next_number(v) * unit;
    uint32_t period = on + next_number(v) * unit;
    uint32_t ticks = v->before->ticks[v->block] + v->given->elapsed;
    bool runs = v->now && !v->rises;

    note(FL_OFF, !v->now && v->was);
    note(FL_RISE, v->rises);
    note(FL_RUNS, runs && ticks < period);
    note(FL_WRAPS, runs && ticks >= period && ticks - period < period);
    note(FL_WRAPS_MORE, runs && ticks >= period && ticks - period >= period);
}

static void see_cn(view *v)
{
    bool clear = v->now & 2;

    next_number(v);
    note(CN_CLEARED, clear && v->word_was != 0);
    note(CN_CLEARED_RISE, clear && (v->rises & 1));
    note(CN_RELEASED, !clear && (v->last & 2) && (v->last & v->now & 1));
    note(CN_COUNTS, !clear && v->word_is == v->word_was + 1);
    note(CN_STOPS, !clear && (v->rises & 1) && v->word_was == INT16_MAX);
}

static void see_ud(view *v)
{
    bool clear = v->now & 8, preset = v->now & 4;
    bool steps = !clear && !preset;
    unsigned rises = v->rises & 3;

    next_number(v);
    note(UD_CLEARED, clear && v->word_was != 0);
    note(UD_CLEARED_PRESET, clear && preset);
    note(UD_PRESET, !clear && preset);
    note(UD_UP, steps && v->word_is == v->word_was + 1);
    note(UD_DOWN, steps && v->word_is == v->word_was - 1);
    note(UD_BOTH, steps && rises == 3);
    note(UD_BOTH_TOP, steps && rises == 3 && v->word_was == INT16_MAX);
    note(UD_BOTH_BOTTOM, steps && rises == 3 && v->word_was == INT16_MIN);
    note(UD_TOP, steps && rises == 1 && v->word_was == INT16_MAX);
    note(UD_BOTTOM, steps && rises == 2 && v->word_was == INT16_MIN);
}

static void see_cp(view *v)
{
    uint32_t relation = next_number(v);

    next_word(v);
    next_word(v);
    note(CP_OFF, !v->now);
    if (v->now)
        relations[relation][v->is]++;
}

static void see_og(view *v)
{
    int32_t a = (int32_t)next_number(v) - SIGNED_ZERO;
    int32_t b = (int32_t)next_number(v) - SIGNED_ZERO;
    int32_t product;

    next_number(v);
    product = a * next_word(v);
    note(OG_OFF, !v->now && v->word_was != 0);
    note(OG_EXACT, v->now && !v->is);
    note(OG_CUT, v->now && product % b != 0 && (product < 0) != (b < 0));
    note(OG_TOP, v->now && v->is && v->word_is == INT16_MAX);
    note(OG_BOTTOM, v->now && v->is && v->word_is == INT16_MIN);
}

static void see_zc(view *v)
{
    bool outside = next_number(v);

    next_word(v);
    next_word(v);
    next_word(v);
    note(outside ? ZC_OUTSIDE : ZC_INSIDE, v->is);
    note(outside ? ZC_NOT_OUTSIDE : ZC_NOT_INSIDE, v->now && !v->is);
}

static void see_st(view *v)
{
    next_word(v);
    next_word(v);
    next_word(v);
    note(ST_KEEPS, !v->now && v->was);
    note(ST_ON, !v->was && v->is);
    note(ST_OFF, v->was && !v->is);
    note(ST_HOLDS, v->now && v->was && v->is);
}

/* Reads the bit pins and notes what they were and are. */
static void see_pins(view *v, unsigned count)
{
    while (count-- > 0)
        (void)see_bit(v, next_number(v));
    v->last = v->before->pins[v->block];
    v->now = v->after->pins[v->block];
    v->rises = v->now & ~v->last;
    note(PIN_RISES, v->rises);
    note(PIN_FALLS, v->last & ~v->now);
}

static void see_block(view *v)
{
    static const uint8_t pins[KINDS] = {0, 2, 1, 2, 2, 2, 1, 2, 4, 1, 1, 1, 1};
    uint32_t kind = next_number(v);

    kinds[kind]++;
    if (kind == BL) {
        (void)see_part(v);
        return;
    }
    see_pins(v, pins[kind]);
    v->was = v->before->outputs[v->block];
    v->is = v->after->outputs[v->block];
    v->word_was = v->before->words[v->block];
    v->word_is = v->after->words[v->block];
    switch (kind) {
    case SR: see_sr(v); break;
    case PL: see_pl(v); break;
    case AL: see_al(v); break;
    case DL: see_dl(v); break;
    case OS: see_os(v); break;
    case FL: see_fl(v); break;
    case CN: see_cn(v); break;
    case UD: see_ud(v); break;
    case CP: see_cp(v); break;
    case OG: see_og(v); break;
    case ZC: see_zc(v); break;
    default: see_st(v); break;
    }
}

/* ---- Calls ---- */

void cover_call(call which, uint32_t refusal, way how)
{
    calls[which][refusal]++;
    ways[which][how]++;
}

void cover_fault(call which, const uint8_t *program, size_t length, uint32_t refusal,
                 uint64_t place)
{
    faults[which][find_fault(program, length, refusal, place)]++;
}

void cover_untouched(call which)
{
    untouched[which]++;
}

void cover_scan(const uint8_t *program, const lanwezik_state *before,
                const lanwezik_inputs *given, const lanwezik_scanned *answer, uint32_t figure,
                const lanwezik_state *after)
{
    view v = {program, before, after, given, 0, 0, 0, 0, false, false, 0, 0};
    uint64_t missed = after->counts[LANWEZIK_MISSED] - before->counts[LANWEZIK_MISSED];
    uint64_t stored = after->counts[LANWEZIK_HELD] - before->counts[LANWEZIK_HELD];
    uint32_t blocks = next_number(&v);

    for (v.block = 0; v.block < blocks; v.block++)
        see_block(&v);
    note(BL_SKIPS, answer->steps < figure);
    note(BL_FULL, answer->steps == figure && figure > blocks);
    note(ALARM_FALLS, before->counts[LANWEZIK_ALARMS] & ~(uint64_t)answer->alarms);
    note(ONE_RISE, answer->rises == 1);
    note(MANY_RISES, answer->rises > 1);
    note(JOURNAL_FILLS, stored > 0 && after->counts[LANWEZIK_HELD] == LANWEZIK_ENTRIES);
    note(MISSED_GROWS, missed > 0);
    note(PART_MISSED, missed > 0 && stored > 0);
    note(TIME_AT_END, after->counts[LANWEZIK_TIME] == UINT64_MAX);
    note(MISSED_AT_END, before->counts[LANWEZIK_MISSED] == UINT64_MAX - LANWEZIK_ENTRIES);
}

void cover_refused_scan(uint32_t refusal, way how, const lanwezik_state *before,
                        uint16_t elapsed)
{
    bool time = before->counts[LANWEZIK_TIME] > UINT64_MAX - elapsed;
    bool missed = before->counts[LANWEZIK_MISSED] > UINT64_MAX - LANWEZIK_ENTRIES;

    note(PROGRAM_BEFORE_STATE, refusal < LANWEZIK_BAD_STATE && how != GOOD_STATE);
    note(PROGRAM_BEFORE_OVERRUN, refusal < LANWEZIK_BAD_STATE && (time || missed));
    note(CUT_BEFORE_STATE, refusal == LANWEZIK_CUT && how != GOOD_STATE);
    note(CUT_BEFORE_OVERRUN, refusal == LANWEZIK_CUT && (time || missed));
    note(STATE_BEFORE_OVERRUN, refusal == LANWEZIK_BAD_STATE && (time || missed));
    note(OVERRUN_TIME, refusal == LANWEZIK_OVERRUN && time);
    note(OVERRUN_MISSED, refusal == LANWEZIK_OVERRUN && missed);
}

void cover_take(const lanwezik_state *before, const lanwezik_taken *answer)
{
    note(TAKE_EMPTY, !answer->found);
    note(TAKE_FOUND, answer->found);
    note(TAKE_FULL, before->counts[LANWEZIK_HELD] == LANWEZIK_ENTRIES);
    note(TAKE_LAST, before->counts[LANWEZIK_HELD] == 1);
}

/* ---- Printing ---- */

static unsigned counted, never;

static void print_count(const char *first, const char *second, uint64_t count)
{
    printf("%12" PRIu64 "  %s%s%s\n", count, first, second, count == 0 ? "  NOT COVERED" : "");
    counted++;
    never += count == 0;
}

/* Which refusals a call can answer, one a bit. */
static const uint16_t CAN_ANSWER[CALLS] = {0x11F, 0x85, 0x01, 0x17F, 0x21};

static void print_calls(call which)
{
    char text[24];
    unsigned i;

    for (i = 0; i < REFUSALS; i++) {
        snprintf(text, sizeof text, i == 0 ? ": good" : ": refused %u", i);
        if (CAN_ANSWER[which] >> i & 1)
            print_count(CALL_NAMES[which], text, calls[which][i]);
    }
}

static void print_faults(call which)
{
    char text[64];
    unsigned i;

    for (i = 0; i < FAULT_COUNT; i++) {
        snprintf(text, sizeof text, ": refused %s", FAULT_TEXTS[i]);
        print_count(CALL_NAMES[which], text, faults[which][i]);
    }
}

static void print_ways(call which)
{
    char text[40];
    unsigned i;

    for (i = GOOD_STATE + 1; i < WAYS; i++) {
        snprintf(text, sizeof text, ": bad by %s", WAY_NAMES[i]);
        print_count(CALL_NAMES[which], text, ways[which][i]);
    }
}

bool print_coverage(void)
{
    unsigned i;

    for (i = 0; i < CALLS; i++)
        print_calls((call)i);
    print_faults(ACCEPT);
    print_faults(SCAN);
    for (i = SCAN; i < CALLS; i++)
        print_count(CALL_NAMES[i], ": refused with the state untouched", untouched[i]);
    for (i = SCAN; i < CALLS; i++)
        print_ways((call)i);
    for (i = 0; i < KINDS; i++)
        print_count(KIND_NAMES[i], " run", kinds[i]);
    for (i = 0; i < OPERATORS; i++)
        print_count(OPERATOR_NAMES[i], " in a formula", formula_operators[i]);
    for (i = 0; i < OPERATORS; i++) {
        print_count(OPERATOR_NAMES[i], " visited, first part on", operators[i][1]);
        print_count(OPERATOR_NAMES[i], " visited, first part off", operators[i][0]);
    }
    for (i = 0; i < RELATIONS; i++) {
        print_count("CP on by ", RELATION_NAMES[i], relations[i][1]);
        print_count("CP off by ", RELATION_NAMES[i], relations[i][0]);
    }
    for (i = 0; i < EVENT_COUNT; i++)
        print_count(EVENT_TEXTS[i], "", events[i]);
    printf("%u counts, %u of them not covered\n", counted, never);
    return never == 0;
}
