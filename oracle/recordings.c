/* Programs and recordings from a seed.  What is being written stands in one
 * program and one scene, set anew by each call.
 */
#include "recordings.h"

#include <stdbool.h>
#include <string.h>

#include "chance.h"

enum { BL, SR, PL, AL, DL, OS, FL, CN, UD, CP, OG, ZC, ST, KINDS };

enum { NOT, AND, OR, XOR, NAND, NOR, LEAF };

enum {
    MOST_BLOCKS = 200,
    MOST_ALARMS = 32,
    MOST_NODES = 63,
    MOST_DEPTH = 16,
    MOST_MEMORY = 5000,
    MOST_LENGTH = 16384,
    ANALOGS = 8,
    INPUTS = 32,
    SCAN_NUMBERS = 3 + ANALOGS,
    BIT_INPUT = 2,
    BIT_OUTPUT = 34,
    WORD_BLOCK = 8,
    WORD_ZERO = 33768,
    SIGNED_ZERO = 32768,
    MOST_NUMBER = 2097151
};

/* ---- Bytes ---- */

typedef struct {
    uint8_t bytes[ORACLE_MOST_RECORDING];
    size_t length;
} buffer;

/* How a number is written. */
typedef enum { SHORTEST, PADDED, OVER } form;

static void put_byte(buffer *out, uint32_t byte)
{
    if (out->length < sizeof out->bytes)
        out->bytes[out->length++] = (uint8_t)byte;
}

static void put_number(buffer *out, uint32_t value, form how)
{
    unsigned groups = 1;

    while (value >= 0x80) {
        put_byte(out, (value & 0x7F) | 0x80);
        value >>= 7;
        groups++;
    }
    if (how == SHORTEST) {
        put_byte(out, value);
        return;
    }
    put_byte(out, value | 0x80);
    if (how == PADDED) {
        if (groups == 1 && percent(40))
            put_byte(out, 0x80);
        put_byte(out, 0);
        return;
    }
    for (; groups < 3; groups++)
        put_byte(out, 0x80);
    put_byte(out, below(3));
}

/* ---- The program as a list of numbers, each with its meaning ---- */

typedef enum {
    COUNT, KIND, NODE, BIT, WORD, CHOICE, UNIT, RELATION,
    TIME, ON, OFF, SIGNED, DIVISOR, ALARM_COUNT
} meaning;

static struct {
    struct {
        uint32_t value;
        meaning what;
        form how;
    } number[40000]; /* those at and above numbers are never read */
    size_t numbers;
    uint8_t kinds[MOST_BLOCKS];
    int32_t likely[MOST_BLOCKS]; /* a value about which the word may lie */
    uint32_t blocks;
    uint32_t block; /* the one being written */
    uint32_t memory;
} program;

static void put(meaning what, uint32_t value)
{
    program.number[program.numbers].value = value;
    program.number[program.numbers].what = what;
    program.number[program.numbers].how = SHORTEST;
    program.numbers++;
}

/* ---- The scene: how the inputs move ---- */

/* What an input bit does from scan to scan. */
typedef enum { BUSY, SLOW, RARELY_ON, MOSTLY_ON, HABITS } habit;

static struct {
    unsigned turn;             /* which bits have which habit */
    unsigned elapsed_style;
    uint32_t elapsed;          /* the usual one */
    int32_t centre[ANALOGS];   /* about which an analog moves */
    bool flood;                /* all bits at once, off and on */
    uint32_t scans;
} scene;

static int32_t held_to_word(int32_t value)
{
    return value < -32768 ? -32768 : value > 32767 ? 32767 : value;
}

static void set_scene(void)
{
    static const int32_t centres[] = {0, 0, 10, 100, -100, 1000, 32767, -32768, 16384};
    static const uint32_t usual[] = {1, 3, 10, 20, 100, 1000, 7000, 65535};
    unsigned i;

    scene.turn = below(HABITS);
    scene.elapsed_style = below(6);
    scene.elapsed = percent(60) ? usual[below(4)] : ONE_OF(usual);
    for (i = 0; i < ANALOGS; i++)
        scene.centre[i] = percent(85) ? ONE_OF(centres) : between(-32768, 32767);
    scene.flood = percent(8);
    scene.scans = 5 + below(56);
}

static uint32_t next_elapsed(void)
{
    switch (scene.elapsed_style) {
    case 0:
    case 1:
        return scene.elapsed;
    case 2:
        return below(scene.elapsed < 65535 ? 2 * scene.elapsed % 65536 + 1 : 65536);
    case 3:
        return percent(30) ? 0 : scene.elapsed;
    case 4:
        return percent(20) ? 65535 : percent(20) ? 0 : scene.elapsed;
    default:
        return percent(50) ? scene.elapsed : below(65536);
    }
}

static habit habit_of(unsigned input)
{
    return (habit)((input + scene.turn) % HABITS);
}

static uint32_t next_bits(uint32_t bits)
{
    unsigned i;

    if (scene.flood && percent(70))
        return percent(80) ? ~bits : (bits == 0 ? UINT32_MAX : 0);
    for (i = 0; i < INPUTS; i++) {
        uint32_t one = UINT32_C(1) << i;

        switch (habit_of(i)) {
        case BUSY:
            bits ^= percent(55) ? one : 0;
            break;
        case SLOW:
            bits ^= percent(20) ? one : 0;
            break;
        case RARELY_ON:
            bits = percent(9) ? bits | one : bits & ~one;
            break;
        default:
            bits = percent(8) ? bits & ~one : bits | one;
            break;
        }
    }
    return bits;
}

static int32_t next_analog(unsigned i)
{
    static const int32_t ends[] = {-32768, -32767, -1, 0, 1, 32766, 32767};

    if (percent(85))
        return held_to_word(scene.centre[i] + between(-3, 3));
    return percent(60) ? ONE_OF(ends) : between(-32768, 32767);
}

/* ---- Fields ---- */

/* A block, mostly a lower one. */
static uint32_t some_block(void)
{
    if (program.block > 0 && percent(60))
        return percent(50) ? program.block - 1 : below(program.block);
    if (program.block < program.blocks && percent(25))
        return program.block;
    return below(program.blocks);
}

static uint32_t input_of(habit wanted)
{
    return BIT_INPUT + (wanted + HABITS - scene.turn) % HABITS + HABITS * below(8);
}

/* A bit reference, mostly to an input of the wanted habit. */
static uint32_t some_bit(habit wanted)
{
    if (percent(program.blocks == 1 ? 80 : 62))
        return input_of(wanted);
    if (percent(75))
        return BIT_OUTPUT + some_block();
    return percent(40) ? below(2) : BIT_INPUT + below(INPUTS);
}

/* A clear or preset pin: on only now and then. */
static uint32_t some_clear(void)
{
    if (percent(35))
        return 0;
    return percent(80) ? input_of(RARELY_ON) : some_bit(SLOW);
}

static bool has_word(uint32_t kind)
{
    return kind == CN || kind == UD || kind == OG;
}

/* A block that has a word, or MOST_BLOCKS if the search finds none. */
static uint32_t some_word_block(void)
{
    uint32_t start = some_block();
    uint32_t i;

    for (i = 0; i < program.blocks; i++) {
        uint32_t block = (start + i) % program.blocks;

        if (has_word(program.kinds[block]))
            return block;
    }
    return MOST_BLOCKS;
}

static int32_t some_constant(void)
{
    static const int32_t ends[] = {-32768, -1, 0, 1, 2, 5, 32766, 32767};

    if (percent(70)) {
        int32_t centre = scene.centre[below(ANALOGS)];

        return held_to_word(centre + between(-3, 3));
    }
    return percent(80) ? ONE_OF(ends) : between(-32768, 32767);
}

static uint32_t some_word(void)
{
    uint32_t block = some_word_block();

    if (block < MOST_BLOCKS && percent(40))
        return WORD_BLOCK + block;
    if (percent(55))
        return below(ANALOGS);
    return (uint32_t)(WORD_ZERO + some_constant());
}

/* Three words of which the outer two lie about the middle one. */
static void put_zone(bool middle_first)
{
    uint32_t analog = below(ANALOGS);
    int32_t low = held_to_word(scene.centre[analog] + between(-3, 1));
    int32_t high = held_to_word(low + between(-1, 4));

    if (percent(35)) {
        put(WORD, some_word());
        put(WORD, some_word());
        put(WORD, some_word());
    } else if (middle_first) { /* ST: X, H, L */
        put(WORD, analog);
        put(WORD, (uint32_t)(WORD_ZERO + high));
        put(WORD, (uint32_t)(WORD_ZERO + low));
    } else { /* ZC: L, X, H */
        put(WORD, (uint32_t)(WORD_ZERO + low));
        put(WORD, analog);
        put(WORD, (uint32_t)(WORD_ZERO + high));
    }
}

static uint32_t unit_of_program(void)
{
    return scene.elapsed < 10 ? (percent(80) ? 0 : below(3))
        : scene.elapsed < 100 ? (percent(80) ? below(2) : below(3))
                              : below(3);
}

/* A time that some scans of the usual elapsed reach. */
static uint32_t some_time(uint32_t unit)
{
    static const uint32_t ticks[] = {1, 10, 100};
    static const uint32_t ends[] = {0, 0, 1, 2, 127, 128, 16383, 16384, 32766, 32767};
    uint32_t wanted;

    if (percent(15))
        return ONE_OF(ends);
    wanted = scene.elapsed * below(7);
    if (percent(40))
        wanted += below(scene.elapsed + 1);
    wanted /= ticks[unit];
    return wanted > 32767 ? 32767 : wanted;
}

static uint32_t some_factor(void)
{
    static const int32_t ends[] = {-32768, -1, 0, 1, 32767};
    int32_t value = percent(75) ? between(-9, 9)
        : percent(60)           ? ONE_OF(ends)
                                : between(-32768, 32767);

    return (uint32_t)(SIGNED_ZERO + value);
}

/* ---- Expressions ---- */

typedef enum { ANY_SHAPE, DEEP_FIRST, DEEP_SECOND, MANY_NOTS, EVEN, SHAPES } shape;

/* Writes an expression of exactly `nodes` nodes and at most `depth` levels. */
static void put_expression(shape form, uint32_t nodes, uint32_t depth)
{
    uint32_t room = depth > 1 ? (UINT32_C(1) << (depth - 1)) - 1 : 0;
    uint32_t low, high, first;

    if (nodes == 1) {
        put(NODE, LEAF + some_bit(percent(70) ? BUSY : (habit)below(HABITS)));
        return;
    }
    if (nodes == 2 || (nodes - 1 <= room && percent(form == MANY_NOTS ? 60 : 6))) {
        put(NODE, NOT);
        put_expression(form, nodes - 1, depth - 1);
        return;
    }
    low = nodes - 1 > room + 1 ? nodes - 1 - room : 1;
    high = nodes - 2 < room ? nodes - 2 : room;
    first = form == DEEP_FIRST ? high
        : form == DEEP_SECOND  ? low
        : form == EVEN         ? (low + high) / 2
                               : low + below(high - low + 1);
    put(NODE, AND + below(5));
    put_expression(form, first, depth - 1);
    put_expression(form, nodes - 1 - first, depth - 1);
}

/* An expression for an ordinary block. */
static void put_some_expression(uint32_t most)
{
    shape form = (shape)below(SHAPES);
    uint32_t nodes = percent(70) ? 1 + below(9) : 1 + below(MOST_NODES);

    put_expression(form, nodes < most ? nodes : most, MOST_DEPTH);
}

/* ---- Blocks ---- */

static const uint8_t MEMORY[KINDS] = {
    10, 14, 10, 13, 19, 17, 19, 16, 22, 17, 22, 20, 19
};

static void start_block(uint32_t kind)
{
    put(KIND, kind);
    program.memory += MEMORY[kind];
}

static void put_timed(uint32_t kind)
{
    uint32_t unit = unit_of_program();
    uint32_t on = some_time(unit);
    uint32_t off = some_time(unit);

    put(BIT, kind == FL ? some_bit(MOSTLY_ON) : some_bit(percent(60) ? SLOW : BUSY));
    if (kind != FL)
        put(BIT, some_clear());
    put(UNIT, unit);
    put(kind == FL ? ON : TIME, on);
    if (kind == DL)
        put(TIME, off);
    if (kind == FL)
        put(OFF, on == 0 && off == 0 ? 1 + below(3) : off);
}

static void put_counter(uint32_t kind)
{
    static const int32_t ends[] = {-32768, -32767, 32766, 32767};
    int32_t preset = percent(45) ? between(-2, 5)
        : percent(80)            ? ONE_OF(ends)
                                 : between(-32768, 32767);

    if (kind == CN) {
        put(BIT, some_bit(BUSY));
        put(BIT, some_clear());
        put(TIME, percent(80) ? below(8) : below(32768));
        return;
    }
    put(BIT, some_bit(BUSY));
    put(BIT, some_bit(percent(50) ? BUSY : SLOW));
    put(BIT, percent(70) ? input_of(RARELY_ON) : some_clear());
    put(BIT, some_clear());
    put(SIGNED, (uint32_t)(SIGNED_ZERO + preset));
    program.likely[program.block] = preset;
}

static void put_generator(void)
{
    uint32_t analog = below(ANALOGS);
    uint32_t a = some_factor();
    uint32_t b = some_factor();
    uint32_t c = some_factor();

    if (b == SIGNED_ZERO)
        b += 2;
    put(BIT, some_bit(percent(50) ? MOSTLY_ON : BUSY));
    put(SIGNED, a);
    put(DIVISOR, b);
    put(SIGNED, c);
    put(WORD, percent(60) ? analog : some_word());
    program.likely[program.block] = held_to_word(
        ((int32_t)a - SIGNED_ZERO) * scene.centre[analog] / ((int32_t)b - SIGNED_ZERO)
        + (int32_t)c - SIGNED_ZERO);
}

/* Writes the fields of a kind that is not BL. */
static void put_fields(uint32_t kind)
{
    switch (kind) {
    case SR:
        put(BIT, some_bit(BUSY));
        put(BIT, some_bit(percent(50) ? BUSY : RARELY_ON));
        put(CHOICE, below(2));
        break;
    case PL:
        put(BIT, some_bit(BUSY));
        put(CHOICE, below(2));
        break;
    case AL:
        put(BIT, some_bit(BUSY));
        put(BIT, some_clear());
        break;
    case DL:
    case OS:
    case FL:
        put_timed(kind);
        break;
    case CN:
    case UD:
        put_counter(kind);
        break;
    case CP:
        put(BIT, percent(50) ? 1 : some_bit(MOSTLY_ON));
        put(RELATION, below(6));
        put(WORD, some_word());
        put(WORD, some_word());
        break;
    case OG:
        put_generator();
        break;
    case ZC:
        put(BIT, some_bit(MOSTLY_ON));
        put(CHOICE, below(2));
        put_zone(false);
        break;
    default:
        put(BIT, some_bit(MOSTLY_ON));
        put_zone(true);
        break;
    }
}

/* Writes the next block; a BL gets at most `nodes` nodes. */
static void put_block(uint32_t nodes)
{
    uint32_t kind = program.kinds[program.block];
    size_t before;

    start_block(kind);
    before = program.numbers;
    if (kind == BL) {
        put_some_expression(nodes);
        program.memory += (uint32_t)(program.numbers - before);
    } else {
        put_fields(kind);
    }
    program.block++;
}

/* A BL that shows the output of a block in the steps and, for its falls, as an
 * output of its own: AND(output, NOTs of on), NOT output and the like. */
static void put_probe(uint32_t seen)
{
    uint32_t nots = below(12);
    uint32_t i;

    start_block(BL);
    put(NODE, percent(50) ? AND : AND + below(5));
    if (percent(40)) {
        put(NODE, NOT);
        program.memory++;
    }
    put(NODE, LEAF + BIT_OUTPUT + seen);
    for (i = 0; i < nots; i++)
        put(NODE, NOT);
    put(NODE, LEAF + 1);
    program.memory += 3 + nots;
    program.block++;
}

/* A CP that compares the word of a block with a constant in its reach. */
static void put_word_probe(uint32_t seen)
{
    static const int32_t ends[] = {-32768, -32767, -3, 0, 32766, 32767};
    int32_t constant = percent(50) ? held_to_word(program.likely[seen] + between(-2, 2))
        : percent(60)              ? between(-3, 5)
                                   : ONE_OF(ends);

    start_block(CP);
    put(BIT, 1);
    put(RELATION, below(6));
    put(WORD, WORD_BLOCK + seen);
    put(WORD, (uint32_t)(WORD_ZERO + constant));
    program.block++;
}

/* ---- Whole programs ---- */

static void start_program(uint32_t blocks)
{
    program.numbers = 0;
    memset(program.kinds, 0, sizeof program.kinds);
    memset(program.likely, 0, sizeof program.likely);
    program.block = 0;
    program.memory = 0;
    program.blocks = blocks;
    put(COUNT, blocks);
}

static uint32_t some_kind(void)
{
    return below(KINDS);
}

static void put_alarms(uint32_t count)
{
    uint32_t i;

    put(ALARM_COUNT, count);
    for (i = 0; i < count; i++) {
        if (i < program.blocks && percent(50))
            put(BIT, BIT_OUTPUT + program.blocks - 1 - i);
        else if (percent(60))
            put(BIT, BIT_OUTPUT + below(program.blocks));
        else
            put(BIT, some_bit(SLOW));
    }
}

static uint32_t some_alarm_count(void)
{
    return percent(60) ? 1 + below(6) : percent(25) ? MOST_ALARMS : below(MOST_ALARMS + 1);
}

/* One block. */
static void make_single(uint32_t kind)
{
    uint32_t alarms = percent(10) ? 0 : 1 + below(3);
    uint32_t i;

    start_program(1);
    program.kinds[0] = (uint8_t)kind;
    put_block(MOST_NODES);
    put(ALARM_COUNT, alarms);
    for (i = 0; i < alarms; i++)
        put(BIT, i == 0 ? BIT_OUTPUT : some_bit(SLOW));
}

/* A few blocks of one kind, each under several probes. */
static void make_observed(uint32_t kind)
{
    uint32_t seen = 1 + below(4);
    uint32_t probes = seen * (has_word(kind) ? 2 + below(4) : 1 + below(3));
    uint32_t i;

    start_program(seen + probes);
    for (i = 0; i < seen; i++)
        program.kinds[i] = (uint8_t)kind;
    for (; i < seen + probes; i++)
        program.kinds[i] = (uint8_t)(has_word(kind) && percent(60) ? CP : BL);
    for (i = 0; i < seen; i++)
        put_block(20);
    for (i = 0; i < probes; i++) {
        if (program.kinds[program.block] == CP)
            put_word_probe(i % seen);
        else
            put_probe(i % seen);
    }
    put_alarms(some_alarm_count());
}

/* Blocks of all kinds, then a probe for some of them. */
static void make_circuit(uint32_t blocks, uint32_t most_probes, uint32_t nodes)
{
    uint32_t probes = below(most_probes + 1);
    uint32_t i;

    start_program(blocks + probes);
    for (i = 0; i < blocks; i++)
        program.kinds[i] = (uint8_t)some_kind();
    for (i = 0; i < blocks; i++)
        put_block(nodes);
    for (i = 0; i < probes; i++) {
        uint32_t seen = below(blocks);

        if (has_word(program.kinds[seen]) && percent(60)) {
            program.kinds[program.block] = CP;
            put_word_probe(seen);
        } else {
            put_probe(seen);
        }
    }
    put_alarms(some_alarm_count());
}

/* BL alone, in all shapes and sizes up to the bounds. */
static void make_expressions(void)
{
    uint32_t blocks = 1 + below(12);
    uint32_t i;

    start_program(blocks);
    for (i = 0; i < blocks; i++) {
        uint32_t depth = percent(50) ? MOST_DEPTH : 6 + below(MOST_DEPTH - 5);
        uint32_t nodes = percent(30) ? MOST_NODES : 1 + below(MOST_NODES);

        start_block(BL);
        put_expression((shape)below(SHAPES), nodes, depth);
        program.memory += nodes;
        program.block++;
    }
    put_alarms(some_alarm_count());
}

/* Many alarms that rise often. */
static void make_flood(void)
{
    uint32_t i;

    start_program(3);
    program.kinds[0] = AL;
    program.kinds[1] = (uint8_t)some_kind();
    program.kinds[2] = BL;
    put_block(5);
    put_block(5);
    put_block(5);
    put(ALARM_COUNT, MOST_ALARMS);
    for (i = 0; i < MOST_ALARMS; i++)
        put(BIT, percent(75) ? BIT_INPUT + i : some_bit(BUSY));
}

/* A program of exactly `memory` bytes of memory: large BL and others, the last
 * block a BL that fills the rest. */
static void make_memory(uint32_t memory)
{
    start_program(0);
    program.blocks = 60; /* at least; so every reference is good */
    while (program.memory < memory) {
        uint32_t rest = memory - program.memory;
        uint32_t nodes = rest <= 10 + MOST_NODES ? rest - 10 : MOST_NODES;

        if (rest > 130 && percent(25)) {
            program.kinds[program.block] = (uint8_t)(1 + below(KINDS - 1));
            put_block(0);
            continue;
        }
        if (rest > 10 + MOST_NODES && rest < 2 * (11 + MOST_NODES))
            nodes = rest / 2 - 10;
        start_block(BL);
        put_expression((shape)below(SHAPES), nodes, MOST_DEPTH);
        program.memory += nodes;
        program.block++;
    }
    program.blocks = program.block;
    program.number[0].value = program.blocks;
    put_alarms(some_alarm_count());
}

/* BL of 63 nodes only, up to 200 of them: over the memory, and over the length
 * that the listing program takes once the references grow to two bytes. */
static void make_heavy(void)
{
    uint32_t blocks = 69 + below(132);

    start_program(blocks);
    while (program.block < blocks) {
        start_block(BL);
        put_expression((shape)below(SHAPES), MOST_NODES, MOST_DEPTH);
        program.memory += MOST_NODES;
        program.block++;
    }
    put_alarms(some_alarm_count());
}

/* A good program. */
static void make_good(void)
{
    uint32_t style = below(100);

    if (style < 22) {
        make_single(some_kind());
    } else if (style < 48) {
        make_observed(some_kind());
    } else if (style < 72) {
        make_circuit(2 + below(14), 8, 20);
    } else if (style < 80) {
        make_circuit(30 + below(151), 20, 6);
    } else if (style < 92) {
        make_expressions();
    } else {
        make_flood();
        scene.flood = percent(70);
    }
    if (program.memory > MOST_MEMORY)
        make_circuit(100, 20, 3);
}

/* ---- Damage to a program ---- */

/* The first number of that meaning at or after a chance one; false if none. */
static bool find(meaning what, size_t *found)
{
    size_t start = below((uint32_t)program.numbers);
    size_t i;

    for (i = 0; i < program.numbers; i++) {
        *found = (start + i) % program.numbers;
        if (program.number[*found].what == what)
            return true;
    }
    return false;
}

static uint32_t limit_of(meaning what)
{
    static const uint32_t limits[] = {
        [COUNT] = MOST_BLOCKS, [KIND] = KINDS - 1, [NODE] = LEAF + 233,
        [BIT] = 233, [WORD] = 66535, [CHOICE] = 1, [UNIT] = 2, [RELATION] = 5,
        [TIME] = 32767, [ON] = 32767, [OFF] = 32767, [SIGNED] = 65535,
        [DIVISOR] = 65535, [ALARM_COUNT] = MOST_ALARMS
    };

    return limits[what];
}

/* Makes a number too large, or a word reference one of the gap.  It is one of
 * that meaning, if there is any. */
static void put_outside(meaning what)
{
    uint32_t limit;
    size_t at;

    if (!find(what, &at))
        at = below((uint32_t)program.numbers);
    limit = limit_of(program.number[at].what);
    if (program.number[at].what == WORD && percent(60))
        program.number[at].value = percent(70) ? (percent(50) ? 208 : 999) : 208 + below(792);
    else if (program.number[at].what == COUNT && percent(50))
        program.number[at].value = 0;
    else
        program.number[at].value = percent(60) ? limit + 1
            : percent(50)                      ? MOST_NUMBER
                                               : limit + 1 + below(200);
}

/* Names a block that is not there. */
static void put_absent(void)
{
    static const meaning references[] = {NODE, BIT, WORD};
    meaning what = ONE_OF(references);
    uint32_t block = program.blocks;
    size_t at;

    if (program.blocks >= MOST_BLOCKS || !find(what, &at))
        return;
    if (what == NODE && program.number[at].value < LEAF)
        return;
    if (percent(60))
        block += below(MOST_BLOCKS - block);
    program.number[at].value = block
        + (what == WORD ? WORD_BLOCK : what == BIT ? BIT_OUTPUT : LEAF + BIT_OUTPUT);
}

/* Names the word of a kind without one. */
static void put_wordless(void)
{
    uint32_t block = below(program.blocks);
    size_t at;

    if (find(WORD, &at) && !has_word(program.kinds[block]))
        program.number[at].value = WORD_BLOCK + block;
}

static void put_zero_divisor(void)
{
    size_t at;

    if (find(DIVISOR, &at))
        program.number[at].value = SIGNED_ZERO;
}

static void put_zero_flasher(void)
{
    size_t at;

    if (!find(OFF, &at))
        return;
    program.number[at].value = 0;
    program.number[at - 1].value = 0;
}

/* Makes a count, or a kind, another one. */
static void put_other_count(void)
{
    static const meaning counts[] = {COUNT, ALARM_COUNT, KIND};
    meaning what = ONE_OF(counts);
    size_t at;

    if (!find(what, &at))
        return;
    if (what == KIND)
        program.number[at].value = some_kind();
    else if (program.number[at].value > 0 && percent(50))
        program.number[at].value--;
    else
        program.number[at].value++;
}

/* A BL at or just over the bounds, in place of the whole program. */
static void make_bounds(void)
{
    static const shape deep[] = {DEEP_FIRST, DEEP_SECOND, MANY_NOTS};
    uint32_t blocks = 1 + below(4);

    start_program(blocks);
    while (program.block < blocks) {
        uint32_t nots = MOST_DEPTH - 1 + below(2);
        uint32_t depth = MOST_DEPTH + below(2);
        uint32_t nodes = 40 + below(24);
        uint32_t over = below(3);

        start_block(BL);
        switch (below(4)) {
        case 0:
            put_expression((shape)below(SHAPES), MOST_NODES + over, MOST_DEPTH);
            break;
        case 1:
            put_expression(ONE_OF(deep), nodes, depth);
            break;
        case 2:
            while (nots-- > 0)
                put(NODE, NOT);
            put(NODE, LEAF + some_bit(BUSY));
            break;
        default:
            put_some_expression(MOST_NODES);
            break;
        }
        program.block++;
    }
    put_alarms(1 + below(4));
}

/* Damages some number of the program. */
static void damage_number(void)
{
    switch (below(12)) {
    case 0:
    case 1:
        put_outside((meaning)below(ALARM_COUNT + 1));
        break;
    case 2:
    case 3:
    case 4:
        put_absent();
        break;
    case 5:
    case 6:
        put_wordless();
        break;
    case 7:
        put_zero_divisor();
        break;
    case 8:
        put_zero_flasher();
        break;
    case 9:
        put_other_count();
        break;
    case 10:
        program.number[below((uint32_t)program.numbers)].how = PADDED;
        break;
    default:
        program.number[below((uint32_t)program.numbers)].how = OVER;
        break;
    }
}

/* Damages the bytes of the program. */
static void damage_bytes(buffer *bytes)
{
    uint32_t times = 1 + below(3);

    switch (below(5)) {
    case 0:
        bytes->length = below((uint32_t)bytes->length + 1);
        break;
    case 1:
        bytes->length -= 1;
        break;
    case 2: /* cut within a number */
        bytes->length = below((uint32_t)bytes->length);
        put_byte(bytes, 0x80 | below(128));
        if (percent(50))
            put_byte(bytes, 0x80 | below(128));
        break;
    case 3:
        while (times-- > 0)
            put_byte(bytes, percent(40) ? 0 : below(256));
        break;
    default:
        while (times-- > 0) {
            uint32_t at = below((uint32_t)bytes->length);

            bytes->bytes[at] = (uint8_t)below(256);
        }
        break;
    }
}

static void write_program(buffer *bytes)
{
    size_t i;

    bytes->length = 0;
    for (i = 0; i < program.numbers; i++)
        put_number(bytes, program.number[i].value, program.number[i].how);
}

/* Damage that only some kinds can take, in a block of such a kind. */
static void make_special(void)
{
    static const uint8_t readers[] = {CP, OG, ZC, ST};
    uint32_t times = percent(60) ? 1 : 2;

    switch (below(7)) {
    case 0:
        make_single(FL);
        put_zero_flasher();
        break;
    case 1:
        make_single(OG);
        put_zero_divisor();
        break;
    case 2:
        make_single(ONE_OF(readers));
        put_outside(WORD);
        break;
    default:
        if (percent(30))
            make_single(ONE_OF(readers));
        else
            make_circuit(8 + below(12), 4, 6);
        while (times-- > 0) {
            if (percent(30))
                put_absent();
            else
                put_wordless();
        }
        break;
    }
}

/* A program that is refused, or was at least meant to be. */
static void make_damaged(buffer *bytes)
{
    uint32_t times = percent(70) ? 1 : 2;
    uint32_t style = below(140);

    if (style < 10 || style >= 100) {
        if (style < 10)
            make_bounds();
        else
            make_special();
        write_program(bytes);
        return;
    }
    if (style < 20)
        make_heavy(); /* what is over the memory may be damaged besides */
    else if (style < 40)
        make_single(some_kind());
    else
        make_circuit(1 + below(20), 4, 10);
    if (style >= 75) {
        write_program(bytes);
        damage_bytes(bytes);
        return;
    }
    while (times-- > 0)
        damage_number();
    write_program(bytes);
}

/* ---- Scans ---- */

/* What is wrong with a recording after its program. */
typedef enum { NOTHING_WRONG, CUT_SCAN, PADDED_SCAN, OVER_SCAN, LARGE_SCAN } fault;

/* Writes the scans; the fault, if any, is in the last one. */
static void put_scans(buffer *out, fault what)
{
    uint32_t bits = (uint32_t)chance();
    uint32_t at = below(SCAN_NUMBERS);
    uint32_t scan, i;

    for (scan = 0; scan < scene.scans; scan++) {
        bool last = scan + 1 == scene.scans;
        uint32_t number[SCAN_NUMBERS];
        size_t start = out->length;

        bits = next_bits(bits);
        number[0] = next_elapsed();
        number[1] = bits & 0xFFFF;
        number[2] = bits >> 16;
        for (i = 0; i < ANALOGS; i++)
            number[3 + i] = (uint32_t)(SIGNED_ZERO + next_analog(i));
        if (last && what == LARGE_SCAN)
            number[at] = percent(60) ? 65536
                : percent(50)        ? MOST_NUMBER
                                     : 65536 + below(1000000);
        for (i = 0; i < SCAN_NUMBERS; i++)
            put_number(out, number[i], !last || i != at ? SHORTEST
                       : what == PADDED_SCAN            ? PADDED
                       : what == OVER_SCAN              ? OVER
                                                        : SHORTEST);
        if (last && what == CUT_SCAN)
            out->length -= 1 + below((uint32_t)(out->length - start - 1));
    }
}

/* A counter that runs to its stop: 65,534 scans and some more. */
static void put_long(buffer *out)
{
    static const uint32_t fields[] = {
        4,
        CN, BIT_INPUT, 0, 32767,
        CP, 1, 2, WORD_BLOCK, WORD_ZERO + 32767,
        CP, 1, 3, WORD_BLOCK, WORD_ZERO,
        BL, AND, LEAF + BIT_OUTPUT, NOT, LEAF + 1,
        3, BIT_OUTPUT, BIT_OUTPUT + 1, BIT_OUTPUT + 2
    };
    static buffer bytes;
    uint32_t scan, i;

    bytes.length = 0;
    for (i = 0; i < sizeof fields / sizeof fields[0]; i++)
        put_number(&bytes, fields[i], SHORTEST);
    put_number(out, (uint32_t)bytes.length, SHORTEST);
    for (i = 0; i < bytes.length; i++)
        put_byte(out, bytes.bytes[i]);
    for (scan = 0; scan < 2 * 32767 + 30; scan++) {
        put_number(out, below(100), SHORTEST);
        put_number(out, (scan + 1) % 2, SHORTEST);
        for (i = 2; i < SCAN_NUMBERS; i++)
            put_byte(out, 0);
    }
}

/* ---- Recordings ---- */

static void put_program(buffer *out, const buffer *bytes, uint32_t length, form how)
{
    size_t i;

    put_number(out, length, how);
    for (i = 0; i < bytes->length; i++)
        put_byte(out, bytes->bytes[i]);
}

/* A recording whose length and program do not go together. */
static void put_wrong_length(buffer *out, buffer *bytes)
{
    uint32_t length = (uint32_t)bytes->length;

    switch (below(10)) {
    case 0: /* no bytes at all */
        return;
    case 1: /* a length cut short */
        put_byte(out, 0x80 | below(128));
        if (percent(30))
            put_byte(out, 0x80 | below(128));
        return;
    case 2:
        put_program(out, bytes, length, PADDED);
        break;
    case 3:
        put_program(out, bytes, length, OVER);
        break;
    case 4: /* just over, with all its bytes */
        while (bytes->length < MOST_LENGTH + 1)
            put_byte(bytes, below(256));
        put_program(out, bytes, MOST_LENGTH + 1, SHORTEST);
        break;
    case 5: /* just not over */
        while (bytes->length < MOST_LENGTH)
            put_byte(bytes, below(256));
        put_program(out, bytes, MOST_LENGTH, SHORTEST);
        break;
    case 6: /* too few bytes */
        put_program(out, bytes, length + 1 + below(percent(50) ? 3 : 16000), SHORTEST);
        return;
    case 7: /* a length of another program */
        put_program(out, bytes, percent(50) ? MOST_NUMBER : below(MOST_LENGTH), SHORTEST);
        break;
    case 8: /* too long: the program takes bytes of the scans */
        put_program(out, bytes, length + 1 + below(3), SHORTEST);
        break;
    default: /* too short: the scans take bytes of the program */
        put_program(out, bytes, length - 1 - below(length < 4 ? length : 4), SHORTEST);
        break;
    }
    put_scans(out, NOTHING_WRONG);
}

static void put_recording(buffer *out)
{
    static buffer bytes;
    uint32_t style = below(100);
    fault what = NOTHING_WRONG;

    set_scene();
    if (style < 63) {
        make_good();
        write_program(&bytes);
    } else if (style < 67) {
        make_memory(MOST_MEMORY + (percent(50) ? 0 : 1 + below(3)));
        write_program(&bytes);
    } else if (style < 88) {
        make_damaged(&bytes);
    } else {
        make_good();
        write_program(&bytes);
        if (style < 94)
            what = (fault)(CUT_SCAN + below(4));
    }
    if (style >= 94) {
        put_wrong_length(out, &bytes);
        return;
    }
    put_program(out, &bytes, (uint32_t)bytes.length, SHORTEST);
    put_scans(out, what);
}

/* ---- From a seed ---- */

/* Copies what fits; answers how long the whole is. */
static size_t hand_out(const buffer *made, uint8_t *out, size_t room)
{
    memcpy(out, made->bytes, made->length < room ? made->length : room);
    return made->length;
}

size_t oracle_recording(uint64_t seed, uint8_t *out, size_t room)
{
    static buffer recording;

    recording.length = 0;
    chance_state = seed;
    if (seed % 500 == 0)
        put_long(&recording);
    else
        put_recording(&recording);
    return hand_out(&recording, out, room);
}

size_t oracle_program(uint64_t seed, uint8_t *out, size_t room)
{
    static buffer bytes;
    uint32_t style;

    chance_state = seed;
    set_scene();
    style = below(100);
    if (style < 60) {
        make_good();
        write_program(&bytes);
    } else if (style < 65) {
        make_memory(MOST_MEMORY + (percent(50) ? 0 : 1 + below(3)));
        write_program(&bytes);
    } else {
        make_damaged(&bytes);
    }
    return hand_out(&bytes, out, room);
}
