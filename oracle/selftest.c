/* Runs the examples of document 01 on the controller, numbers that are cut and
 * badly formed, as request L2 tells them apart, delays at the bounds of request
 * L3's rule, then odd content. */
#include <stdio.h>
#include <stdlib.h>
#include <string.h>

#include "controller.h"

static int failures;

#define CHECK(name, holds) check((name), (holds), #holds, __LINE__)

static void check(const char *name, bool holds, const char *text, int line)
{
    if (holds)
        return;
    printf("%s: line %d: %s\n", name, line, text);
    failures++;
}

static const int16_t NO_WORDS[ORACLE_ANALOGS];

/* A program under construction. */
typedef struct {
    uint8_t bytes[16384];
    size_t length;
} program;

static void put(program *p, uint32_t value)
{
    for (; value >= 0x80; value >>= 7)
        p->bytes[p->length++] = (uint8_t)(value | 0x80);
    p->bytes[p->length++] = (uint8_t)value;
}

static void put_all(program *p, const uint32_t *values, size_t count)
{
    while (count-- > 0)
        put(p, *values++);
}

#define PUT(p, ...) \
    put_all((p), (const uint32_t[]){__VA_ARGS__}, \
            sizeof((const uint32_t[]){__VA_ARGS__}) / sizeof(uint32_t))

/* A full tree of ANDs over on, of 2^levels - 1 nodes. */
static void put_tree(program *p, unsigned levels)
{
    if (levels == 1) {
        put(p, 7);
        return;
    }
    put(p, 1);
    put_tree(p, levels - 1);
    put_tree(p, levels - 1);
}

/* A count of 70 blocks, then 68 BL of 63 nodes and one UD. */
static void put_large(program *p)
{
    unsigned i;

    put(p, 70);
    for (i = 0; i < 68; i++) {
        put(p, 0);
        put_tree(p, 6);
    }
    PUT(p, 8, 2, 3, 4, 5, 32768);
}

/* A state that an accepted scan would change. */
static void put_state(oracle_state *state)
{
    oracle_fresh(state);
    state->places[0].pins = 3;
    state->places[0].output = true;
    state->places[0].ticks = 77;
    state->places[0].word = -9;
    state->time = 12345;
    state->alarms = 0xDEADBEEF;
    state->journal.entries[0].number = 31;
    state->journal.entries[0].time = 100;
    state->journal.held = 1;
    state->journal.missed = 5;
}

/* A scan from this state is refused so, with zeros, and hands the state back. */
static bool scan_refused(const uint8_t *bytes, size_t length, oracle_state *state,
                         unsigned refusal, size_t place)
{
    oracle_state before = *state;
    oracle_answer s = oracle_scan(bytes, length, state, 1, 1, NO_WORDS);

    return s.refusal == refusal && s.place == place && s.alarms == 0
        && s.steps == 0 && s.rises == 0
        && memcmp(state, &before, sizeof before) == 0;
}

/* Acceptance and a scan both refuse this program so. */
static bool refused(const uint8_t *bytes, size_t length, unsigned refusal, size_t place)
{
    /* A copy of just this length: checks of the compiler see a read past it. */
    uint8_t *exact = malloc(length > 0 ? length : 1);
    oracle_acceptance a;
    oracle_state state;
    bool good;

    if (exact == NULL)
        return false;
    if (length > 0)
        memcpy(exact, bytes, length);
    a = oracle_accept(exact, length);
    good = a.refusal == refusal && a.place == place && a.memory == 0 && a.steps == 0;
    oracle_fresh(&state);
    good = scan_refused(exact, length, &state, refusal, place) && good;
    put_state(&state);
    good = scan_refused(exact, length, &state, refusal, place) && good;
    free(exact);
    return good;
}

/* So is the program with these bytes put after it; it is left as it was. */
static bool refused_with(const program *p, const char *tail, size_t count,
                         unsigned refusal, size_t place)
{
    static program longer;

    longer.length = p->length + count;
    memcpy(longer.bytes, p->bytes, p->length);
    memcpy(longer.bytes + p->length, tail, count);
    return refused(longer.bytes, longer.length, refusal, place);
}

/* The bytes after the program are those of a string. */
#define WITH(p, tail, refusal, place) \
    refused_with((p), (tail), sizeof(tail) - 1, (refusal), (place))

static void test_acceptance(void)
{
    static const uint8_t p1[] = {0x01, 0x07, 0x02, 0x00, 0x02, 0x01, 0x22, 0x00};
    static const uint8_t p3[] = {0x00};
    static const uint8_t p4[] = {0x81, 0x00};
    static const uint8_t p6[] = {0x01, 0x07, 0x02, 0x00, 0x02, 0x01, 0x23};
    static const uint8_t many[] = {0xC9, 0x01};
    oracle_acceptance a = oracle_accept(p1, 7);

    CHECK("P1", a.refusal == 0 && a.place == 0 && a.memory == 16 && a.steps == 1);
    CHECK("P2", refused(NULL, 0, 8, 0));
    CHECK("P3", refused(p3, 1, 2, 0));
    CHECK("P4", refused(p4, 2, 1, 0));
    CHECK("P5", refused(p1, 8, 2, 7));
    CHECK("P6", refused(p6, 7, 3, 6));
    CHECK("P7", refused(p1, 6, 8, 6));
    CHECK("C9 01", refused(many, 2, 2, 0));
}

static void test_memory(void)
{
    static program p;
    oracle_acceptance a;

    p.length = 0;
    put_large(&p);
    PUT(&p, 1, 2, 3, 0, 0);
    a = oracle_accept(p.bytes, p.length);
    CHECK("memory 5000", a.refusal == 0 && a.memory == 5000);
    CHECK("memory 5000", a.steps == 68 * 63 + 2);

    p.length = 0;
    put_large(&p);
    PUT(&p, 0, 1, 1, 7, 7, 7, 0);
    CHECK("memory 5001", refused(p.bytes, p.length, 4, 0));
}

/* A good program: each kind once, numbers of one, two and three bytes. */
static const uint32_t EVERY_KIND[] = {
    13,
    0, 2, 6 + 36, 4, 0, 6 + 1, 5, 6 + 33, 6 + 46,
    1, 34, 0, 1,
    2, 46, 1,
    3, 2, 37,
    4, 38, 0, 2, 127, 128,
    5, 33, 34, 1, 16383,
    6, 1, 0, 0, 16384,
    7, 2, 0, 32767,
    8, 2, 33, 45, 0, 300,
    9, 1, 5, 8 + 7, 1000,
    10, 35, 0, 65535, 128, 8 + 8,
    11, 44, 1, 66535, 7, 16384,
    12, 43, 8 + 10, 3, 33768,
    5, 34, 46, 0, 33, 1
};

/* Each prefix of a good program ends within a number, or before one: 8 at that
 * number.  The same number made badly formed, by as few bytes as that takes, is
 * 1 at the same place, though the data end there too. */
static void test_prefixes(void)
{
    static program p, prefix;
    size_t count = sizeof EVERY_KIND / sizeof EVERY_KIND[0];
    bool widths[4] = {false};
    oracle_acceptance a;
    size_t i;

    p.length = 0;
    for (i = 0; i < count; i++) {
        size_t start = p.length;
        size_t groups;

        put(&p, EVERY_KIND[i]);
        widths[p.length - start] = true;
        for (groups = 0; start + groups < p.length; groups++) {
            prefix = p;
            prefix.length = start + groups;
            CHECK("cut", refused(prefix.bytes, prefix.length, 8, start));
            if (groups == 0) {
                CHECK("cut in group 2", WITH(&prefix, "\x80", 8, start));
                CHECK("cut in group 3", WITH(&prefix, "\xFF\x80", 8, start));
                CHECK("not shortest", WITH(&prefix, "\x81\0", 1, start));
                CHECK("not shortest", WITH(&prefix, "\x80\x81\0", 1, start));
                CHECK("over", WITH(&prefix, "\x80\x80\x80", 1, start));
                CHECK("over", WITH(&prefix, "\xFF\xFF\xFF", 1, start));
            } else if (groups == 1) {
                CHECK("cut in group 3", WITH(&prefix, "\x80", 8, start));
                CHECK("not shortest", WITH(&prefix, "\0", 1, start));
                CHECK("not shortest", WITH(&prefix, "\x80\0", 1, start));
                CHECK("over", WITH(&prefix, "\x80\x80", 1, start));
                CHECK("over", WITH(&prefix, "\xFF\xFF", 1, start));
            } else {
                CHECK("not shortest", WITH(&prefix, "\0", 1, start));
                CHECK("over", WITH(&prefix, "\x80", 1, start));
                CHECK("over", WITH(&prefix, "\xFF", 1, start));
            }
        }
    }
    CHECK("widths", widths[1] && widths[2] && widths[3]);
    a = oracle_accept(p.bytes, p.length);
    CHECK("every kind", a.refusal == 0 && a.memory == 226 && a.steps == 20);
}

/* One number alone, and 8 among the other refusals. */
static void test_cut(void)
{
    static program p;
    oracle_state state;
    unsigned i;

    p.length = 0;
    CHECK("alone", WITH(&p, "\x80", 8, 0));
    CHECK("alone", WITH(&p, "\x81", 8, 0));
    CHECK("alone", WITH(&p, "\xC8", 8, 0));
    CHECK("alone", WITH(&p, "\x80\x80", 8, 0));
    CHECK("alone", WITH(&p, "\xFF\xFF", 8, 0));
    CHECK("alone", WITH(&p, "\x80\0", 1, 0));
    CHECK("alone", WITH(&p, "\x81\0", 1, 0));
    CHECK("alone", WITH(&p, "\x81\x80\0", 1, 0));
    CHECK("alone", WITH(&p, "\x80\x80\x80", 1, 0));
    CHECK("alone", WITH(&p, "\xFF\xFF\xFF", 1, 0));

    /* Before 2 at the same number, whatever it would have become. */
    PUT(&p, 1, 0);
    for (i = 0; i < 16; i++)
        put(&p, 0);
    CHECK("depth 17", WITH(&p, "", 8, 18));
    CHECK("depth 17", WITH(&p, "\x80", 8, 18));
    CHECK("depth 17", WITH(&p, "\xFF\xFF", 8, 18));
    CHECK("depth 17", WITH(&p, "\x80\0", 1, 18));
    CHECK("depth 17", WITH(&p, "\x80\x80\x80", 1, 18));
    CHECK("depth 17", WITH(&p, "\x06", 2, 18));
    p.length = 0;
    PUT(&p, 1, 0);
    put_tree(&p, 6);
    p.bytes[p.length - 1] = 0; /* the last of 63 nodes is a NOT: one more */
    CHECK("node 64", WITH(&p, "", 8, 65));
    CHECK("node 64", WITH(&p, "\x80", 8, 65));
    CHECK("node 64", WITH(&p, "\xFF\xFF", 8, 65));
    CHECK("node 64", WITH(&p, "\x80\0", 1, 65));
    CHECK("node 64", WITH(&p, "\x80\x80\x80", 1, 65));
    CHECK("node 64", WITH(&p, "\x06", 2, 65));
    p.length = 0;
    PUT(&p, 1, 10, 1, 0);
    CHECK("divisor", WITH(&p, "\x80\x80", 8, 4));
    CHECK("divisor", WITH(&p, "\x80\x80\x02", 2, 4));
    p.length = 0;
    PUT(&p, 1, 6, 1, 0, 0);
    CHECK("off", WITH(&p, "", 8, 5));
    CHECK("off", WITH(&p, "\x80", 8, 5));
    CHECK("off", WITH(&p, "\0", 2, 5));

    /* After a 2 or a 1 that stands before it. */
    p.length = 0;
    PUT(&p, 1, 2, 234);
    CHECK("2 then 8", WITH(&p, "", 2, 2));
    CHECK("2 then 8", WITH(&p, "\x80", 2, 2));
    p.length = 0;
    PUT(&p, 1, 2);
    CHECK("1 then 8", WITH(&p, "\x80\0", 1, 2));
    CHECK("1 then 8", WITH(&p, "\x80\0\x80", 1, 2));
    p.length = 0;
    PUT(&p, 1, 7, 2, 0, 2, 1, 34);
    CHECK("extra", WITH(&p, "\x80", 2, 7));

    /* Before 3 and 4, wherever it stands: these wait for the whole program. */
    p.length = 0;
    PUT(&p, 2, 2, 39);
    CHECK("3 then 8", WITH(&p, "", 8, 3));
    CHECK("3 then 8", WITH(&p, "\x80", 8, 3));
    CHECK("3 then 8", WITH(&p, "\0\x02\x80\x80", 8, 5));
    CHECK("3 then 8", WITH(&p, "\0\x02\0\0", 8, 7));
    CHECK("3 then 8", WITH(&p, "\0\x02\0\0\x01", 8, 8));
    CHECK("3 then 1", WITH(&p, "\0\x02\0\0\x01\x80\0", 1, 8));
    CHECK("3", WITH(&p, "\0\x02\0\0\x01\0", 3, 2));
    p.length = 0;
    PUT(&p, 1, 12, 1, 8);
    CHECK("no word then 8", WITH(&p, "\0", 8, 5));
    CHECK("no word then 8", WITH(&p, "\0\0", 8, 6));
    CHECK("no word", WITH(&p, "\0\0\0", 3, 3));
    p.length = 0;
    put_large(&p);
    PUT(&p, 0, 1, 1, 7, 7, 7);
    CHECK("4 then 8", WITH(&p, "", 8, p.length));
    CHECK("4 then 8", WITH(&p, "\x80", 8, p.length));
    CHECK("4 then 1", WITH(&p, "\x80\0", 1, p.length));
    CHECK("4", WITH(&p, "\0", 4, 0));

    /* Before 5 and 6. */
    p.length = 0;
    PUT(&p, 1, 7, 2, 0, 2, 1);
    put_state(&state);
    state.places[199].pins = 16;
    CHECK("8 before 5", scan_refused(p.bytes, p.length, &state, 8, 6));
    put_state(&state);
    state.time = UINT64_MAX;
    state.journal.missed = UINT64_MAX;
    CHECK("8 before 6", scan_refused(p.bytes, p.length, &state, 8, 6));
}

static void test_kinds(void)
{
    static const bool p9[] = {false, false, false, true};
    static const bool p10[] = {true, false, false, true};
    static const bool p13[] = {true, true, false, false};
    static const int16_t p13_x[] = {10, 4, 3, 9};
    static program p;
    oracle_state state;
    oracle_answer s;
    unsigned i;

    p.length = 0;
    PUT(&p, 1, 0, 1, 6, 3, 7, 7, 0);
    oracle_fresh(&state);
    s = oracle_scan(p.bytes, p.length, &state, 1, 0, NO_WORDS);
    CHECK("P8", s.refusal == 0 && s.steps == 2 && !state.places[0].output);

    p.length = 0;
    PUT(&p, 1, 4, 1, 0, 0, 50, 50, 0);
    oracle_fresh(&state);
    for (i = 0; i < 4; i++) {
        oracle_scan(p.bytes, p.length, &state, 20, 0, NO_WORDS);
        CHECK("P9", state.places[0].output == p9[i]);
    }

    p.length = 0;
    PUT(&p, 1, 6, 1, 0, 3, 2, 0);
    oracle_fresh(&state);
    for (i = 0; i < 4; i++) {
        oracle_scan(p.bytes, p.length, &state, 4, 0, NO_WORDS);
        CHECK("P10", state.places[0].output == p10[i]);
    }

    p.length = 0;
    PUT(&p, 1, 10, 1, 32768 - 7, 32768 + 2, 32768, 33768 + 1, 0);
    oracle_fresh(&state);
    oracle_scan(p.bytes, p.length, &state, 1, 0, NO_WORDS);
    CHECK("P11", state.places[0].word == -3 && !state.places[0].output);

    p.length = 0;
    PUT(&p, 1, 8, 2, 3, 0, 0, 32768, 0);
    oracle_fresh(&state);
    state.places[0].word = 32767;
    oracle_scan(p.bytes, p.length, &state, 1, 3, NO_WORDS);
    CHECK("P12", state.places[0].word == 32767 && state.places[0].output);

    p.length = 0;
    PUT(&p, 1, 12, 1, 0, 33768 + 10, 33768 + 4, 0);
    oracle_fresh(&state);
    for (i = 0; i < 4; i++) {
        int16_t words[ORACLE_ANALOGS] = {0};

        words[0] = p13_x[i];
        oracle_scan(p.bytes, p.length, &state, 1, 0, words);
        CHECK("P13", state.places[0].output == p13[i]);
    }
}

/* The pins of a DL as they are stored; BEYOND are the two bits that are none. */
enum { NONE = 0, I = 1, C = 2, BEYOND = 12 };

/* A program of one DL whose pins are the input bits 0 and 1. */
static void put_delay(program *p, uint32_t unit, uint32_t on, uint32_t off)
{
    p->length = 0;
    PUT(p, 1, 4, 2, 3, unit, on, off, 0);
}

/* The record that a scan of this DL leaves from the given one. */
static oracle_place after_scan(const program *p, oracle_place place, uint16_t elapsed,
                               unsigned now)
{
    oracle_state state;
    oracle_answer s;

    oracle_fresh(&state);
    state.places[0] = place;
    s = oracle_scan(p->bytes, p->length, &state, elapsed, now, NO_WORDS);
    CHECK("DL", s.refusal == 0 && s.steps == 1);
    CHECK("DL stores its pins", state.places[0].pins == now);
    CHECK("DL keeps its word", state.places[0].word == place.word);
    return state.places[0];
}

/* Single scans of a DL with on 50, off 20: the record given, the scan, and the
 * record that the paper asks for. */
static void test_delay_scans(void)
{
    static const struct {
        const char *name;
        unsigned last;
        bool was;
        uint32_t ticks;
        uint16_t elapsed;
        unsigned now;
        bool is;
        uint32_t left;
    } rows[] = {
        {"DL grows", I, false, 0, 20, I, false, 20},
        {"DL grows", NONE, true, 0, 19, NONE, true, 19},
        {"DL grows by 0", I, false, 49, 0, I, false, 49},
        {"DL just not reached", I, false, 29, 20, I, false, 49},
        {"DL reached", I, false, 30, 20, I, true, 0},
        {"DL reached", NONE, true, 0, 20, NONE, false, 0},
        {"DL passed", I, false, 31, 20, I, true, 0},
        {"DL passed in one scan", I, false, 0, 65535, I, true, 0},
        {"DL given at its time", I, false, 50, 0, I, true, 0},
        {"DL given past it", I, false, 6553399, 0, I, true, 0},
        {"DL given past it", NONE, true, 6553399, 65535, NONE, false, 0},

        {"DL I rises", NONE, false, 0, 65535, I, false, 0},
        {"DL I rises", NONE, false, 49, 1, I, false, 0},
        {"DL I rises, given past it", NONE, false, 6553399, 65535, I, false, 0},
        {"DL I falls", I, true, 0, 65535, NONE, true, 0},
        {"DL I falls", I, true, 19, 1, NONE, true, 0},
        {"DL I falls, given past it", I, true, 6553399, 0, NONE, true, 0},

        {"DL I as the output", NONE, false, 7, 9, NONE, false, 0},
        {"DL I as the output", I, true, 7, 9, I, true, 0},
        {"DL I as the output again", I, false, 7, 9, NONE, false, 0},
        {"DL I as the output again", NONE, true, 7, 9, I, true, 0},

        {"DL C falls", I | C, false, 0, 65535, I, false, 0},
        {"DL C falls", I | C, false, 49, 1, I, false, 0},
        {"DL C falls", C, true, 19, 1, NONE, true, 0},
        {"DL C falls, I as the output", C, false, 7, 9, NONE, false, 0},
        {"DL C falls, I rises", C, false, 49, 65535, I, false, 0},
        {"DL C falls, I falls", I | C, true, 19, 65535, NONE, true, 0},

        {"DL C rises", I, true, 7, 9, I | C, false, 0},
        {"DL C rises", I, false, 49, 65535, I | C, false, 0},
        {"DL C rises, I falls", I, true, 19, 65535, C, false, 0},
        {"DL C held", I | C, true, 6553399, 65535, I | C, false, 0},
        {"DL C held, I rises", C, false, 49, 65535, I | C, false, 0},

        {"DL no change beyond", 4 | I, false, 30, 20, I, true, 0},
        {"DL no change beyond", 8 | I, false, 29, 20, I, false, 49},
        {"DL no change beyond", BEYOND, true, 0, 20, NONE, false, 0},
        {"DL I rises, bits beyond", BEYOND, false, 49, 65535, I, false, 0},
        {"DL C falls, bits beyond", BEYOND | I | C, false, 49, 65535, I, false, 0},
    };
    static program p;
    size_t i;

    put_delay(&p, 0, 50, 20);
    for (i = 0; i < sizeof rows / sizeof rows[0]; i++) {
        oracle_place place = {rows[i].ticks, -9, (uint8_t)rows[i].last, rows[i].was};

        place = after_scan(&p, place, rows[i].elapsed, rows[i].now);
        CHECK(rows[i].name, place.output == rows[i].is);
        CHECK(rows[i].name, place.ticks == rows[i].left);
    }
}

/* Whether a DL left what it has to, the paper's sentences one after the other. */
static bool delay_right(const oracle_place *before, const oracle_place *after, unsigned now,
                        uint16_t elapsed, uint64_t on, uint64_t off)
{
    bool i = now % 2 != 0, last_i = before->pins % 2 != 0;
    bool c = now / 2 != 0, last_c = before->pins / 2 % 2 != 0;
    uint64_t time = i ? on : off;

    if (c)
        return !after->output && after->ticks == 0;
    if (i == before->output)
        return after->output == i && after->ticks == 0;
    if (time == 0)
        return after->output == i && after->ticks == 0;
    if (i != last_i || c != last_c)
        return after->output != i && after->ticks == 0;
    if (before->ticks + (uint64_t)elapsed >= time)
        return after->output == i && after->ticks == 0;
    return after->output != i && after->ticks == before->ticks + elapsed;
}

/* A DL from every last pins and output of a good state, with every pins now. */
static void check_delay(const program *p, uint32_t ticks, uint16_t elapsed, uint32_t on,
                        uint32_t off)
{
    unsigned n;

    for (n = 0; n < 16 * 2 * 4; n++) {
        oracle_place before = {ticks, 5, n % 16, n / 16 % 2};
        oracle_place after = after_scan(p, before, elapsed, n / 32);

        CHECK("DL at its bounds", delay_right(&before, &after, n / 32, elapsed, on, off));
    }
}

/* Times with each unit, elapsed and ticks, all at their bounds. */
static void test_delay_bounds(void)
{
    static const uint32_t times[] = {0, 1, 32767};
    static const uint32_t units[] = {1, 10, 100};
    static const uint16_t elapsed[] = {0, 1, 65535};
    static program p;
    unsigned n, k;

    for (n = 0; n < 3 * 3 * 3 * 3; n++) {
        uint32_t unit = n % 3;
        uint32_t on = times[n / 3 % 3], off = times[n / 9 % 3];
        uint16_t e = elapsed[n / 27];
        uint32_t on_ticks = on * units[unit], off_ticks = off * units[unit];
        const uint32_t ticks[] = {
            0, 1, on_ticks - e - 1, on_ticks - e, on_ticks - e + 1, on_ticks,
            off_ticks - e - 1, off_ticks - e, off_ticks - e + 1, off_ticks, 6553398, 6553399
        };

        put_delay(&p, unit, on, off);
        for (k = 0; k < sizeof ticks / sizeof ticks[0]; k++)
            if (ticks[k] <= 6553399) /* not below 0 */
                check_delay(&p, ticks[k], e, on_ticks, off_ticks);
    }
}

/* A scan of a run, and what it leaves. */
typedef struct {
    uint16_t elapsed;
    unsigned now;
    bool output;
    uint32_t ticks;
} delay_scan;

static void run_delay(const char *name, const program *p, const delay_scan *scans, size_t count)
{
    oracle_place place = {0, 0, 0, false};

    while (count-- > 0) {
        place = after_scan(p, place, scans->elapsed, scans->now);
        CHECK(name, place.output == scans->output && place.ticks == scans->ticks);
        scans++;
    }
}

#define RUN_DELAY(name, p, ...) \
    run_delay((name), (p), (const delay_scan[]){__VA_ARGS__}, \
              sizeof((const delay_scan[]){__VA_ARGS__}) / sizeof(delay_scan))

/* Delays from fresh, scan after scan. */
static void test_delay_runs(void)
{
    static program p;

    put_delay(&p, 0, 50, 20);
    RUN_DELAY("the request's 400 ms", &p, {40, I, false, 0}, {10, I, false, 10},
              {39, I, false, 49}, {1, I, true, 0}, {1, I, true, 0});
    RUN_DELAY("I back before the time", &p, {49, I, false, 0}, {49, I, false, 49},
              {49, NONE, false, 0}, {49, I, false, 0}, {49, I, false, 49}, {0, I, false, 49},
              {1, I, true, 0}, {19, NONE, true, 0}, {19, NONE, true, 19}, {1, I, true, 0},
              {19, NONE, true, 0}, {19, NONE, true, 19}, {1, NONE, false, 0});
    RUN_DELAY("C on the way, and its fall", &p, {50, I, false, 0}, {49, I, false, 49},
              {9, I | C, false, 0}, {65535, I, false, 0}, {49, I, false, 49}, {1, I, true, 0},
              {0, I | C, false, 0}, {0, I, false, 0}, {50, I, true, 0});
    RUN_DELAY("I on while held cleared: one change", &p, {5, C, false, 0},
              {65535, I | C, false, 0}, {65535, I | C, false, 0}, {65535, I, false, 0},
              {50, I, true, 0});
    RUN_DELAY("I on in the scan of the release: one change", &p, {5, C, false, 0},
              {65535, I, false, 0}, {50, I, true, 0});
    RUN_DELAY("fresh with I off: no change", &p, {65535, NONE, false, 0},
              {65535, I, false, 0}, {65535, I, true, 0});
    put_delay(&p, 2, 0, 0);
    RUN_DELAY("times of 0", &p, {0, I, true, 0}, {65535, NONE, false, 0}, {65535, I, true, 0},
              {0, I | C, false, 0}, {0, I, true, 0}, {0, C, false, 0}, {0, I, true, 0},
              {0, NONE, false, 0});
    put_delay(&p, 0, 0, 1);
    RUN_DELAY("off time only", &p, {0, I, true, 0}, {65535, NONE, true, 0},
              {0, NONE, true, 0}, {1, NONE, false, 0});
    put_delay(&p, 0, 1, 0);
    RUN_DELAY("on time only", &p, {65535, I, false, 0}, {0, I, false, 0}, {1, I, true, 0},
              {0, NONE, false, 0});
}

/* All 32 alarms on, off, on; one take, off, on. */
static void test_journal(void)
{
    static program p;
    oracle_state state, before;
    oracle_answer s;
    oracle_taken t;
    unsigned i;

    p.length = 0;
    PUT(&p, 1, 0, 6, 32);
    for (i = 0; i < 32; i++)
        put(&p, 2 + i);
    oracle_fresh(&state);
    before = state;
    t = oracle_take(&state);
    CHECK("journal", t.refusal == 0 && !t.found && t.entry.time == 0);
    CHECK("journal", memcmp(&state, &before, sizeof state) == 0);

    s = oracle_scan(p.bytes, p.length, &state, 5, UINT32_MAX, NO_WORDS);
    CHECK("journal", s.rises == 32 && s.alarms == UINT32_MAX);
    oracle_scan(p.bytes, p.length, &state, 5, 0, NO_WORDS);
    oracle_scan(p.bytes, p.length, &state, 5, UINT32_MAX, NO_WORDS);
    CHECK("journal", state.journal.held == 32 && state.journal.missed == 32);
    t = oracle_take(&state);
    CHECK("journal", t.found && t.entry.number == 0 && t.entry.time == 5);
    CHECK("journal", state.journal.held == 31);
    CHECK("journal", state.journal.entries[0].number == 1);
    CHECK("journal", state.journal.entries[31].time == 0);
    oracle_scan(p.bytes, p.length, &state, 5, 0, NO_WORDS);
    oracle_scan(p.bytes, p.length, &state, 5, UINT32_MAX, NO_WORDS);
    CHECK("journal", state.journal.held == 32 && state.journal.missed == 63);
    CHECK("journal", state.journal.entries[31].number == 0);
    CHECK("journal", state.journal.entries[31].time == 25);
}

/* Both calls refuse this state so and leave it as it is. */
static bool state_refused(oracle_state *state, unsigned refusal)
{
    static const uint8_t p1[] = {0x01, 0x07, 0x02, 0x00, 0x02, 0x01, 0x22};
    oracle_state before = *state;
    oracle_answer s = oracle_scan(p1, sizeof p1, state, 1, 1, NO_WORDS);
    bool good = s.refusal == refusal && s.place == 0 && s.alarms == 0
        && s.steps == 0 && s.rises == 0;

    if (refusal == ORACLE_BAD_STATE) {
        oracle_taken t = oracle_take(state);

        good = good && t.refusal == refusal && !t.found
            && t.entry.number == 0 && t.entry.time == 0;
    }
    return good && memcmp(state, &before, sizeof before) == 0;
}

static void test_states(void)
{
    oracle_state state;

    oracle_fresh(&state);
    state.places[199].ticks = 6553400;
    CHECK("ticks", state_refused(&state, 5));
    oracle_fresh(&state);
    state.places[199].pins = 16;
    CHECK("pins", state_refused(&state, 5));
    oracle_fresh(&state);
    state.journal.held = 33;
    CHECK("held", state_refused(&state, 5));
    state.journal.held = UINT64_MAX;
    CHECK("held", state_refused(&state, 5));
    state.journal.held = 1;
    state.journal.entries[0].number = 32;
    CHECK("entry", state_refused(&state, 5));
    state.journal.entries[0].number = 31;
    state.journal.entries[1].time = 1;
    CHECK("entry beyond", state_refused(&state, 5));
    oracle_fresh(&state);
    state.time = UINT64_MAX;
    CHECK("time", state_refused(&state, 6));
    state.time = 0;
    state.journal.missed = UINT64_MAX - 31;
    CHECK("missed", state_refused(&state, 6));
    state.journal.held = 33;
    CHECK("5 before 6", state_refused(&state, 5));
}

static uint64_t random_state = 1;

static uint64_t random_number(void)
{
    uint64_t z = random_state += 0x9E3779B97F4A7C15u;

    z = (z ^ z >> 30) * 0xBF58476D1CE4E5B9u;
    z = (z ^ z >> 27) * 0x94D049BB133111EBu;
    return z ^ z >> 31;
}

/* Content nobody checked: a refusal leaves the state, an answer keeps it good. */
static void test_any_content(void)
{
    static uint8_t bytes[64];
    oracle_state state, before;
    unsigned round, i;

    for (round = 0; round < 200000; round++) {
        size_t length = random_number() % sizeof bytes;
        oracle_answer s;
        oracle_taken t;

        for (i = 0; i < length; i++)
            bytes[i] = (uint8_t)(random_number() % (round % 2 ? 256 : 40));
        if (length > 0 && round % 4)
            bytes[0] = (uint8_t)(1 + round % 3);
        oracle_fresh(&state);
        for (i = 0; i < 4; i++) {
            state.places[i].pins = (uint8_t)(random_number() % 17);
            state.places[i].ticks = (uint32_t)(random_number() % 6553410);
            state.places[i].word = (int16_t)(random_number() % 65536 - 32768);
            state.places[i].output = random_number() & 1;
        }
        state.journal.held = random_number() % 3;
        state.journal.entries[0].time = random_number() & 1;
        state.journal.entries[1].number = (uint8_t)(random_number() % 34);
        state.time = random_number() | (round % 8 ? 0 : UINT64_MAX - 9);
        before = state;
        s = oracle_scan(bytes, length, &state, (uint16_t)random_number(),
                        (uint32_t)random_number(), NO_WORDS);
        if (s.refusal != 0) {
            CHECK("refused", memcmp(&state, &before, sizeof state) == 0);
            CHECK("refused", s.alarms == 0 && s.steps == 0 && s.rises == 0);
        }
        before = state;
        t = oracle_take(&state);
        CHECK("take", s.refusal != 0 || t.refusal == 0);
        if (!t.found)
            CHECK("take", memcmp(&state, &before, sizeof state) == 0);
    }
}

int main(void)
{
    test_acceptance();
    test_memory();
    test_prefixes();
    test_cut();
    test_kinds();
    test_delay_scans();
    test_delay_bounds();
    test_delay_runs();
    test_journal();
    test_states();
    test_any_content();
    if (failures == 0)
        puts("all examples hold");
    return failures != 0;
}
