/* Runs what docs/LISTING.md says, sentence by sentence and at every bound, then
 * what has to hold for any program and any listing. */
#include <stdbool.h>
#include <stdio.h>
#include <stdlib.h>
#include <string.h>

#include "controller.h"
#include "formula.h"
#include "listing.h"
#include "listings.h"
#include "recordings.h"
#include "texts.h"

enum {
    ENOUGH = 32768, /* for any program and its listing */
    LONGEST_LISTING = 22129,
    LONGEST_LINE = 320,
    LARGEST_PROGRAM = 6367
};

static int failures;

static void fail(const char *what, const char *expected, const char *got)
{
    printf("%.100s: expected %.300s, got %.300s\n", what, expected, got);
    if (++failures == 50) {
        puts("and so on");
        exit(1);
    }
}

static void must(bool holds, const char *what, uint64_t seed)
{
    char number[32];

    if (holds)
        return;
    snprintf(number, sizeof number, "seed %llu", (unsigned long long)seed);
    fail(number, what, "not so");
}

/* ---- Bytes ---- */

typedef struct {
    uint8_t *bytes;
    size_t length;
    size_t room;
} text;

static text new_text(void)
{
    text t = {NULL, 0, 0};

    return t;
}

static void add_bytes(text *t, const void *bytes, size_t length)
{
    while (t->room - t->length < length) {
        t->room = t->room == 0 ? 256 : 2 * t->room;
        t->bytes = realloc(t->bytes, t->room);
        if (t->bytes == NULL)
            exit(2);
    }
    if (length > 0)
        memcpy(t->bytes + t->length, bytes, length);
    t->length += length;
}

static void add(text *t, const char *s)
{
    add_bytes(t, s, strlen(s));
}

static void add_times(text *t, size_t times, const char *s)
{
    while (times-- > 0)
        add(t, s);
}

static void add_number(text *t, uint32_t value)
{
    uint8_t bytes[3] = {(uint8_t)(value & 0x7F), (uint8_t)(value >> 7 & 0x7F), (uint8_t)(value >> 14)};
    size_t groups = value < 128 ? 1 : value < 16384 ? 2 : 3;
    size_t i;

    for (i = 0; i + 1 < groups; i++)
        bytes[i] |= 0x80;
    add_bytes(t, bytes, groups);
}

/* Adds bytes that are given in hexadecimal digits, with spaces between them. */
static void add_hex(text *t, const char *hex)
{
    for (; *hex != '\0'; hex++) {
        unsigned byte;
        uint8_t one;

        if (*hex == ' ')
            continue;
        if (sscanf(hex, "%2x", &byte) != 1)
            exit(2);
        one = (uint8_t)byte;
        add_bytes(t, &one, 1);
        hex++;
    }
}

static bool same(const uint8_t *a, size_t a_length, const uint8_t *b, size_t b_length)
{
    return a_length == b_length && (a_length == 0 || memcmp(a, b, a_length) == 0);
}

/* ---- The calls, with all that holds for each ---- */

typedef oracle_exchange call(const uint8_t *, size_t, uint8_t *, size_t);

static struct {
    oracle_exchange answer;
    uint8_t bytes[ENOUGH];
} last; /* call */

static uint8_t filling(size_t place)
{
    return (uint8_t)(0xA5 ^ place * 29);
}

/* Calls with a buffer of just that room; nothing but the result may change. */
static oracle_exchange call_once(call *f, const uint8_t *given, size_t length, size_t room)
{
    uint8_t *lent = room > 0 ? malloc(room) : NULL;
    uint8_t *copy = length > 0 ? malloc(length) : NULL;
    oracle_exchange answer;
    size_t i;

    if ((room > 0 && lent == NULL) || (length > 0 && copy == NULL))
        exit(2);
    for (i = 0; i < room; i++)
        lent[i] = filling(i);
    if (length > 0)
        memcpy(copy, given, length);
    answer = f(copy, length, lent, room);
    must(same(copy, length, given, length), "what is read stays", 0);
    must(answer.length <= room, "a result no longer than the room", 0);
    if (answer.refusal != 0)
        must(answer.length == 0, "no length if refused", 0);
    else
        must(answer.place == 0 && answer.length > 0, "a length and no place if good", 0);
    for (i = answer.length; i < room; i++)
        if (lent[i] != filling(i))
            break;
    must(i == room, "the rest of the buffer stays", 0);
    if (answer.length > 0 && answer.length <= ENOUGH)
        memcpy(last.bytes, lent, answer.length);
    free(lent);
    free(copy);
    return answer;
}

static bool equal_answers(oracle_exchange a, oracle_exchange b)
{
    return a.refusal == b.refusal && a.place == b.place && a.length == b.length;
}

/* Calls with buffers of several lengths; the answer and the result are in last. */
static void call_all(call *f, const uint8_t *given, size_t length)
{
    static const oracle_exchange is_short = {ORACLE_SHORT, 0, 0};
    static uint8_t kept[ENOUGH];
    size_t room = length < ENOUGH / 10 ? 10 * length + 100 : ENOUGH;
    oracle_exchange answer = call_once(f, given, length, room);
    size_t exact = answer.length;

    last.answer = answer;
    must(answer.refusal != ORACLE_SHORT, "room enough", 0);
    if (answer.refusal != 0) {
        must(equal_answers(call_once(f, given, length, 0), answer), "12 comes last", 0);
        must(equal_answers(call_once(f, given, length, 1), answer), "12 comes last", 0);
        return;
    }
    memcpy(kept, last.bytes, exact);
    must(equal_answers(call_once(f, given, length, exact), answer), "an exact buffer", 0);
    must(same(kept, exact, last.bytes, exact), "the same result", 0);
    must(equal_answers(call_once(f, given, length, exact + 1), answer), "a longer buffer", 0);
    must(same(kept, exact, last.bytes, exact), "the same result", 0);
    must(equal_answers(call_once(f, given, length, exact - 1), is_short), "a buffer one too short", 0);
    must(equal_answers(call_once(f, given, length, 0), is_short), "no buffer", 0);
}

static void import(const uint8_t *given, size_t length)
{
    call_all(oracle_import_listing, given, length);
}

static void export(const uint8_t *given, size_t length)
{
    call_all(oracle_export_program, given, length);
}

/* The last answer: refusal, place and length, and the bytes of a short result. */
static const char *answer_line(void)
{
    static char line[1000];
    size_t i;
    int used = snprintf(line, sizeof line, "%u %zu %zu ", last.answer.refusal, last.answer.place,
                        last.answer.length);

    for (i = 0; i < last.answer.length && i < 400; i++)
        used += snprintf(line + used, sizeof line - (size_t)used, "%02X", last.bytes[i]);
    return line;
}

/* ---- Expectations ---- */

/* The first bytes of a text, to be printed. */
static const char *shown(const uint8_t *bytes, size_t length)
{
    static char line[101];
    size_t i;

    for (i = 0; i < length && i < sizeof line - 1; i++)
        line[i] = bytes[i] >= 32 && bytes[i] <= 126 ? (char)bytes[i] : '?';
    line[i] = '\0';
    return line;
}

static void expect_refused(const uint8_t *given, size_t length, unsigned refusal, size_t place)
{
    char expected[80];

    if (last.answer.refusal == refusal && last.answer.place == place)
        return;
    snprintf(expected, sizeof expected, "%u %zu", refusal, place);
    fail(shown(given, length), expected, answer_line());
}

/* A listing that is refused. */
static void refuses(const char *listing, unsigned refusal, size_t place)
{
    import((const uint8_t *)listing, strlen(listing));
    expect_refused((const uint8_t *)listing, strlen(listing), refusal, place);
}

/* A listing that stands for those bytes. */
static void reads_bytes(const text *listing, const text *program)
{
    import(listing->bytes, listing->length);
    if (last.answer.refusal != 0
        || !same(last.bytes, last.answer.length, program->bytes, program->length))
        fail(shown(listing->bytes, listing->length), "other bytes", answer_line());
}

static void reads(const char *listing, const char *hex)
{
    text given = new_text();
    text program = new_text();

    add(&given, listing);
    add_hex(&program, hex);
    reads_bytes(&given, &program);
    free(given.bytes);
    free(program.bytes);
}

/* Reads, and is what is exported of those bytes. */
static void stands(const char *listing, const char *hex)
{
    text program = new_text();

    reads(listing, hex);
    add_hex(&program, hex);
    export(program.bytes, program.length);
    if (last.answer.refusal != 0
        || !same(last.bytes, last.answer.length, (const uint8_t *)listing, strlen(listing)))
        fail(listing, "this export", answer_line());
    free(program.bytes);
}

/* The formula of a BL, as it is exported, and the bytes of its nodes. */
static void formula_stands(const char *formula, const char *hex)
{
    char listing[400], bytes[400];

    snprintf(listing, sizeof listing, "B000 BL %s\nALARMS\n", formula);
    snprintf(bytes, sizeof bytes, "01 00 %s 00", hex);
    stands(listing, bytes);
}

/* A BL with that formula behind its name. */
static void formula_reads(const char *formula, const char *hex)
{
    char listing[400], bytes[400];

    snprintf(listing, sizeof listing, "B000 BL%s\nALARMS\n", formula);
    snprintf(bytes, sizeof bytes, "01 00 %s 00", hex);
    reads(listing, bytes);
}

/* A first line that is bad, before good ones. */
static void bad_line(const char *line)
{
    char listing[400];

    snprintf(listing, sizeof listing, "%s\nALARMS\n", line);
    refuses(listing, 7, 0);
}

/* One line of a block that is good, and its bytes. */
static void good_line(const char *line, const char *hex)
{
    char listing[400], bytes[400];

    snprintf(listing, sizeof listing, "%s\nALARMS\n", line);
    snprintf(bytes, sizeof bytes, "01 %s 00", hex);
    reads(listing, bytes);
}

/* ---- The document, front to back ---- */

static const char EXAMPLE[] =
    "B000 BL I01 & !(B003 | I02)\n"
    "B001 DL I=I01 C=B000 UNIT=0 ON=50 OFF=0\n"
    "B002 OG I=I03 A=-7 B=2 C=0 X=A01\n"
    "B003 CP I=I04 RELATION=2 A=W002 B=-120\n"
    "ALARMS B000 I05 0\n";

static const char EXAMPLE_BYTES[] =
    "04"
    "00 01 08 00 02 2B 09"
    "04 02 22 00 32 00"
    "0A 04 F9FF01 828002 808002 00"
    "09 05 02 0A F08602"
    "03 22 06 00";

static void test_example(void)
{
    size_t length = strlen(EXAMPLE);
    size_t i, start = 0;

    stands(EXAMPLE, EXAMPLE_BYTES);
    /* It may be cut anywhere: it is never taken for a shorter program. */
    for (i = 0; i < length; i++) {
        import((const uint8_t *)EXAMPLE, i);
        expect_refused((const uint8_t *)EXAMPLE, i, 7, start);
        if (EXAMPLE[i] == '\n')
            start = i + 1;
    }
    import(NULL, 0);
    expect_refused(NULL, 0, 7, 0);
    export(NULL, 0);
    expect_refused(NULL, 0, 8, 0);
}

static void test_lines(void)
{
    static const char *const gaps[] = {"", " ", "  ", "                                          "};
    char listing[400];
    size_t i, j;
    unsigned byte;

    /* "Every line has an end, the last too: LF, or CR LF." */
    reads("B000 AL\nALARMS\n", "01 03 00 00 00");
    reads("B000 AL\r\nALARMS\r\n", "01 03 00 00 00");
    reads("B000 AL\nALARMS\r\n", "01 03 00 00 00");
    reads("B000 AL\r\nALARMS\n", "01 03 00 00 00");
    refuses("B000 AL\nALARMS", 7, 8);
    refuses("B000 AL\nALARMS\r", 7, 8);
    refuses("B000 AL\rALARMS\r", 7, 0);
    refuses("B000 AL\rALARMS\r\n", 7, 0);
    refuses("B000 AL\n\rALARMS\n\r", 7, 8);
    refuses("B000 AL\r\r\nALARMS\n", 7, 0);
    refuses("B000 AL\r \nALARMS\n", 7, 0);
    refuses("B000 AL", 7, 0);
    refuses("B000 AL\n", 7, 8);
    refuses("B000 AL\r\n", 7, 9);
    refuses("B000 AL\nB001", 7, 8);
    refuses("B000 AL\nB001 AL", 7, 8);
    refuses("B000 AL\nB001 AL\n", 7, 16);
    refuses("B000 AL\n ", 7, 8);
    refuses("B000 AL\n\r", 7, 8);
    refuses("", 7, 0);
    refuses(" ", 7, 0);
    refuses("\n", 7, 0);
    refuses("\r\n", 7, 0);
    refuses("A", 7, 0);

    /* "Words with one space or more between them, and spaces at both ends." */
    for (i = 0; i < 4; i++) {
        for (j = 0; j < 4; j++) {
            snprintf(listing, sizeof listing, "%sB000%s AL %sC=1%s\r\n%sALARMS %s0%s\n",
                     gaps[i], gaps[j], gaps[i], gaps[j], gaps[j], gaps[i], gaps[j]);
            reads(listing, "01 03 00 01 01 00");
        }
    }
    bad_line("B000AL");
    bad_line("B 000 AL");
    bad_line("B000 A L");
    bad_line("B000 ALI=1");
    bad_line("B000 AL I=1C=1");
    bad_line("B000 AL I =1");
    bad_line("B000 AL I= 1");
    bad_line("B000 AL I = 1");
    bad_line("B000 AL I=I 01");
    bad_line("B000 BLI01");
    bad_line("B000 BL!I01");
    bad_line("B000 BL(I01)");

    /* "There are no other bytes." */
    for (byte = 0; byte < 256; byte++) {
        text t = new_text();
        uint8_t one = (uint8_t)byte;

        add(&t, "B000");
        add_bytes(&t, &one, 1);
        add(&t, "AL I=1 C=1\nALARMS\n");
        import(t.bytes, t.length);
        must((last.answer.refusal == 0) == (byte == ' '), "no other byte between words", byte);
        must(last.answer.place == 0, "at the line", byte);
        t.length = 0;
        add_bytes(&t, &one, 1);
        add(&t, "B000 AL I=1 C=1\nALARMS\n");
        import(t.bytes, t.length);
        must((last.answer.refusal == 0) == (byte == ' '), "no other byte in front", byte);
        must(last.answer.place == 0, "at the line", byte);
        t.length = 0;
        add(&t, "B000 AL I=1 C=1");
        add_bytes(&t, &one, 1);
        add(&t, "\nALARMS\n");
        import(t.bytes, t.length);
        must((last.answer.refusal == 0) == (byte == ' ' || byte == '\r'), "no other byte behind", byte);
        must(last.answer.place == (byte == '\n' ? 16u : 0), "at the line", byte);
        t.length = 0;
        add(&t, "B000 AL\nALARMS\n");
        add_bytes(&t, &one, 1);
        import(t.bytes, t.length);
        expect_refused(t.bytes, t.length, 7, 15);
        free(t.bytes);
    }
    refuses("\nB000 AL\nALARMS\n", 7, 0);
    refuses("B000 AL\n\nALARMS\n", 7, 8);
    refuses("B000 AL\r\n\r\nALARMS\n", 7, 9);
    refuses("B000 AL\n   \nALARMS\n", 7, 8);
    refuses("B000 AL\nALARMS\n\n", 7, 15);
    refuses("B000 AL\nALARMS\r\n\r\n", 7, 16);
    refuses("B000 AL\nALARMS\n \n", 7, 15);
    refuses("B000 AL\nALARMS\nALARMS\n", 7, 15);
    refuses("B000 AL\nALARMS\nB001 AL\n", 7, 15);
    refuses("B000 AL\nALARMS\nB001 AL\nALARMS\n", 7, 15);
    refuses("B000 AL\nALARMS\nend of mail", 7, 15);
    bad_line("B000 AL # remark");
    bad_line("# B000 AL");
    bad_line("> B000 AL");
    bad_line("\xEF\xBB\xBF" "B000 AL");
}

static void test_blocks(void)
{
    text t = new_text();
    text program = new_text();
    char line[40];
    unsigned n;

    /* "In the order of their numbers, B000 to B199." */
    refuses("B001 AL\nALARMS\n", 7, 0);
    refuses("B000 AL\nB000 AL\nALARMS\n", 7, 8);
    refuses("B000 AL\nB002 AL\nALARMS\n", 7, 8);
    refuses("B000 AL\nB001 AL\nB000 AL\nALARMS\n", 7, 16);
    refuses("B001 AL\nB000 AL\nALARMS\n", 7, 0);
    bad_line("B00 AL");
    bad_line("B0 AL");
    bad_line("B AL");
    bad_line("B0000 AL");
    bad_line("b000 AL");
    bad_line("000 AL");
    bad_line("0 AL");
    bad_line("I01 AL");
    bad_line("W000 AL");
    bad_line("B-00 AL");
    bad_line("B000: AL");
    bad_line("B000");
    bad_line("AL");
    bad_line("B000 B000 AL");

    /* "The kind's two letters." */
    bad_line("B000 al");
    bad_line("B000 Al");
    bad_line("B000 A");
    bad_line("B000 ALA");
    bad_line("B000 XX");
    bad_line("B000 3");
    bad_line("B000 AL AL");
    bad_line("B000 PI");
    bad_line("B000 ALARMS");
    bad_line("B000 I=1");

    for (n = 0; n < 202; n++) {
        t.length = program.length = 0;
        if (n > 0) {
            unsigned i;

            add_number(&program, n);
            for (i = 0; i < n; i++) {
                snprintf(line, sizeof line, "B%03u AL C=B%03u\n", i, i);
                add(&t, line);
                add_number(&program, 3);
                add_number(&program, 0);
                add_number(&program, 34 + i);
            }
            add_number(&program, 0);
        }
        add(&t, "ALARMS\n");
        import(t.bytes, t.length);
        if (n == 0)
            expect_refused(t.bytes, t.length, 2, 0);
        else if (n <= 200)
            reads_bytes(&t, &program);
        else
            expect_refused(t.bytes, t.length, 7, 200 * 15);
    }

    /* Behind the last block there are only alarms. */
    t.length = 0;
    for (n = 0; n < 200; n++) {
        snprintf(line, sizeof line, "B%03u AL\n", n);
        add(&t, line);
    }
    import(t.bytes, t.length);
    expect_refused(t.bytes, t.length, 7, 1600);
    add(&t, "B199 AL\nALARMS\n");
    import(t.bytes, t.length);
    expect_refused(t.bytes, t.length, 7, 1600);
    free(t.bytes);
    free(program.bytes);
}

static void test_alarms(void)
{
    static const size_t counts[] = {0, 1, 31, 32, 33, 127, 128, 16383, 16384, 2097151, 2097152};
    static const char *const bad[] = {
        "ALARM", "ALARMS0", "ALARMSB000", "alarms", "Alarms", "ALARMS:", "ALARMS=0", "ALARMS,",
        "ALARMS 2", "ALARMS I=0", "ALARMS A01", "ALARMS W000", "ALARMS !I01", "ALARMS (0)",
        "ALARMS -0", "ALARMS 00", "ALARMS 01", "ALARMS 10", "ALARMS I00", "ALARMS I33",
        "ALARMS I1", "ALARMS I001", "ALARMS B200", "ALARMS B00", "ALARMS B0000", "ALARMS I01,I02",
        "ALARMS I01I02", "ALARMS 0\t0", "ALARMS 0 x", "ALARMS x 0", "ALARMS ALARMS",
        "ALARMS I01 & I02", "ALARMS 0=I01", "A", "BALARMS", "ALARMS\f"
    };
    char listing[200];
    size_t i;

    /* "`ALARMS`, and the bit that each alarm watches, in the order of the alarms." */
    stands("B000 AL\nALARMS 0\n", "01 03 00 00 01 00");
    stands("B000 AL\nALARMS 1 0 I01 I32 B000 0\n", "01 03 00 00 06 01 00 02 21 22 00");
    reads("B000 AL\n  ALARMS  1  0  \r\n", "01 03 00 00 02 01 00");
    for (i = 0; i < sizeof bad / sizeof bad[0]; i++) {
        snprintf(listing, sizeof listing, "B000 AL\n%s\n", bad[i]);
        refuses(listing, 7, 8);
    }
    refuses("ALARMS\nB000 AL\n", 7, 7);
    refuses("B000 AL\nALARMS B001\n", 3, 5);
    refuses("B000 AL\nALARMS 1 I01 B199 B198\n", 3, 7);

    /* How many there are. */
    for (i = 0; i < sizeof counts / sizeof counts[0]; i++) {
        text t = new_text();
        text program = new_text();
        size_t count = counts[i];

        add(&t, "B000 AL I=I03\nALARMS");
        add_times(&t, count, " 1");
        add(&t, "\n");
        if (count <= 32) {
            add_hex(&program, "01 03 04 00");
            add_number(&program, (uint32_t)count);
            while (count-- > 0)
                add_number(&program, 1);
            reads_bytes(&t, &program);
        } else if (count <= 2097151) {
            import(t.bytes, t.length);
            expect_refused(t.bytes, t.length, 2, 4);
        } else {
            import(t.bytes, t.length);
            expect_refused(t.bytes, t.length, 7, 14);
        }
        free(t.bytes);
        free(program.bytes);
    }
}

/* ---- Fields ---- */

/* The table of fields once more: sorts are b bit, w word, s +-, t time, and a
 * digit for the most of a number; and values with which the line is good. */
static const struct {
    const char *kind;
    const char *fields;
    const char *values;
    const char *shortest; /* exported if all bits are off */
} KIND[] = {
    {"BL", "", "", "BL 0"},
    {"SR", "S:b R:b PRIORITY:1", "I01 I02 0", "SR PRIORITY=0"},
    {"PL", "I:b MODE:1", "I01 0", "PL MODE=0"},
    {"AL", "I:b C:b", "I01 I02", "AL"},
    {"DL", "I:b C:b UNIT:2 ON:t OFF:t", "I01 I02 0 0 0", "DL UNIT=0 ON=0 OFF=0"},
    {"OS", "I:b C:b UNIT:2 TIME:t", "I01 I02 0 0", "OS UNIT=0 TIME=0"},
    {"FL", "I:b UNIT:2 ON:t OFF:t", "I01 0 1 1", "FL UNIT=0 ON=1 OFF=1"},
    {"CN", "I:b C:b PRESET:t", "I01 I02 0", "CN PRESET=0"},
    {"UD", "U:b D:b P:b C:b PRESET:s", "I01 I02 I03 I04 0", "UD PRESET=0"},
    {"CP", "I:b RELATION:5 A:w B:w", "I01 0 0 0", "CP RELATION=0 A=0 B=0"},
    {"OG", "I:b A:s B:s C:s X:w", "I01 0 1 0 0", "OG A=0 B=1 C=0 X=0"},
    {"ZC", "I:b MODE:1 L:w X:w H:w", "I01 0 0 0 0", "ZC MODE=0 L=0 X=0 H=0"},
    {"ST", "I:b X:w H:w L:w", "I01 0 0 0", "ST X=0 H=0 L=0"},
};

enum { KINDS = sizeof KIND / sizeof KIND[0], MOST_FIELDS = 5 };

typedef struct {
    unsigned kind;
    unsigned count;
    struct {
        char name[12];
        char sort;
        char value[40];
    } at[MOST_FIELDS];
} fields;

static fields fields_of(unsigned kind)
{
    const char *names = KIND[kind].fields;
    const char *values = KIND[kind].values;
    fields f;
    int used;

    memset(&f, 0, sizeof f);
    f.kind = kind;
    while (f.count < MOST_FIELDS
           && sscanf(names, " %11[A-Z]:%c%n", f.at[f.count].name, &f.at[f.count].sort, &used) == 2) {
        names += used;
        if (sscanf(values, " %39s%n", f.at[f.count].value, &used) != 1)
            exit(2);
        values += used;
        f.count++;
    }
    return f;
}

/* The number for a value that is good, by the sort; false if it is bad.  This
 * goes the other way: it writes down the good texts of a sort. */
static bool value_of(char sort, const char *value, uint32_t *code)
{
    char good[16];
    long n;

    for (n = 0; sort == 'b' && n < 234; n++) {
        snprintf(good, sizeof good, n < 2 ? "%ld" : n < 34 ? "I%02ld" : "B%03ld",
                 n < 2 ? n : n < 34 ? n - 1 : n - 34);
        if (strcmp(good, value) == 0) {
            *code = (uint32_t)n;
            return true;
        }
    }
    for (n = 0; sort == 'w' && n < 208; n++) {
        snprintf(good, sizeof good, n < 8 ? "A%02ld" : "W%03ld", n < 8 ? n + 1 : n - 8);
        if (strcmp(good, value) == 0) {
            *code = (uint32_t)n;
            return true;
        }
    }
    if (sort == 'b')
        return false;
    n = strtol(value, NULL, 10); /* or what it makes of others */
    if (n < (sort == 'w' || sort == 's' ? -32768 : 0))
        return false;
    if (n > (sort >= '0' && sort <= '9' ? sort - '0' : 32767))
        return false;
    snprintf(good, sizeof good, "%ld", n);
    *code = (uint32_t)(n + (sort == 'w' ? 33768 : sort == 's' ? 32768 : 0));
    return strcmp(good, value) == 0;
}

/* A listing of 200 blocks, so that every name is one of a block: the first is
 * that with the fields in the given order, left out where it is negative; the
 * others have a word. */
static void add_ordered(text *t, const fields *f, const int *order, unsigned count)
{
    char line[60];
    unsigned i;

    add(t, "B000 ");
    add(t, KIND[f->kind].kind);
    for (i = 0; i < count; i++) {
        if (order[i] < 0)
            continue;
        snprintf(line, sizeof line, " %s=%s", f->at[order[i]].name, f->at[order[i]].value);
        add(t, line);
    }
    add(t, "\n");
    for (i = 1; i < 200; i++) {
        snprintf(line, sizeof line, "B%03u CN PRESET=0\n", i);
        add(t, line);
    }
    add(t, "ALARMS\n");
}

/* The program of such a listing. */
static void add_program(text *t, const fields *f, const uint32_t *codes)
{
    unsigned i;

    add_number(t, 200);
    add_number(t, f->kind);
    for (i = 0; i < f->count; i++)
        add_number(t, codes[i]);
    for (i = 1; i < 200; i++)
        add_hex(t, "07 00 00 00");
    add_number(t, 0);
}

/* The fields in that order: good if it is said so, else the first line is bad.
 * If good, those left out are bits that are off. */
static void expect_fields(const fields *f, const int *order, unsigned count, bool good)
{
    text t = new_text();
    text program = new_text();
    uint32_t codes[MOST_FIELDS] = {0};
    unsigned i;

    for (i = 0; i < count; i++)
        if (order[i] >= 0 && !value_of(f->at[order[i]].sort, f->at[order[i]].value, &codes[order[i]]))
            good = false;
    add_ordered(&t, f, order, count);
    add_program(&program, f, codes);
    if (good) {
        reads_bytes(&t, &program);
    } else {
        import(t.bytes, t.length);
        expect_refused(t.bytes, t.length, 7, 0);
    }
    free(t.bytes);
    free(program.bytes);
}

static void test_one_field(fields *f, unsigned i)
{
    static const char *const values[] = {
        "0", "1", "2", "3", "5", "6", "9", "10", "99", "100", "12345", "32766", "32767", "32768",
        "-1", "-2", "-9", "-10", "-12345", "-32767", "-32768", "-32769", "65535", "65536", "99999",
        "100000", "4294967295", "4294967296", "18446744073709551616", "-4294967296",
        "100000000000000000000000001", "00", "01", "050", "000", "-0", "-00", "-01", "+0", "+1",
        "--1", "-", "+", "", "1.", "1.0", "0x1", "1e1", "1x", "x1", "1-", "1=1", "=1", "'1'",
        "I00", "I01", "I02", "I09", "I10", "I31", "I32", "I33", "I40", "I99", "I1", "I001", "I",
        "I0", "i01", "B000", "B001", "B099", "B100", "B198", "B199", "B200", "B999", "B00",
        "B0000", "b000", "B", "A00", "A01", "A08", "A09", "A10", "A1", "A001", "a01", "A", "W001",
        "W199", "W200", "W00", "W0001", "w001", "W", "-A01", "!I01", "(I01)", "I01&I01", "ON",
        "OFF", "on", "off"
    };
    int order[MOST_FIELDS + 1];
    char kept[40];
    size_t v;
    unsigned j;

    for (j = 0; j < f->count; j++)
        order[j] = (int)j;
    strcpy(kept, f->at[i].value);
    for (v = 0; v < sizeof values / sizeof values[0]; v++) {
        if (strcmp(KIND[f->kind].kind, "OG") == 0 && i == 2 && strcmp(values[v], "0") == 0)
            continue; /* that is refused with 2 */
        strcpy(f->at[i].value, values[v]);
        expect_fields(f, order, f->count, true);
    }
    strcpy(f->at[i].value, kept);

    /* left out */
    order[i] = -1;
    expect_fields(f, order, f->count, f->at[i].sort == 'b');
    order[i] = (int)i;
    if (f->at[i].sort == 'b') {
        strcpy(f->at[i].value, "0");
        expect_fields(f, order, f->count, true);
        strcpy(f->at[i].value, kept);
    }

    /* twice, there and at the end; another behind the last */
    for (j = f->count; j > i; j--)
        order[j] = order[j - 1];
    expect_fields(f, order, f->count + 1, false);
    for (j = 0; j < f->count; j++)
        order[j] = (int)j;
    order[f->count] = (int)i;
    expect_fields(f, order, f->count + 1, false);

    /* exchanged with each other one */
    for (j = 0; j < f->count; j++) {
        if (j == i)
            continue;
        order[i] = (int)j;
        order[j] = (int)i;
        expect_fields(f, order, f->count, false);
        order[i] = (int)i;
        order[j] = (int)j;
    }
}

/* A field by another name: bad unless the name is its own. */
static void test_names(fields *f, unsigned i)
{
    static const char *const names[] = {
        "S", "R", "PRIORITY", "I", "MODE", "C", "UNIT", "ON", "OFF", "TIME", "PRESET", "U", "D",
        "P", "RELATION", "A", "B", "X", "L", "H", "i", "mode", "Mode", "", "II", "PRESETS",
        "PRESE", "PRIO", "N", "M", "T"
    };
    int order[MOST_FIELDS];
    char kept[12];
    size_t n;
    unsigned j;

    for (j = 0; j < f->count; j++)
        order[j] = (int)j;
    strcpy(kept, f->at[i].name);
    for (n = 0; n < sizeof names / sizeof names[0]; n++) {
        strcpy(f->at[i].name, names[n]);
        expect_fields(f, order, f->count, strcmp(names[n], kept) == 0);
    }
    strcpy(f->at[i].name, kept);
}

static void test_fields(void)
{
    unsigned kind, i, left;

    for (kind = 1; kind < KINDS; kind++) {
        fields f = fields_of(kind);
        int order[MOST_FIELDS];

        for (i = 0; i < f.count; i++) {
            test_one_field(&f, i);
            test_names(&f, i);
        }
        /* any choice of fields left out: good if all of them are bits */
        for (left = 0; left < 1u << f.count; left++) {
            bool bits = true;

            for (i = 0; i < f.count; i++) {
                order[i] = left >> i & 1 ? -1 : (int)i;
                bits = bits && (order[i] >= 0 || f.at[i].sort == 'b');
            }
            expect_fields(&f, order, f.count, bits);
        }
    }
}

/* Every number about the bounds, in a time, a setting and a word. */
static void test_decimals(void)
{
    char listing[100], hex[60];
    text number = new_text();
    long n;

    for (n = -33000; n <= 33000; n++) {
        static const char *const lines[] = {
            "B000 CN PRESET=%ld\nALARMS\n", "B000 UD PRESET=%ld\nALARMS\n",
            "B000 ST X=%ld H=0 L=0\nALARMS\n"
        };
        static const char *const before[] = {"01070000", "010800000000", "010C00"};
        static const char *const behind[] = {"00", "00", "E88702E8870200"};
        static const long zero[] = {0, 32768, 33768};
        static const long low[] = {0, -32768, -32768};
        unsigned i;

        if (n > -32000 && n < 32000 && n % 37 != 0 && (n < -1100 || n > 1100))
            continue;
        for (i = 0; i < 3; i++) {
            size_t j, used = 0;

            snprintf(listing, sizeof listing, lines[i], n);
            if (n < low[i] || n > 32767) {
                refuses(listing, 7, 0);
                continue;
            }
            number.length = 0;
            add_number(&number, (uint32_t)(n + zero[i]));
            used += (size_t)snprintf(hex, sizeof hex, "%s", before[i]);
            for (j = 0; j < number.length; j++)
                used += (size_t)snprintf(hex + used, sizeof hex - used, "%02X", number.bytes[j]);
            snprintf(hex + used, sizeof hex - used, "%s", behind[i]);
            stands(listing, hex);
        }
    }
    free(number.bytes);
}

/* ---- Formulas ---- */

static void test_formulas(void)
{
    /* "With its spaces." */
    formula_reads(" I01&!(B000|I02)", "01 08 00 02 28 09");
    formula_reads("   I01  &  !  (  B000  |  I02  )  ", "01 08 00 02 28 09");
    formula_reads(" (I01)", "08");
    formula_reads(" ((((((((((((((((I01))))))))))))))))", "08");
    bad_line("B000 BL");
    bad_line("B000 BL ");
    bad_line("B000 BL I01 I02");
    bad_line("B000 BL I01 &");
    bad_line("B000 BL & I01");
    bad_line("B000 BL I01 ! & I02");
    bad_line("B000 BL I01 & !& I02");
    bad_line("B000 BL (I01");
    bad_line("B000 BL I01)");
    bad_line("B000 BL ()");
    bad_line("B000 BL I33");
    bad_line("B000 BL I00");
    bad_line("B000 BL B200");
    bad_line("B000 BL A01");
    bad_line("B000 BL W000");
    bad_line("B000 BL 2");
    bad_line("B000 BL 01");
    bad_line("B000 BL -0");
    bad_line("B000 BL i01");
    bad_line("B000 BL I01\t& I02");
    bad_line("B000 BL I=I01");
    bad_line("B000 BL =I01");
    bad_line("B000 BL I01 & I02 = 1");
    bad_line("B000 BL (((((((((((((((((I01)))))))))))))))))");
    refuses("B000 BL I01 &\n I02\nALARMS\n", 7, 0);

    /* "One space on both sides of an operator of two parts, no other space." */
    formula_stands("0", "06");
    formula_stands("1", "07");
    formula_stands("I01", "08");
    formula_stands("I32", "27");
    formula_stands("B000", "28");
    formula_stands("!I01", "00 08");
    formula_stands("!!!0", "00 00 00 06");
    formula_stands("I01 & I02", "01 08 09");
    formula_stands("I01 | I02", "02 08 09");
    formula_stands("I01 ^ I02", "03 08 09");
    formula_stands("I01 !& I02", "04 08 09");
    formula_stands("I01 !| I02", "05 08 09");
    formula_stands("!I01 !& !I02", "04 00 08 00 09");
    formula_stands("!(I01 & I02)", "00 01 08 09");
    formula_stands("!!(I01 !| I02) & !!I03", "01 00 00 05 08 09 00 00 0A");

    /* "A right part on the same level needs them, a left one does not." */
    formula_stands("I01 & (I02 & I03)", "01 08 01 09 0A");
    formula_stands("I01 !& I02 & I03", "01 04 08 09 0A");
    formula_stands("I01 & (I02 !& I03)", "01 08 04 09 0A");
    formula_stands("I01 & I02 !& I03", "04 01 08 09 0A");
    formula_stands("I01 ^ (I02 ^ I03)", "03 08 03 09 0A");
    formula_stands("I01 ^ I02 ^ I03", "03 03 08 09 0A");
    formula_stands("I01 | (I02 !| I03)", "02 08 05 09 0A");
    formula_stands("I01 !| I02 | I03", "02 05 08 09 0A");
    formula_stands("(I01 | I02) & (I03 ^ I04)", "01 02 08 09 03 0A 0B");
    formula_stands("(I01 | I02) ^ (I03 !| I04)", "03 02 08 09 05 0A 0B");
    formula_stands("I01 & I02 ^ I03 & I04", "03 01 08 09 01 0A 0B");
    formula_stands("I01 & I02 | I03 ^ I04", "02 01 08 09 03 0A 0B");

    /* names of blocks take two bytes from B088 on */
    refuses("B000 BL B087 & B088\nALARMS\n", 3, 3);
    refuses("B000 BL B000 & B088 & !B000\nALARMS\n", 3, 5);
}

/* The bytes of a block whose formula is over a bound, and of what is behind. */
static void test_large(void)
{
    static const struct {
        size_t times;
        const char *before;
        const char *middle;
        size_t closed;
        unsigned refusal;
        size_t place; /* among the bytes of the formula */
    } cases[] = {
        /* depth 16 and 17; the node that is too deep is the name */
        {15, "!", "0", 0, 0, 0},
        {16, "!", "0", 0, 2, 16},
        {17, "!", "0", 0, 2, 16},
        {1000000, "!", "0", 0, 2, 16},
        {1000000, "! ", "0", 0, 2, 16},
        {15, "1&", "0", 0, 0, 0},
        {16, "1&", "0", 0, 2, 16},
        {500000, "1&", "0", 0, 2, 16},
        {300000, "1 !| ", "0", 0, 2, 16},
        {300000, "!1 ^ ", "!0", 0, 2, 16},
        {300000, "(1)^", "0", 0, 2, 16},
        {15, "1^(", "0", 15, 0, 0},
        {16, "1^(", "0", 16, 2, 31},
        {16, "B000^(", "B000", 16, 2, 31},
        {16, "(0&1)^(", "B000", 16, 2, 14 * 4 + 2},
        {16, "!(", "0", 16, 2, 16},
        {17, "1^(", "0", 17, 7, 0},
        {17, "!(", "0", 17, 7, 0},
        /* 63 and 64 nodes */
        {7, "1&1&1&1|", "1&1&1&1", 0, 0, 0},
        {7, "1&1&1&1|", "1&1&1&!1", 0, 2, 63},
        {7, "1&1&1&1|", "1&1&1&!!!!!1", 0, 2, 63},
        {7, "1&1&1&1|", "1&1&!!1", 0, 0, 0},
        {8, "1&1&1&1|", "1", 0, 2, 63},
        /* both: the first of them */
        {12, "1&1&1&1|", "1", 0, 2, 63},
        {12, "1&1&1&1|", "!!!!!!!!!!!!!!!!1", 0, 2, 63},
        {13, "1&1&1&1|", "1", 0, 2, 16},
        {3, "1&1&1&1|", "!!!!!!!!!!!!!!!!1", 0, 2, 3 + 21 + 15},
    };
    size_t i, j;

    for (i = 0; i < sizeof cases / sizeof cases[0]; i++) {
        text t = new_text();

        add(&t, "B000 PL MODE=0\nB001 BL ");
        add_times(&t, cases[i].times, cases[i].before);
        add(&t, cases[i].middle);
        add_times(&t, cases[i].closed, ")");
        add(&t, "\nB002 FL UNIT=0 ON=0 OFF=0\nALARMS B199\n");
        import(t.bytes, t.length);
        if (cases[i].refusal == 7) {
            expect_refused(t.bytes, t.length, 7, 15);
        } else if (cases[i].refusal == 2) { /* 03, 02 00 00, 00, the formula */
            expect_refused(t.bytes, t.length, 2, 5 + cases[i].place);
        } else { /* good, and so the flasher is refused */
            must(last.answer.refusal == 2 && last.answer.place > 5 + 15, "a good formula", i);
        }
        /* a bad line behind comes before */
        add(&t, "\n");
        import(t.bytes, t.length);
        if (cases[i].refusal == 7)
            expect_refused(t.bytes, t.length, 7, 15);
        else
            expect_refused(t.bytes, t.length, 7, t.length - 1);
        free(t.bytes);
    }

    /* A leaf of two bytes before the node counts as two. */
    for (j = 0; j <= 3; j++) {
        text t = new_text();
        text long_text = new_text();

        add(&t, "B000 BL ");
        add_times(&t, 7, "1&1&1&1|");
        add_times(&t, j, "B199&");
        add_times(&t, 4 - j, "1&");
        add(&t, "!1\nALARMS\n");
        import(t.bytes, t.length);
        expect_refused(t.bytes, t.length, 2, 2 + 63 + j);
        add(&long_text, "B000 BL ");
        add_times(&long_text, 200000, "B199^(0|1)!&");
        add(&long_text, "1\nALARMS\n");
        import(long_text.bytes, long_text.length);
        expect_refused(long_text.bytes, long_text.length, 2, 18);
        free(t.bytes);
        free(long_text.bytes);
    }
}

/* Texts of texts.c as the formula of a block, against formula.c. */
static void test_texts(void)
{
    static uint8_t formula[ORACLE_MOST_TEXT];
    uint64_t seed;

    for (seed = 1; seed <= 20000; seed++) {
        size_t length = oracle_text(seed, formula, sizeof formula);
        oracle_formula read = oracle_read_formula(formula, length);
        text t, program;
        size_t i, absent = 0;

        if (length > 0 && (memchr(formula, '\n', length) != NULL || formula[length - 1] == '\r'))
            continue; /* a line's end is no byte of a formula */
        t = new_text();
        program = new_text();
        add(&t, "B000 BL ");
        add_bytes(&t, formula, length);
        add(&t, "\nALARMS\n");
        if (read.refusal == 0) {
            add_hex(&program, "01 00");
            for (i = 0; i < read.count; i++) {
                if (read.nodes[i] > 40 && absent == 0)
                    absent = program.length;
                add_number(&program, read.nodes[i]);
            }
            add_number(&program, 0);
        }
        import(t.bytes, t.length);
        if (read.refusal == 7)
            must(last.answer.refusal == 7 && last.answer.place == 0, "a bad formula", seed);
        else if (read.refusal == 2)
            must(last.answer.refusal == 2 && last.answer.place >= 18, "a large formula", seed);
        else if (absent > 0)
            must(last.answer.refusal == 3 && last.answer.place == absent, "an absent block", seed);
        else
            must(same(last.bytes, last.answer.length, program.bytes, program.length), "a formula", seed);
        free(t.bytes);
        free(program.bytes);
    }
}

/* ---- What is refused ---- */

static void test_refusals(void)
{
    text t = new_text();
    unsigned i;
    char line[40];

    /* of the document */
    refuses("B000 OG A=1 B=0 C=0 X=0\nALARMS\n", 2, 6);
    refuses("B000 FL UNIT=0 ON=0 OFF=0\nALARMS\n", 2, 5);
    refuses("ALARMS\n", 2, 0);
    refuses("ALARMS 1\n", 2, 0);
    refuses("ALARMS B000\n", 2, 0);
    refuses("  ALARMS\r\n", 2, 0);
    good_line("B000 FL UNIT=0 ON=0 OFF=1", "06 00 00 00 01");
    good_line("B000 FL UNIT=0 ON=1 OFF=0", "06 00 00 01 00");
    good_line("B000 DL UNIT=0 ON=0 OFF=0", "04 00 00 00 00 00");
    good_line("B000 OG A=0 B=1 C=0 X=0", "0A 00 808002 818002 808002 E88702");
    good_line("B000 OG A=0 B=-1 C=0 X=0", "0A 00 808002 FFFF01 808002 E88702");
    bad_line("B000 AL I=B200");
    bad_line("B000 AL I=I00");
    bad_line("B000 ST X=A09 H=0 L=0");
    bad_line("B000 OS UNIT=3 TIME=0");
    bad_line("B000 DL UNIT=0 ON=050 OFF=0");

    /* 3: a block that is not there, a word of a block that has none */
    refuses("B000 AL I=B001\nALARMS\n", 3, 2);
    refuses("B000 AL C=B001\nALARMS\n", 3, 3);
    refuses("B000 AL I=B199 C=B001\nALARMS\n", 3, 2);
    refuses("B000 BL I01 & B001\nALARMS\n", 3, 4);
    refuses("B000 ST X=W001 H=0 L=0\nALARMS\n", 3, 3);
    refuses("B000 ST X=W000 H=0 L=0\nALARMS\n", 3, 3);
    refuses("B000 ST X=0 H=W000 L=W001\nALARMS\n", 3, 6);
    refuses("B000 ST X=W001 H=0 L=0\nB001 AL I=B002\nALARMS\n", 3, 3);
    refuses("B000 ST X=W001 H=0 L=0\nB001 CN I=B002 PRESET=0\nALARMS\n", 3, 11);
    refuses("B000 AL I=B001\nB001 ST X=W000 H=0 L=0\nALARMS\n", 3, 6);
    stands("B000 OG A=0 B=1 C=0 X=W000\nALARMS\n", "01 0A 00 808002 818002 808002 08 00");
    stands("B000 CP RELATION=0 A=W001 B=W001\nB001 CN PRESET=0\nALARMS\n",
           "02 09 00 00 09 09 07 00 00 00 00");
    stands("B000 CP RELATION=0 A=W001 B=W001\nB001 UD PRESET=0\nALARMS\n",
           "02 09 00 00 09 09 08 00 00 00 00 808002 00");

    /* their order */
    refuses("B000 AL I=B001\nALARMS B001 2\n", 7, 15);
    refuses("B000 OG A=1 B=0 C=0 X=0\nALARMS\nx", 7, 31);
    refuses("B000 OG A=1 B=0 C=0 X=0\nALARMS", 7, 24);
    refuses("B000 AL I=B009\nB001 OG A=1 B=0 C=0 X=0\nALARMS\n", 2, 9);
    refuses("B000 OG A=1 B=0 C=0 X=0\nB001 FL UNIT=0 ON=0 OFF=0\nALARMS\n", 2, 6);
    refuses("B000 FL UNIT=0 ON=0 OFF=0\nB001 OG A=1 B=0 C=0 X=0\nALARMS\n", 2, 5);
    add(&t, "B000 AL I=B009\nALARMS");
    add_times(&t, 33, " B009");
    add(&t, "\n");
    import(t.bytes, t.length);
    expect_refused(t.bytes, t.length, 2, 4);

    /* 4 at 5,001: 68 BL of 63 nodes, one UD, and an SR or a BL of 5 nodes */
    for (i = 0; i < 4; i++) {
        unsigned block;

        t.length = 0;
        for (block = 0; block < 68; block++) {
            snprintf(line, sizeof line, "B%03u BL ", block);
            add(&t, line);
            add_times(&t, 7, "1&1&1&1|");
            add(&t, "1&1&1&1\n");
        }
        add(&t, "B068 UD PRESET=0\n");
        add(&t, i == 0 ? "B069 SR PRIORITY=0\n" : i == 1 ? "B069 BL 1&1&1\n" : "B069 BL 1&1&B070\n");
        add(&t, i == 3 ? "ALARMS B069 2\n" : "ALARMS B069\n");
        import(t.bytes, t.length);
        if (i == 0)
            must(last.answer.refusal == 0 && last.answer.length == 1 + 68 * 64 + 8 + 4 + 2,
                 "memory 5,000", i);
        else if (i == 1)
            expect_refused(t.bytes, t.length, 4, 0);
        else if (i == 2)
            expect_refused(t.bytes, t.length, 3, 1 + 68 * 64 + 8 + 5);
        else
            expect_refused(t.bytes, t.length, 7, t.length - 14);
    }
    free(t.bytes);
}

static void export_refuses(const char *hex, unsigned refusal, size_t place)
{
    text program = new_text();

    add_hex(&program, hex);
    export(program.bytes, program.length);
    expect_refused((const uint8_t *)hex, strlen(hex), refusal, place);
    free(program.bytes);
}

static void test_export(void)
{
    unsigned kind;

    /* the paper's programs */
    stands("B000 CN I=I01 PRESET=2\nALARMS B000\n", "01 07 02 00 02 01 22");
    export_refuses("", 8, 0);
    export_refuses("00", 2, 0);
    export_refuses("81 00", 1, 0);
    export_refuses("01 07 02 00 02 01 22 00", 2, 7);
    export_refuses("01 07 02 00 02 01 23", 3, 6);
    export_refuses("01 07 02 00 02 01", 8, 6);
    export_refuses("C9 01", 2, 0);
    export_refuses("01 0A 00 818002 808002 808002 00 00", 2, 6);

    /* every kind with all bits off, on, and the largest names and numbers */
    for (kind = 0; kind < KINDS; kind++) {
        char listing[100];
        fields f = fields_of(kind);
        unsigned i;
        size_t used;
        static const char *const ends[] = {"0", "1", "2", "5"};

        snprintf(listing, sizeof listing, "B000 %s\nALARMS\n", KIND[kind].shortest);
        import((const uint8_t *)listing, strlen(listing));
        must(last.answer.refusal == 0, "the shortest line is good", kind);
        {
            text program = new_text();

            add_bytes(&program, last.bytes, last.answer.length);
            export(program.bytes, program.length);
            must(same(last.bytes, last.answer.length, (const uint8_t *)listing, strlen(listing)),
                 "the shortest line is exported", kind);
            program.length = 0;
            used = (size_t)snprintf(listing, sizeof listing, "B000 %s", KIND[kind].kind);
            if (kind == 0)
                used += (size_t)snprintf(listing + used, sizeof listing - used, " B000");
            for (i = 0; i < f.count; i++) {
                char sort = f.at[i].sort;
                const char *value = sort == 'b' ? "B000" : sort == 'w' || sort == 's' ? "-32768" : "32767";

                if (sort >= '0' && sort <= '9')
                    value = ends[sort == '1' ? 1 : sort == '2' ? 2 : 3];
                used += (size_t)snprintf(listing + used, sizeof listing - used, " %s=%s",
                                         f.at[i].name, value);
            }
            snprintf(listing + used, sizeof listing - used, "\nALARMS\n");
            import((const uint8_t *)listing, strlen(listing));
            must(last.answer.refusal == 0, "the longest line is good", kind);
            add_bytes(&program, last.bytes, last.answer.length);
            export(program.bytes, program.length);
            must(same(last.bytes, last.answer.length, (const uint8_t *)listing, strlen(listing)),
                 "the longest line is exported", kind);
            free(program.bytes);
        }
    }
}

/* ---- The form of what is exported ---- */

static size_t longest_line;
static size_t longest_listing;

/* Whether a line of a block has a field `name=0` for a bit that is off. */
static bool has_off_pin(const char *line)
{
    unsigned kind, i;

    for (kind = 1; kind < KINDS; kind++) {
        fields f = fields_of(kind);

        if (strncmp(line + 5, KIND[kind].kind, 2) != 0)
            continue;
        for (i = 0; i < f.count; i++) {
            char word[20];
            const char *found;

            snprintf(word, sizeof word, " %s=0", f.at[i].name);
            found = strstr(line, word);
            if (f.at[i].sort == 'b' && found != NULL)
                return true;
        }
    }
    return false;
}

/* Writes the formula anew with the spaces that are to be there. */
static void respace(const char *formula, char *to)
{
    bool part = true; /* is expected */

    for (; *formula != '\0'; formula++) {
        if (*formula == ' ')
            continue;
        if (!part && strchr("!&^|", *formula) != NULL) {
            to += sprintf(to, *formula == '!' ? " !%c " : " %c ", *formula == '!' ? formula[1] : *formula);
            formula += *formula == '!';
            part = true;
            continue;
        }
        *to++ = *formula;
        if (*formula == '(' || *formula == '!')
            part = true;
        else
            part = false;
    }
    *to = '\0';
}

/* Checks each line of an exported listing. */
static void check_form(const uint8_t *listing, size_t length, uint64_t seed)
{
    char line[1000], again[2000];
    size_t start = 0, end;

    if (length > longest_listing)
        longest_listing = length;
    must(length > 0 && listing[length - 1] == '\n', "an end of the last line", seed);
    for (; start < length; start = end + 1) {
        size_t i;

        for (end = start; end < length && listing[end] != '\n'; end++)
            ;
        must(end - start <= 998, "no line longer than mail allows", seed);
        if (end - start > 998)
            return;
        if (end - start > longest_line)
            longest_line = end - start;
        memcpy(line, listing + start, end - start);
        line[end - start] = '\0';
        must(line[0] != ' ' && line[0] != '\0' && line[end - start - 1] != ' ',
             "no space at the ends", seed);
        must(strstr(line, "  ") == NULL, "one space", seed);
        for (i = 0; i < end - start; i++)
            must(line[i] >= 32 && line[i] <= 126, "no other bytes", seed);
        if (line[0] == 'A')
            continue;
        must(!has_off_pin(line), "a bit that is off is left out", seed);
        if (strncmp(line + 5, "BL", 2) == 0) {
            respace(line + 8, again);
            must(strcmp(line + 8, again) == 0, "the spaces of a formula", seed);
        }
    }
}

/* ---- The fewest parentheses ---- */

/* Whether two texts have the same reading; that of the first is good. */
static bool same_reading(const oracle_formula *a, const char *other)
{
    oracle_formula b = oracle_read_formula((const uint8_t *)other, strlen(other));

    return b.refusal == 0 && same(a->nodes, a->count, b.nodes, b.count);
}

/* Takes each pair of parentheses out of a formula, and if all is set, each
 * choice of several: no other text may have the reading. */
static void check_pairs(const char *formula, bool all, uint64_t seed)
{
    oracle_formula read = oracle_read_formula((const uint8_t *)formula, strlen(formula));
    unsigned pair[1000]; /* of each parenthesis, from 1 */
    unsigned open[64];
    unsigned pairs = 0, opened = 0, out, most;
    size_t i, length = strlen(formula);

    for (i = 0; i < length; i++) {
        pair[i] = 0;
        if (formula[i] == '(')
            pair[i] = open[opened++] = ++pairs;
        else if (formula[i] == ')')
            pair[i] = open[--opened];
    }
    most = all ? 1u << pairs : pairs + 1;
    for (out = 1; out < most; out++) {
        char other[1000];
        size_t used = 0;

        for (i = 0; i < length; i++)
            if (pair[i] == 0 || (all ? !(out >> (pair[i] - 1) & 1) : pair[i] != out))
                other[used++] = formula[i];
        other[used] = '\0';
        must(!same_reading(&read, other), "each pair is needed", seed);
    }
}

/* Puts pairs of parentheses, fewer than there are, into the signs of a formula
 * at all places where one may open and one may close. */
static void check_fewer(const oracle_formula *read, const char *const *signs, unsigned count,
                        unsigned char *opens, unsigned char *closes, unsigned pairs)
{
    unsigned i, j, k;

    char other[400];
    size_t used = 0;

    for (i = 0; i < count; i++) {
        for (k = 0; k < opens[i]; k++)
            other[used++] = '(';
        used += (size_t)sprintf(other + used, "%s", signs[i]);
        for (k = 0; k < closes[i]; k++)
            other[used++] = ')';
    }
    must(!same_reading(read, other), "fewer pairs do not do", 0);
    if (pairs == 0)
        return;
    for (i = 0; i < count; i++) {
        if (signs[i][0] != 'I' && strcmp(signs[i], "!") != 0)
            continue;
        for (j = i; j < count; j++) {
            if (signs[j][0] != 'I')
                continue;
            opens[i]++;
            closes[j]++;
            check_fewer(read, signs, count, opens, closes, pairs - 1);
            opens[i]--;
            closes[j]--;
        }
    }
}

static void check_fewest(const char *formula)
{
    static const char *const names[] = {"I01", "I02", "I03", "I04", "I05"};
    oracle_formula read = oracle_read_formula((const uint8_t *)formula, strlen(formula));
    const char *signs[40];
    unsigned char opens[40] = {0}, closes[40] = {0};
    unsigned count = 0, pairs = 0;
    bool part = true;

    for (; *formula != '\0'; formula++) {
        pairs += *formula == '(';
        if (strchr(" ()", *formula) != NULL)
            continue;
        if (*formula == 'I') {
            signs[count++] = names[formula[2] - '1'];
            formula += 2;
            part = false;
        } else if (*formula == '!' && !part) {
            signs[count++] = formula[1] == '&' ? "!&" : "!|";
            formula++;
            part = true;
        } else {
            signs[count++] = *formula == '!' ? "!" : *formula == '&' ? "&" : *formula == '|' ? "|" : "^";
            part = true;
        }
    }
    if (pairs > 0)
        check_fewer(&read, signs, count, opens, closes, pairs - 1);
}

static struct {
    uint8_t nodes[ORACLE_NODES];
    unsigned count;
    unsigned names;
    size_t trees;
} small;

/* Exports the small tree, and takes its formula apart. */
static void check_small(void)
{
    text program = new_text();
    char formula[400];
    unsigned nots = 0, twos = 0, i;

    add_hex(&program, "01 00");
    for (i = 0; i < small.count; i++) {
        add_number(&program, small.nodes[i]);
        nots += small.nodes[i] == 0;
        twos += small.nodes[i] > 0 && small.nodes[i] < 6;
    }
    add_number(&program, 0);
    last.answer = call_once(oracle_export_program, program.bytes, program.length, sizeof formula);
    must(last.answer.refusal == 0, "a small tree", small.trees);
    memcpy(formula, last.bytes + 8, last.answer.length - 8 - 8);
    formula[last.answer.length - 8 - 8] = '\0'; /* LF, ALARMS, LF */
    {
        oracle_formula read = oracle_read_formula((const uint8_t *)formula, strlen(formula));

        must(read.refusal == 0 && same(read.nodes, read.count, small.nodes, small.count),
             "the reading of an exported formula", small.trees);
    }
    check_pairs(formula, true, small.trees);
    if (twos <= 2 || nots == 0)
        check_fewest(formula);
    small.trees++;
    free(program.bytes);
}

/* Goes through all trees in which so many parts are still owed, with that many
 * operators of two parts and of NOT left, no two NOT in a row. */
static void each_tree(unsigned owed, unsigned twos, unsigned nots)
{
    unsigned node;

    if (owed == 0) {
        if (twos == 0 && nots == 0)
            check_small();
        return;
    }
    small.nodes[small.count++] = (uint8_t)(8 + small.names++);
    each_tree(owed - 1, twos, nots);
    small.count--;
    small.names--;
    if (nots > 0 && (small.count == 0 || small.nodes[small.count - 1] != 0)) {
        small.nodes[small.count++] = 0;
        each_tree(owed, twos, nots - 1);
        small.count--;
    }
    for (node = 1; node < 6 && twos > 0; node++) {
        small.nodes[small.count++] = (uint8_t)node;
        each_tree(owed + 1, twos - 1, nots);
        small.count--;
    }
}

static void test_fewest(void)
{
    unsigned twos, nots;

    for (twos = 0; twos <= 4; twos++)
        for (nots = 0; nots <= (twos < 3 ? 2 * twos + 1 : twos == 3 ? 3u : 0); nots++)
            each_tree(1, twos, nots);
    printf("%zu small trees\n", small.trees);
}

/* ---- Any program ---- */

/* Each formula of an exported listing, with a pair taken out. */
static void check_formulas(const uint8_t *listing, size_t length, uint64_t seed)
{
    char formula[1000];
    size_t start = 0, end;

    for (; start < length; start = end + 1) {
        for (end = start; listing[end] != '\n'; end++)
            ;
        if (end - start < 9 || end - start > 998 || memcmp(listing + start + 5, "BL", 2) != 0)
            continue;
        memcpy(formula, listing + start + 8, end - start - 8);
        formula[end - start - 8] = '\0';
        check_pairs(formula, false, seed);
    }
}

/* Exports, checks the form, and imports to the same bytes; whether accepted. */
static bool round_trip(const uint8_t *program, size_t length, uint64_t seed)
{
    oracle_acceptance acceptance = oracle_accept(program, length);
    static uint8_t listing[ENOUGH];
    size_t listed;

    export(program, length);
    must(last.answer.refusal == acceptance.refusal && last.answer.place == acceptance.place,
         "export refuses as acceptance does", seed);
    if (acceptance.refusal != 0)
        return false;
    listed = last.answer.length;
    memcpy(listing, last.bytes, listed);
    check_form(listing, listed, seed);
    import(listing, listed);
    must(last.answer.refusal == 0 && same(last.bytes, last.answer.length, program, length),
         "import after export gives the bytes back", seed);
    if (seed % 8 == 1)
        check_formulas(listing, listed, seed);
    return true;
}

static void test_programs(void)
{
    static uint8_t program[ORACLE_MOST_PROGRAM];
    size_t accepted = 0;
    uint64_t seed;

    for (seed = 1; seed <= 8000; seed++)
        accepted += round_trip(program, oracle_program(seed, program, sizeof program), seed);
    must(accepted > 4800 && accepted < 6000, "about two thirds are accepted", accepted);
    printf("%zu of 8000 programs exported and imported\n", accepted);
}

/* Adds an expression of NAND and NOR alone in which every operator but the first
 * needs parentheses: NAND to the right of NAND, to the left of each a row of NOR,
 * each to the right of the last.  `left` is how many operators there are to be. */
static void add_spine(text *t, unsigned *left, unsigned depth, bool ands, uint32_t leaf)
{
    if (*left == 0 || depth == 16) {
        add_number(t, leaf);
        return;
    }
    --*left;
    add_number(t, ands ? 4 : 5);
    if (ands)
        add_spine(t, left, depth + 1, false, leaf);
    else
        add_number(t, leaf);
    add_spine(t, left, depth + 1, ands, leaf);
}

/* The longest listing, for reasons that are in the README: 68 BL of 63 nodes, one
 * of 26 with a NOT in front, and 32 alarms. */
static void test_longest(void)
{
    text program = new_text();
    unsigned block, left;

    add_number(&program, 69);
    for (block = 0; block < 69; block++) {
        add_number(&program, 0);
        left = 31;
        if (block == 68) {
            left = 12;
            add_number(&program, 0);
        }
        add_spine(&program, &left, block == 68 ? 2 : 1, true, 40 + block);
        must(left == 0, "all operators", block);
    }
    add_number(&program, 32);
    for (block = 0; block < 32; block++)
        add_number(&program, 34 + block);
    must(oracle_accept(program.bytes, program.length).memory == 5000, "memory 5,000", 0);
    longest_listing = longest_line = 0;
    must(round_trip(program.bytes, program.length, 1), "accepted", 0);
    must(longest_listing == LONGEST_LISTING, "the longest listing", longest_listing);
    must(longest_line == LONGEST_LINE, "the longest line", longest_line);
    free(program.bytes);
}

/* Adds an expression of an odd number of nodes, no deeper than needed. */
static void add_even(text *t, unsigned nodes, uint32_t leaf)
{
    unsigned first;

    if (nodes == 1) {
        add_number(t, leaf);
        return;
    }
    first = (nodes - 1) / 2;
    first -= first % 2 == 0;
    add_number(t, 1);
    add_even(t, first, leaf);
    add_even(t, nodes - 1 - first, leaf);
}

/* The largest program: 89 blocks, so that the name of the last takes two bytes
 * as a node; 66 BL and 23 PL, which lose the least. */
static void test_largest(void)
{
    text program = new_text();
    unsigned block;

    add_number(&program, 89);
    for (block = 0; block < 23; block++)
        add_hex(&program, "02 02 00");
    for (block = 0; block < 66; block++) {
        add_number(&program, 0);
        add_even(&program, block < 24 ? 61 : 63, 40 + 88);
    }
    add_number(&program, 32);
    for (block = 0; block < 32; block++)
        add_number(&program, 34 + block);
    must(oracle_accept(program.bytes, program.length).memory == 5000, "memory 5,000", 0);
    must(round_trip(program.bytes, program.length, 1), "accepted", 0);
    must(program.length == LARGEST_PROGRAM, "the largest program", program.length);
    free(program.bytes);
}

/* ---- Any listing ---- */

/* Takes each field out of a good listing in turn: only a bit may go, and the
 * bytes stay if it was off. */
static void check_pins(const uint8_t *listing, size_t length, const uint8_t *program, size_t size,
                       uint64_t seed)
{
    size_t start, end;

    for (start = 0; start < length; start = end) {
        uint8_t other[1000];
        char line[100];
        oracle_exchange answer;
        text without;
        bool bit;
        size_t equals, kind;

        /* the next word, if it is a field */
        for (end = start + 1; end < length && strchr(" \r\n", listing[end]) == NULL; end++)
            ;
        for (equals = start; equals < end && listing[equals] != '='; equals++)
            ;
        if (listing[start] != ' ' || equals == end || size > sizeof other)
            continue;
        /* the kind, behind the number of its line */
        for (kind = start; kind > 0 && listing[kind - 1] != '\n'; kind--)
            ;
        while (listing[kind] == ' ')
            kind++;
        for (kind += 4; listing[kind] == ' '; kind++)
            ;
        snprintf(line, sizeof line, "B000 %.2s %.*s=0", (const char *)listing + kind,
                 (int)(equals - start - 1), (const char *)listing + start + 1);
        bit = has_off_pin(line);
        without = new_text();
        add_bytes(&without, listing, start);
        add_bytes(&without, listing + end, length - end);
        answer = oracle_import_listing(without.bytes, without.length, other, sizeof other);
        if (!bit)
            must(answer.refusal == 7, "no other field may be left out", seed);
        else
            must((answer.refusal == 0 && same(other, answer.length, program, size))
                     == (end == equals + 2 && listing[equals + 1] == '0'),
                 "a bit left out is off", seed);
        free(without.bytes);
    }
}

static void test_listing(const uint8_t *listing, size_t length, uint64_t seed)
{
    static uint8_t program[ENOUGH];
    oracle_exchange answer;
    size_t size;

    import(listing, length);
    answer = last.answer;
    size = answer.length;
    if (answer.refusal == 0) {
        must(oracle_accept(last.bytes, size).refusal == 0, "an accepted program", seed);
        memcpy(program, last.bytes, size);
        round_trip(program, size, seed);
        if (seed % 4 == 1)
            check_pins(listing, length, program, size, seed);
    } else if (answer.refusal == 7) {
        oracle_exchange cut;
        size_t end = answer.place;

        must(answer.place <= length && (answer.place == 0 || listing[answer.place - 1] == '\n'),
             "7 where a line begins", seed);
        /* what is before it is good, as far as it goes */
        cut = oracle_import_listing(listing, answer.place, program, sizeof program);
        must(cut.refusal != 7 || cut.place == answer.place, "good lines before the bad one", seed);
        /* what is behind it does not matter */
        while (end < length && listing[end] != '\n')
            end++;
        if (end < length) {
            cut = oracle_import_listing(listing, end + 1, program, sizeof program);
            must(cut.refusal == 7 && cut.place == answer.place, "what is behind a bad line", seed);
        }
    } else {
        must(answer.refusal >= 2 && answer.refusal <= 4, "2 to 4", seed);
        must(answer.refusal != 4 || answer.place == 0, "4 at 0", seed);
        /* a line more is bad */
        must(length == 0 || oracle_import_listing(listing, length - 1, NULL, 0).refusal == 7,
             "7 comes first", seed);
    }
}

static void test_listings(void)
{
    static uint8_t listing[ORACLE_MOST_LISTING];
    unsigned counts[13] = {0};
    size_t longest = 0;
    uint64_t seed;

    for (seed = 1; seed <= 12000; seed++) {
        size_t length = oracle_listing(seed, listing, sizeof listing);

        test_listing(listing, length, seed);
        counts[oracle_import_listing(listing, length, NULL, 0).refusal % 13]++;
        if (length > longest)
            longest = length;
    }
    must(longest < sizeof listing, "room for any listing", longest);
    printf("12000 listings: %u good, %u with 2, %u with 3, %u with 4, %u with 7\n",
           counts[12], counts[2], counts[3], counts[4], counts[7]);
    must(counts[12] > 3400 && counts[12] < 4600, "a third of the listings is good", counts[12]);
    must(counts[7] > 3400 && counts[7] < 4600, "a third of the listings is bad", counts[7]);
    must(counts[2] > 1500 && counts[3] > 1000 && counts[4] > 100, "the others are 2 to 4", counts[2]);
}

int main(void)
{
    test_example();
    test_lines();
    test_blocks();
    test_alarms();
    test_fields();
    test_decimals();
    test_formulas();
    test_large();
    test_texts();
    test_refusals();
    test_export();
    test_fewest();
    test_programs();
    test_longest();
    test_largest();
    test_listings();
    if (failures == 0)
        puts("all listings hold");
    return failures != 0;
}
