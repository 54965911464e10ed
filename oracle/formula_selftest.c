/* Runs the examples of request L1, then others worked out by hand, then what
 * has to hold for any text. */
#include <stdbool.h>
#include <stdio.h>
#include <string.h>

#include "formula.h"
#include "texts.h"

enum { MOST_TEXT = 1000000, MOST_ANSWER = 400 };

static int failures;

static void fail(const char *text, const char *expected, const char *got)
{
    printf("%.80s: expected %s, got %s\n", text != NULL ? text : "", expected, got);
    failures++;
}

static const char *answer_line(const oracle_formula *f)
{
    static char line[MOST_ANSWER];
    int used = snprintf(line, sizeof line, "%u %zu %zu", f->refusal, f->place, f->count);
    size_t i;

    for (i = 0; i < f->count && i < ORACLE_NODES; i++)
        used += snprintf(line + used, sizeof line - (size_t)used, " %u", (unsigned)f->nodes[i]);
    return line;
}

/* ---- Texts with their answers ---- */

static const struct {
    const char *text;
    const char *answer;
} EXAMPLES[] = {
    /* of the request */
    {"I01 & !(B003 | I02)", "0 0 6 1 8 0 2 43 9"},
    {"I01 ! & I02", "7 5 0"},
    {"I01 & !& I02", "7 7 0"},
    {"!! (I01)", "0 0 3 0 0 8"},
    {"I00", "7 2 0"},
    {"I33", "7 2 0"},
    {"I4", "7 1 0"},
    {"B2", "7 1 0"},
    {"I011", "7 3 0"},
    {"01", "7 1 0"},
    {"I01 I02", "7 4 0"},
    {"", "7 0 0"},
    {" ", "7 1 0"},
    {"   ", "7 3 0"},

    /* names */
    {"0", "0 0 1 6"},
    {"1", "0 0 1 7"},
    {"I01", "0 0 1 8"},
    {"I32", "0 0 1 39"},
    {"B000", "0 0 1 40"},
    {"B199", "0 0 1 239"},
    {"  B100  ", "0 0 1 140"},
    {"I", "7 1 0"},
    {"I0", "7 2 0"},
    {"I3", "7 2 0"},
    {"B", "7 1 0"},
    {"B1", "7 2 0"},
    {"B19", "7 3 0"},
    {"B200", "7 1 0"},
    {"B1990", "7 4 0"},
    {"B19 ", "7 3 0"},
    {"I3 ", "7 2 0"},
    {"I 01", "7 1 0"},
    {"I0 1", "7 2 0"},
    {"I&", "7 1 0"},
    {"IB", "7 1 0"},
    {"B0O1", "7 2 0"},
    {"i01", "7 0 0"},
    {"b000", "7 0 0"},
    {"2", "7 0 0"},
    {"10", "7 1 0"},
    {"1 0", "7 2 0"},
    {"A01", "7 0 0"},
    {"I01I02", "7 3 0"},
    {"I01B001", "7 3 0"},

    /* operators, what they are and how they group */
    {"I01&I02", "0 0 3 1 8 9"},
    {"I01|I02", "0 0 3 2 8 9"},
    {"I01^I02", "0 0 3 3 8 9"},
    {"I01!&I02", "0 0 3 4 8 9"},
    {"I01!|I02", "0 0 3 5 8 9"},
    {"!I01", "0 0 2 0 8"},
    {"I01&I02&I03", "0 0 5 1 1 8 9 10"},
    {"I01|I02|I03", "0 0 5 2 2 8 9 10"},
    {"I01^I02^I03", "0 0 5 3 3 8 9 10"},
    {"I01!&I02!&I03", "0 0 5 4 4 8 9 10"},
    {"I01!|I02!|I03", "0 0 5 5 5 8 9 10"},
    {"I01&I02!&I03", "0 0 5 4 1 8 9 10"},
    {"I01!&I02&I03", "0 0 5 1 4 8 9 10"},
    {"I01|I02!|I03", "0 0 5 5 2 8 9 10"},
    {"I01!|I02|I03", "0 0 5 2 5 8 9 10"},
    {"I01|I02&I03", "0 0 5 2 8 1 9 10"},
    {"I01&I02|I03", "0 0 5 2 1 8 9 10"},
    {"I01|I02^I03", "0 0 5 2 8 3 9 10"},
    {"I01^I02|I03", "0 0 5 2 3 8 9 10"},
    {"I01^I02&I03", "0 0 5 3 8 1 9 10"},
    {"I01&I02^I03", "0 0 5 3 1 8 9 10"},
    {"I01^I02!&I03", "0 0 5 3 8 4 9 10"},
    {"I01!|I02^I03", "0 0 5 5 8 3 9 10"},
    {"I01!&I02!|I03", "0 0 5 5 4 8 9 10"},
    {"I01|I02^I03&I04", "0 0 7 2 8 3 9 1 10 11"},
    {"I01&I02^I03|I04", "0 0 7 2 3 1 8 9 10 11"},
    {"I01^I02&I03^I04", "0 0 7 3 3 8 1 9 10 11"},
    {"I01|I02&I03!|I04", "0 0 7 5 2 8 1 9 10 11"},
    {"I01&I02|I03&I04", "0 0 7 2 1 8 9 1 10 11"},
    {"I01^I02!|I03^I04", "0 0 7 5 3 8 9 3 10 11"},
    {"I01&I02^I03!&I04|0", "0 0 9 2 3 1 8 9 4 10 11 6"},
    {"!I01&I02", "0 0 4 1 0 8 9"},
    {"!(I01&I02)", "0 0 4 0 1 8 9"},
    {"I01&!I02&I03", "0 0 6 1 1 8 0 9 10"},
    {"!I01|!I02", "0 0 5 2 0 8 0 9"},
    {"I01!&!I02", "0 0 4 4 8 0 9"},
    {"I01 !| ! !I02", "0 0 5 5 8 0 0 9"},
    {"!!!0", "0 0 4 0 0 0 6"},
    {" ! ! ! 0 ", "0 0 4 0 0 0 6"},

    /* parentheses */
    {"(I01)", "0 0 1 8"},
    {" ( ( I01 ) ) ", "0 0 1 8"},
    {"I01&(I02&I03)", "0 0 5 1 8 1 9 10"},
    {"I01|(I02|I03)", "0 0 5 2 8 2 9 10"},
    {"I01^(I02^I03)", "0 0 5 3 8 3 9 10"},
    {"(I01|I02)&I03", "0 0 5 1 2 8 9 10"},
    {"I01&(I02|I03)", "0 0 5 1 8 2 9 10"},
    {"(I01|I02)&(I03!|I04)", "0 0 7 1 2 8 9 5 10 11"},
    {"I01&(I02|I03)&I04", "0 0 7 1 1 8 2 9 10 11"},
    {"!(!(!I01))", "0 0 4 0 0 0 8"},
    {"!(I01|I02)^!(I03)", "0 0 7 3 0 2 8 9 0 10"},
    {"()", "7 1 0"},
    {"( )", "7 2 0"},
    {"(", "7 1 0"},
    {")", "7 0 0"},
    {"(I01", "7 4 0"},
    {"(I01 ", "7 5 0"},
    {"I01)", "7 3 0"},
    {"(I01))", "7 5 0"},
    {"((I01)", "7 6 0"},
    {"(I01)(I02)", "7 5 0"},
    {"(I01)I02", "7 5 0"},
    {"(I01) 1", "7 6 0"},
    {"I01(", "7 3 0"},
    {"I01 (I02)", "7 4 0"},
    {"(!)", "7 2 0"},
    {"(I01&)", "7 5 0"},
    {"(&I01)", "7 1 0"},

    /* signs where they may not be, or cut */
    {"&", "7 0 0"},
    {"|I01", "7 0 0"},
    {"^I01", "7 0 0"},
    {"!&", "7 1 0"},
    {"!|I01", "7 1 0"},
    {"!^I01", "7 1 0"},
    {"! &I01", "7 2 0"},
    {"!)", "7 1 0"},
    {"!", "7 1 0"},
    {"! ", "7 2 0"},
    {"I01!", "7 4 0"},
    {"I01 !", "7 5 0"},
    {"I01! ", "7 4 0"},
    {"I01! |I02", "7 4 0"},
    {"I01!!&I02", "7 4 0"},
    {"I01!^I02", "7 4 0"},
    {"I01!(I02)", "7 4 0"},
    {"I01!I02", "7 4 0"},
    {"I01!)", "7 4 0"},
    {"(I01)!", "7 6 0"},
    {"(I01)!I02", "7 6 0"},
    {"(I01!)", "7 5 0"},
    {"I01&", "7 4 0"},
    {"I01 & ", "7 6 0"},
    {"I01&&I02", "7 4 0"},
    {"I01& &I02", "7 5 0"},
    {"I01!&&I02", "7 5 0"},
    {"I01!&!&I02", "7 6 0"},
    {"I01!& ", "7 6 0"},
    {"I01&)", "7 4 0"},
    {"I01||I02", "7 4 0"},
    {"I01^^I02", "7 4 0"},
    {"I01&|I02", "7 4 0"},
    {"I01 & ! & I02", "7 8 0"},

    /* other bytes */
    {"\tI01", "7 0 0"},
    {"I01\n", "7 3 0"},
    {"I01\r\n", "7 3 0"},
    {"I01 \t& I02", "7 4 0"},
    {"I01\x80", "7 3 0"},
    {"\xFFI01", "7 0 0"},
    {"\xC2\xA0I01", "7 0 0"},
    {"I0\xB1", "7 2 0"},
    {"I01 \xC9 I02", "7 4 0"},
    {"I01 && I02", "7 5 0"},
    {"I01 + I02", "7 4 0"},
    {"~I01", "7 0 0"},
    {"[I01]", "7 0 0"},
    {"I01;", "7 3 0"},
};

static void expect_bytes(const uint8_t *text, size_t length, const char *expected)
{
    oracle_formula f = oracle_read_formula(text, length);
    const char *got = answer_line(&f);

    if (strcmp(got, expected) != 0)
        fail((const char *)text, expected, got);
}

static void expect(const char *text, const char *expected)
{
    expect_bytes((const uint8_t *)text, strlen(text), expected);
}

static void test_examples(void)
{
    static const uint8_t zero[] = {'I', '0', '1', 0, '&'};
    size_t i;

    for (i = 0; i < sizeof EXAMPLES / sizeof EXAMPLES[0]; i++)
        expect(EXAMPLES[i].text, EXAMPLES[i].answer);
    expect_bytes(NULL, 0, "7 0 0");
    expect_bytes(zero, 5, "7 3 0");
    expect_bytes(zero + 3, 1, "7 0 0");
}

/* Every number in two and in three digits, by what the request says of them. */
static void test_names(void)
{
    char name[8], answer[32];
    unsigned n;

    for (n = 0; n < 100; n++) {
        snprintf(name, sizeof name, "I%02u", n);
        if (n >= 1 && n <= 32)
            snprintf(answer, sizeof answer, "0 0 1 %u", 7 + n);
        else
            snprintf(answer, sizeof answer, "7 %d 0", n < 40 ? 2 : 1);
        expect(name, answer);
    }
    for (n = 0; n < 1000; n++) {
        snprintf(name, sizeof name, "B%03u", n);
        if (n <= 199)
            snprintf(answer, sizeof answer, "0 0 1 %u", 40 + n);
        else
            snprintf(answer, sizeof answer, "7 1 0");
        expect(name, answer);
    }
}

/* ---- Bounds, and long texts ---- */

static char line[MOST_TEXT + 1];
static size_t used;

static void start(void)
{
    used = 0;
    line[0] = '\0';
}

/* Adds the bytes that many times, as far as there is room. */
static void add(size_t times, const char *bytes)
{
    size_t length = strlen(bytes);

    while (times-- > 0 && used + length <= MOST_TEXT) {
        memcpy(line + used, bytes, length);
        used += length;
    }
    line[used] = '\0';
}

/* The refusal and the place, and of a good text how many nodes. */
static void expect_line(unsigned refusal, size_t place, size_t count)
{
    oracle_formula f = oracle_read_formula((const uint8_t *)line, used);
    char expected[80];

    snprintf(expected, sizeof expected, "%u %zu %zu", refusal, place, count);
    if (f.refusal != refusal || f.place != place || f.count != count)
        fail(line, expected, answer_line(&f));
}

static void expect_repeated(size_t before, const char *first, const char *name, size_t after,
                            const char *last, unsigned refusal, size_t place, size_t count)
{
    start();
    add(before, first);
    add(1, name);
    add(after, last);
    expect_line(refusal, place, count);
}

static void test_bounds(void)
{
    /* depth 16 and 17 */
    expect_repeated(15, "!", "0", 0, "", 0, 0, 16);
    expect_repeated(16, "!", "0", 0, "", 2, 0, 0);
    expect_repeated(15, "1&", "0", 0, "", 0, 0, 31);
    expect_repeated(16, "1&", "0", 0, "", 2, 0, 0);
    expect_repeated(15, "I01 !| ", "0", 0, "", 0, 0, 31);
    expect_repeated(16, "I01 !| ", "0", 0, "", 2, 0, 0);
    expect_repeated(15, "1^(", "0", 15, ")", 0, 0, 31);
    expect_repeated(16, "1^(", "0", 16, ")", 2, 0, 0);
    expect_repeated(14, "1&", "!0", 0, "", 0, 0, 30); /* the last has depth 3 */
    expect_repeated(7, "!(1&", "!0", 7, ")", 0, 0, 23);
    expect_repeated(7, "!(1&", "!!0", 7, ")", 2, 0, 0);

    /* 63 and 64 nodes: eight and-lists of four names; a NOT more */
    expect_repeated(7, "1&1&1&1|", "1&1&1&1", 0, "", 0, 0, 63);
    expect_repeated(7, "1&1&1&1|", "1&1&1&!1", 0, "", 2, 0, 0);
    expect_repeated(7, "1&1&1&1|", "1&1&!1", 0, "", 0, 0, 62);
    expect_repeated(7, "1&1&1&1|", "1&1&!!1", 0, "", 0, 0, 63);
    expect_repeated(7, "1&1&1&1|", "1&1&1&1", 1, "^1", 2, 0, 0);

    /* parentheses: those open at once, and all of them */
    expect_repeated(16, "(", "1", 16, ")", 0, 0, 1);
    expect_repeated(17, "(", "1", 17, ")", 7, 16, 0);
    expect_repeated(16, "( ", "1", 16, " )", 0, 0, 1);
    expect_repeated(17, "( ", "1", 17, " )", 7, 32, 0);
    expect_repeated(16, "(", "", 0, "", 7, 16, 0);
    expect_repeated(16, "(", "1", 15, ")", 7, 32, 0);
    expect_repeated(16, "(", "1", 17, ")", 7, 33, 0);
    expect_repeated(9, "(1)&(1)|", "(1)&(1)", 0, "", 0, 0, 39);
    expect_repeated(15, "(1)&", "(1)", 0, "", 0, 0, 31);
    start();
    add(16, "(");
    add(1, "1");
    add(16, ")");
    add(1, "^");
    add(16, "(");
    add(1, "1");
    add(16, ")");
    expect_line(0, 0, 3);
    add(1, "^");
    add(17, "(");
    expect_line(7, 33 + 1 + 33 + 1 + 16, 0);
    expect_repeated(16, "!(", "1", 16, ")", 2, 0, 0); /* depth 17 */
    expect_repeated(17, "!(", "1", 17, ")", 7, 33, 0);

    /* 7 before 2 */
    expect_repeated(16, "!", "0", 1, ")", 7, 17, 0);
    expect_repeated(70, "!", "", 0, "", 7, 70, 0);
    expect_repeated(70, "1&", "", 0, "", 7, 140, 0);
    expect_repeated(70, "1&", "1", 1, " 1", 7, 142, 0);
    expect_repeated(70, "1&", "1", 1, "  ", 2, 0, 0);
    expect_repeated(70, "1&", "I33", 0, "", 7, 142, 0);
}

static void test_long(void)
{
    unsigned byte;

    /* A million times any one byte. */
    for (byte = 0; byte < 256; byte++) {
        size_t place = 0;

        if (byte == 'I' || byte == 'B' || byte == '0' || byte == '1')
            place = 1;
        else if (byte == '(')
            place = 16;
        else if (byte == '!' || byte == ' ')
            place = MOST_TEXT;
        memset(line, (int)byte, MOST_TEXT);
        used = MOST_TEXT;
        expect_line(7, place, 0);
    }
    expect_repeated(MOST_TEXT - 1, "!", "0", 0, "", 2, 0, 0);
    expect_repeated(MOST_TEXT - 1, " ", "0", 0, "", 0, 0, 1);
    expect_repeated(0, "", "0", MOST_TEXT - 1, " ", 0, 0, 1);
    expect_repeated(0, "", "0", MOST_TEXT - 1, ")", 7, 1, 0);
    expect_repeated(0, "", "0", MOST_TEXT - 1, "!", 7, 2, 0);
    expect_repeated(499999, "1&", "1", 0, "", 2, 0, 0);
    expect_repeated(499999, "1&", "1", 1, "!", 7, MOST_TEXT, 0);
    expect_repeated(333333, "1!|", "0", 0, "", 2, 0, 0);
    expect_repeated(249999, "(1)^", "(1)", 0, "", 2, 0, 0);
    expect_repeated(249999, "(1)^", "(1)", 1, ")", 7, 999999, 0);
    expect_repeated(333333, "!(1", "", 0, "", 7, 4, 0);
    expect_repeated(499999, "(1", "", 0, "", 7, 2, 0);
    expect_repeated(16, "(", "1", MOST_TEXT - 17, ")", 7, 33, 0);
}

/* ---- What holds for any text ---- */

/* Whether the nodes are one operator-first expression and no more. */
static bool whole(const oracle_formula *f)
{
    size_t owed = 1, i;

    for (i = 0; i < f->count; i++) {
        if (owed == 0 || f->nodes[i] > 239)
            return false;
        owed += f->nodes[i] == 0 ? 0 : f->nodes[i] < 6 ? 1 : (size_t)-1;
    }
    return owed == 0;
}

static bool zero_beyond(const oracle_formula *f)
{
    size_t i;

    for (i = f->count; i < ORACLE_NODES; i++)
        if (f->nodes[i] != 0)
            return false;
    return true;
}

/* Whether some good text begins so: tries ends for what may have been begun,
 * with as many closing parentheses as may be needed. */
static bool goes_on(const uint8_t *text, size_t length)
{
    static const char *const ends[] = {"", "0", "1", "00", "01", "10", "000", "&0"};
    static uint8_t longer[ORACLE_MOST_TEXT + 32];
    size_t i, closed;

    if (length > 0)
        memcpy(longer, text, length);
    for (i = 0; i < sizeof ends / sizeof ends[0]; i++) {
        size_t end = length + strlen(ends[i]);

        memcpy(longer + length, ends[i], strlen(ends[i]));
        for (closed = 0; closed <= 16; closed++) {
            if (oracle_read_formula(longer, end).refusal != ORACLE_BAD_TEXT)
                return true;
            longer[end++] = ')';
        }
    }
    return false;
}

static void must(bool holds, const char *what, uint64_t seed)
{
    if (holds)
        return;
    printf("seed %llu: %s\n", (unsigned long long)seed, what);
    failures++;
}

static void test_text(const uint8_t *text, size_t length, uint64_t seed)
{
    oracle_formula f = oracle_read_formula(text, length);
    oracle_formula cut;

    must(zero_beyond(&f), "zero beyond the nodes", seed);
    if (f.refusal == 0) {
        must(f.place == 0 && f.count >= 1 && f.count <= ORACLE_NODES, "a count", seed);
        must(whole(&f), "an expression", seed);
        return;
    }
    must(f.count == 0, "no nodes if refused", seed);
    if (f.refusal == 2) {
        must(f.place == 0, "2 at 0", seed);
        return;
    }
    must(f.refusal == ORACLE_BAD_TEXT && f.place <= length, "7 in the text", seed);
    must(goes_on(text, f.place), "what is before the fault goes on", seed);
    cut = oracle_read_formula(text, f.place);
    must(cut.refusal != ORACLE_BAD_TEXT || cut.place == f.place, "cut before the fault", seed);
    if (f.place == length)
        return;
    must(!goes_on(text, f.place + 1), "what has the fault does not go on", seed);
    cut = oracle_read_formula(text, f.place + 1);
    must(cut.refusal == ORACLE_BAD_TEXT && cut.place == f.place, "cut after the fault", seed);
}

static void test_any_text(void)
{
    static uint8_t text[ORACLE_MOST_TEXT];
    unsigned kinds[8] = {0};
    uint64_t seed;

    for (seed = 1; seed <= 20000; seed++) {
        size_t length = oracle_text(seed, text, sizeof text);

        test_text(text, length, seed);
        kinds[oracle_read_formula(text, length).refusal & 7]++;
    }
    must(kinds[0] > 9000 && kinds[0] < 11000, "half of the texts are good", 0);
    must(kinds[2] > 1600 && kinds[2] < 2400, "a tenth of the texts is over a bound", 0);
}

int main(void)
{
    test_examples();
    test_names();
    test_bounds();
    test_long();
    test_any_text();
    if (failures == 0)
        puts("all formulas hold");
    return failures != 0;
}
