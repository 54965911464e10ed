/* Listings from a seed.  First the kinds of all blocks are chosen, and with them
 * what is to be wrong with the program, if anything; then the lines are written
 * in a style of spaces and line ends.  The formulas are texts of texts.c, with
 * names of blocks that there are.  A bad listing is one of these damaged.
 * What is being made stands in one plan, one style and one text.
 */
#include "listings.h"

#include <stdbool.h>
#include <stdio.h>
#include <string.h>

#include "chance.h"
#include "formula.h"
#include "texts.h"

enum { BL, SR, PL, AL, DL, OS, FL, CN, UD, CP, OG, ZC, ST, KINDS };

enum {
    MOST_BLOCKS = 200,
    MOST_ALARMS = 32,
    MOST_NODES = 63,
    MOST_MEMORY = 5000,
    MOST_LINES = 512 /* that damage looks at */
};

/* ---- Bytes ---- */

static struct {
    uint8_t bytes[ORACLE_MOST_LISTING];
    size_t length;
} text;

static void put_byte(unsigned byte)
{
    if (text.length < sizeof text.bytes)
        text.bytes[text.length++] = (uint8_t)byte;
}

static void put_string(const char *s)
{
    for (; *s != '\0'; s++)
        put_byte((uint8_t)*s);
}

static void put_decimal(int32_t value)
{
    char digits[16];

    snprintf(digits, sizeof digits, "%ld", (long)value);
    put_string(digits);
}

static void put_name(char letter, int digits, uint32_t number)
{
    char name[16];

    snprintf(name, sizeof name, "%c%0*lu", letter, digits, (unsigned long)number);
    put_string(name);
}

/* ---- Style ---- */

typedef enum { TIDY, LOOSE, WIDE } gaps;
typedef enum { LF, CR_LF, BOTH } ends;

static struct {
    gaps gaps;
    ends ends;
    uint32_t written; /* percent of the pins that are off but not left out */
} style;

static void set_style(void)
{
    static const gaps kinds[] = {TIDY, TIDY, TIDY, LOOSE, LOOSE, WIDE};
    static const ends line_ends[] = {LF, LF, LF, CR_LF, CR_LF, BOTH};
    static const uint32_t shares[] = {0, 0, 10, 50, 100};

    style.gaps = ONE_OF(kinds);
    style.ends = ONE_OF(line_ends);
    style.written = ONE_OF(shares);
}

/* Spaces where they may be, beside those that have to be. */
static void put_gap(void)
{
    uint32_t spaces = 0;

    switch (style.gaps) {
    case TIDY:
        break;
    case LOOSE:
        spaces = percent(30) ? below(3) : 0;
        break;
    case WIDE:
        spaces = percent(2) ? below(60) : below(4);
        break;
    }
    while (spaces-- > 0)
        put_byte(' ');
}

static void put_space(void)
{
    put_gap();
    put_byte(' ');
}

static void put_end(void)
{
    put_gap();
    if (style.ends == CR_LF || (style.ends == BOTH && percent(50)))
        put_byte('\r');
    put_byte('\n');
}

/* ---- The plan ---- */

/* What is wrong with a block. */
typedef enum {
    NOTHING,
    ABSENT,       /* it names a block that is not there */
    WORDLESS,     /* it names the word of a block without one */
    ZERO_DIVISOR, /* OG */
    ZERO_FLASHER, /* FL */
    TOO_LARGE,    /* BL, too many nodes or too deep */
    BAD_FORMULA   /* BL */
} fault;

static struct {
    uint32_t blocks;
    uint8_t kinds[MOST_BLOCKS];
    uint8_t faults[MOST_BLOCKS];
    uint32_t memory;   /* of the lines written, and the least of those to come */
    bool unlimited;    /* the memory may be over */
    uint32_t nodes;    /* of each BL, if not 0 */
    uint32_t last;     /* nodes of the last block, if not 0 */
    uint32_t alarms;
    bool absent_alarm;
    fault now;         /* the fault still to be made in this line */
} plan;

static const struct {
    char name[3];
    uint8_t memory;
    const char *fields; /* as in the table of kinds, with letters for the sorts */
} KIND[KINDS] = {
    [BL] = {"BL", 11, ""}, /* with one node */
    [SR] = {"SR", 14, "S:b R:b PRIORITY:1"},
    [PL] = {"PL", 10, "I:b MODE:1"},
    [AL] = {"AL", 13, "I:b C:b"},
    [DL] = {"DL", 19, "I:b C:b UNIT:2 ON:t OFF:t"},
    [OS] = {"OS", 17, "I:b C:b UNIT:2 TIME:t"},
    [FL] = {"FL", 19, "I:b UNIT:2 ON:o OFF:f"},
    [CN] = {"CN", 16, "I:b C:b PRESET:t"},
    [UD] = {"UD", 22, "U:b D:b P:b C:b PRESET:s"},
    [CP] = {"CP", 17, "I:b RELATION:5 A:w B:w"},
    [OG] = {"OG", 22, "I:b A:s B:d C:s X:w"},
    [ZC] = {"ZC", 20, "I:b MODE:1 L:w X:w H:w"},
    [ST] = {"ST", 19, "I:b X:w H:w L:w"},
};

static bool has_word(uint32_t kind)
{
    return kind == CN || kind == UD || kind == OG;
}

/* Blocks of any kinds. */
static void plan_blocks(uint32_t blocks)
{
    uint32_t i;

    memset(&plan, 0, sizeof plan);
    plan.blocks = blocks;
    for (i = 0; i < blocks; i++)
        plan.kinds[i] = (uint8_t)below(KINDS);
    plan.alarms = percent(50) ? below(4) : percent(25) ? MOST_ALARMS : below(MOST_ALARMS + 1);
}

static uint32_t some_count(void)
{
    uint32_t kind = below(1000);

    if (kind < 600)
        return 1 + below(4);
    if (kind < 920)
        return 1 + below(16);
    if (kind < 990)
        return 17 + below(84);
    return percent(50) ? MOST_BLOCKS : 101 + below(99);
}

/* Many BL of 63 nodes and a last one, for a memory of exactly that. */
static void plan_memory(uint32_t memory)
{
    uint32_t used = 0;

    plan_blocks(0);
    plan.unlimited = true;
    plan.nodes = MOST_NODES;
    while (memory - used > 10 + MOST_NODES) {
        uint32_t kind = percent(20) && plan.blocks < 100 ? 1 + below(KINDS - 1) : BL;
        uint32_t size = kind == BL ? 10 + MOST_NODES : KIND[kind].memory;

        if (memory - used < size + 11) { /* something has to be left for the last */
            kind = PL;
            size = KIND[PL].memory;
        }
        plan.kinds[plan.blocks++] = (uint8_t)kind;
        used += size;
    }
    plan.kinds[plan.blocks++] = BL;
    plan.last = memory - used - 10;
}

/* A block for a fault, of that kind from now on. */
static void plan_fault(fault what, uint32_t kind)
{
    uint32_t block = below(plan.blocks);

    plan.kinds[block] = (uint8_t)kind;
    plan.faults[block] = (uint8_t)what;
}

/* A block that has no word; MOST_BLOCKS if there is none. */
static uint32_t wordless_block(void)
{
    uint32_t start = below(plan.blocks);
    uint32_t i;

    for (i = 0; i < plan.blocks; i++) {
        uint32_t block = (start + i) % plan.blocks;

        if (!has_word(plan.kinds[block]))
            return block;
    }
    return MOST_BLOCKS;
}

/* A block that has a word; MOST_BLOCKS if there is none. */
static uint32_t word_block(void)
{
    uint32_t start = below(plan.blocks);
    uint32_t i;

    for (i = 0; i < plan.blocks; i++) {
        uint32_t block = (start + i) % plan.blocks;

        if (has_word(plan.kinds[block]))
            return block;
    }
    return MOST_BLOCKS;
}

/* ---- Values ---- */

/* A block that is not there: the first such, or any. */
static uint32_t absent_block(void)
{
    return percent(40) ? plan.blocks : plan.blocks + below(MOST_BLOCKS - plan.blocks);
}

static void put_bit(void)
{
    static const uint8_t inputs[] = {1, 2, 9, 10, 11, 19, 20, 29, 30, 31, 32};
    uint32_t kind = below(10);

    if (plan.now == ABSENT && plan.blocks < MOST_BLOCKS) {
        plan.now = NOTHING;
        put_name('B', 3, absent_block());
    } else if (kind == 0 || (kind > 5 && plan.blocks == 0)) {
        put_byte(percent(50) ? '0' : '1');
    } else if (kind <= 5) {
        put_name('I', 2, percent(40) ? ONE_OF(inputs) : 1 + below(32));
    } else {
        put_name('B', 3, below(plan.blocks));
    }
}

static int32_t some_signed(void)
{
    static const int32_t likely[] = {
        -32768, -32767, -10000, -9999, -1000, -100, -99, -10, -9, -1,
        0, 0, 1, 9, 10, 99, 100, 1000, 9999, 10000, 32766, 32767
    };

    return percent(50) ? ONE_OF(likely) : percent(50) ? between(-50, 50) : between(-32768, 32767);
}

static int32_t some_time(void)
{
    static const int32_t likely[] = {0, 0, 1, 9, 10, 127, 128, 999, 16383, 16384, 32766, 32767};

    return percent(50) ? ONE_OF(likely) : percent(50) ? between(0, 99) : between(0, 32767);
}

static void put_word(void)
{
    uint32_t block;

    if (plan.now == ABSENT && plan.blocks < MOST_BLOCKS && percent(60)) {
        plan.now = NOTHING;
        put_name('W', 3, absent_block());
        return;
    }
    if (plan.now == WORDLESS && (block = wordless_block()) < MOST_BLOCKS) {
        plan.now = NOTHING;
        put_name('W', 3, block);
        return;
    }
    block = word_block();
    if (block < MOST_BLOCKS && percent(40))
        put_name('W', 3, block);
    else if (percent(40))
        put_name('A', 2, 1 + below(8));
    else
        put_decimal(some_signed());
}

/* ---- Fields ---- */

/* Writes the value of a field by the letter of its sort; *on is the on time of
 * a flasher. */
static void put_value(char sort, int32_t *on)
{
    int32_t value;

    switch (sort) {
    case 'b':
        put_bit();
        break;
    case 'w':
        put_word();
        break;
    case 't':
        put_decimal(some_time());
        break;
    case 'o':
        *on = plan.now == ZERO_FLASHER ? 0 : some_time();
        put_decimal(*on);
        break;
    case 'f':
        value = some_time();
        if (plan.now == ZERO_FLASHER)
            value = 0;
        else if (*on == 0 && value == 0)
            value = 1 + (int32_t)below(3);
        put_decimal(value);
        break;
    case 's':
        put_decimal(some_signed());
        break;
    case 'd':
        value = some_signed();
        if (plan.now == ZERO_DIVISOR)
            value = 0;
        else if (value == 0)
            value = percent(50) ? 1 : -1;
        put_decimal(value);
        break;
    default: /* the most that it may be */
        put_decimal((int32_t)below((uint32_t)(sort - '0') + 1));
        break;
    }
}

static void put_fields(const char *fields)
{
    int32_t on = 0;

    while (*fields != '\0') {
        size_t start = text.length;
        bool off;
        char sort;

        put_space();
        while (*fields != ':')
            put_byte((uint8_t)*fields++);
        sort = fields[1];
        fields += fields[2] == ' ' ? 3 : 2;
        off = sort == 'b' && plan.now != ABSENT && percent(30);
        if (off && !percent(style.written)) {
            text.length = start;
            continue;
        }
        put_byte('=');
        if (off)
            put_byte('0');
        else
            put_value(sort, &on);
    }
}

/* ---- Formulas ---- */

/* Makes the names of blocks in a good formula those of blocks that there are,
 * or of one that is not. */
static void place_names(uint8_t *formula, size_t length)
{
    size_t i;

    for (i = 0; i + 3 < length; i++) {
        uint32_t number;

        if (formula[i] != 'B')
            continue;
        if (plan.now == ABSENT && plan.blocks < MOST_BLOCKS && percent(40)) {
            plan.now = NOTHING;
            number = absent_block();
        } else {
            number = (uint32_t)(100 * (formula[i + 1] - '0') + 10 * (formula[i + 2] - '0')
                                + formula[i + 3] - '0') % plan.blocks;
        }
        formula[i + 1] = (uint8_t)('0' + number / 100);
        formula[i + 2] = (uint8_t)('0' + number / 10 % 10);
        formula[i + 3] = (uint8_t)('0' + number % 10);
    }
}

/* Writes a text of texts.c that is answered so, and of no more nodes. */
static void put_text(unsigned refusal, uint32_t most_nodes)
{
    static uint8_t formula[ORACLE_MOST_TEXT];
    oracle_formula read;
    size_t length, i;

    do {
        length = oracle_text(chance(), formula, sizeof formula);
        read = oracle_read_formula(formula, length);
    } while (read.refusal != refusal || read.count > most_nodes);
    if (refusal != ORACLE_BAD_TEXT)
        place_names(formula, length);
    plan.memory += read.count > 0 ? (uint32_t)read.count - 1 : 0;
    for (i = 0; i < length; i++)
        put_byte(formula[i]);
}

/* Writes a formula of exactly that many nodes, not deep. */
static void put_exact(uint32_t nodes)
{
    static const char *const signs[] = {"&", "!&", "^", "|", "!|"};
    uint32_t first;

    if (nodes == 1) {
        put_bit();
        return;
    }
    if (nodes == 2) {
        put_byte('!');
        put_bit();
        return;
    }
    first = (nodes - 1) / 2;
    if (first > 1 && percent(50))
        first -= 1;
    put_byte('(');
    put_exact(first);
    put_byte(')');
    put_gap();
    put_string(ONE_OF(signs));
    put_gap();
    put_byte('(');
    put_exact(nodes - 1 - first);
    put_byte(')');
}

/* A formula far over the bounds: a row of NOT, or one long list. */
static void put_long(void)
{
    static const char *const signs[] = {"&", " !& ", "^", " | ", "!|"};
    uint32_t count = percent(70) ? 17 + below(60) : 1000 + below(3000);
    const char *sign = ONE_OF(signs);

    if (percent(40)) {
        while (count-- > 0)
            put_byte('!');
        put_bit();
        return;
    }
    put_bit();
    while (count-- > 0) {
        put_string(percent(70) ? sign : ONE_OF(signs));
        if (percent(10))
            put_byte('!');
        put_bit();
    }
}

static void put_formula(uint32_t block)
{
    uint32_t left = plan.unlimited ? MOST_NODES : MOST_MEMORY - plan.memory + 1;

    put_space();
    if (plan.now == BAD_FORMULA) {
        put_text(ORACLE_BAD_TEXT, MOST_NODES);
    } else if (plan.now == TOO_LARGE) {
        if (percent(60))
            put_text(2, MOST_NODES);
        else
            put_long();
    } else if (plan.last > 0 && block + 1 == plan.blocks) {
        put_exact(plan.last);
    } else if (plan.nodes > 0) {
        put_exact(plan.nodes);
    } else {
        put_text(0, left < MOST_NODES ? left : MOST_NODES);
    }
}

/* ---- Lines ---- */

static void put_block(uint32_t block)
{
    uint32_t kind = plan.kinds[block];

    plan.now = (fault)plan.faults[block];
    put_gap();
    put_name('B', 3, block);
    put_space();
    put_string(KIND[kind].name);
    if (kind == BL)
        put_formula(block);
    else
        put_fields(KIND[kind].fields);
    plan.now = NOTHING;
    put_end();
}

static void put_alarms(void)
{
    uint32_t absent = plan.absent_alarm && plan.alarms > 0 ? below(plan.alarms) : plan.alarms;
    uint32_t i;

    put_gap();
    put_string("ALARMS");
    for (i = 0; i < plan.alarms; i++) {
        plan.now = i == absent ? ABSENT : NOTHING;
        put_space();
        put_bit();
    }
    plan.now = NOTHING;
    put_end();
}

/* Writes the listing that is planned. */
static void put_listing(void)
{
    uint32_t i;

    set_style();
    if (plan.unlimited && style.gaps == WIDE)
        style.gaps = TIDY; /* these are long as it is */
    for (i = 0; i < plan.blocks; i++)
        plan.memory += KIND[plan.kinds[i]].memory;
    for (i = 0; i < plan.blocks; i++)
        put_block(i);
    put_alarms();
}

static void plan_good(void)
{
    if (percent(1))
        plan_memory(MOST_MEMORY - (percent(60) ? 0 : below(3)));
    else
        plan_blocks(some_count());
}

/* Plans something that refuses the program with 2 to 4. */
static void plan_refused(void)
{
    static const uint8_t readers[] = {CP, OG, ZC, ST};
    uint32_t kind = below(100);

    if (kind < 5) {
        plan_memory(MOST_MEMORY + 1 + (percent(60) ? 0 : below(30)));
        if (percent(20))
            plan_fault(WORDLESS, ONE_OF(readers));
        return;
    }
    if (kind < 9) {
        plan_blocks(0);
        return;
    }
    plan_blocks(some_count());
    if (plan.blocks == MOST_BLOCKS && percent(80))
        plan.blocks--; /* else no block is absent */
    do {
        if (kind < 22) {
            plan_fault(ABSENT, 1 + below(KINDS - 1));
        } else if (kind < 30) {
            plan_fault(ABSENT, BL);
        } else if (kind < 45) {
            plan_fault(WORDLESS, ONE_OF(readers));
        } else if (kind < 55) {
            plan_fault(ZERO_DIVISOR, OG);
        } else if (kind < 65) {
            plan_fault(ZERO_FLASHER, FL);
        } else if (kind < 85) {
            plan_fault(TOO_LARGE, BL);
        } else if (kind < 92) {
            plan.absent_alarm = true;
            plan.alarms += plan.alarms == 0;
        } else if (percent(95)) {
            plan.alarms = MOST_ALARMS + 1 + (percent(60) ? 0 : below(200));
        } else {
            plan.alarms = 16000 + below(1000); /* their count takes two bytes or three */
        }
        kind = 9 + below(91);
    } while (percent(20));
}

/* ---- Damage: where the lines and words are ---- */

typedef struct {
    size_t start;
    size_t end;
} span;

static span lines[MOST_LINES]; /* each with its end */
static uint32_t line_count;
static span words[MOST_LINES]; /* of one line */
static uint32_t word_count;

static void find_lines(void)
{
    size_t start = 0;
    size_t i;

    line_count = 0;
    for (i = 0; i < text.length && line_count < MOST_LINES; i++) {
        if (text.bytes[i] != '\n' && i + 1 < text.length)
            continue;
        lines[line_count].start = start;
        lines[line_count].end = i + 1;
        line_count++;
        start = i + 1;
    }
}

static bool is_blank(uint8_t byte)
{
    return byte == ' ' || byte == '\r' || byte == '\n';
}

static void find_words(span line)
{
    size_t i = line.start;

    word_count = 0;
    while (i < line.end && word_count < MOST_LINES) {
        size_t start;

        while (i < line.end && is_blank(text.bytes[i]))
            i++;
        start = i;
        while (i < line.end && !is_blank(text.bytes[i]))
            i++;
        if (i == start)
            break;
        words[word_count].start = start;
        words[word_count].end = i;
        word_count++;
    }
}

/* Puts those bytes in the place of others. */
static void replace(size_t start, size_t end, const uint8_t *bytes, size_t length)
{
    static uint8_t kept[ORACLE_MOST_LISTING];
    size_t behind = text.length - end;
    size_t i;

    memcpy(kept, text.bytes + end, behind);
    text.length = start;
    for (i = 0; i < length; i++)
        put_byte(bytes[i]);
    for (i = 0; i < behind; i++)
        put_byte(kept[i]);
}

static void replace_string(size_t start, size_t end, const char *s)
{
    replace(start, end, (const uint8_t *)s, strlen(s));
}

/* Bytes that stand elsewhere in the text, put before a place. */
static void copy_to(size_t place, span from)
{
    static uint8_t copy[ORACLE_MOST_LISTING];
    size_t length = from.end - from.start;

    memcpy(copy, text.bytes + from.start, length);
    replace(place, place, copy, length);
}

static void drop(span what)
{
    replace(what.start, what.end, NULL, 0);
}

/* Exchanges two pieces, the first of which ends before the second. */
static void exchange(span a, span b)
{
    static uint8_t copy[ORACLE_MOST_LISTING];
    size_t length = b.end - a.start;
    size_t first = a.end - a.start;
    size_t second = b.end - b.start;
    uint8_t *to = text.bytes + a.start;

    memcpy(copy, to, length);
    memcpy(to, copy + (length - second), second);
    memcpy(to + second, copy + first, length - first - second);
    memcpy(to + (length - first), copy, first);
}

/* A line, if there is any text. */
static span any_line(void)
{
    find_lines();
    return lines[below(line_count)];
}

/* A word of any line, whose words are found; false if it has none. */
static bool any_word(span *word)
{
    find_words(any_line());
    if (word_count == 0)
        return false;
    *word = words[below(word_count)];
    return true;
}

/* A field with a value of the given first bytes, in any line; false if the
 * search finds none. */
static bool any_value(const char *first, span *value)
{
    uint32_t tries;

    for (tries = 0; tries < 20; tries++) {
        span word;
        size_t i;

        if (!any_word(&word))
            continue;
        for (i = word.start; i < word.end && text.bytes[i] != '='; i++)
            ;
        if (i + 1 >= word.end || text.bytes[i + 1] == '\0' || !strchr(first, text.bytes[i + 1]))
            continue;
        value->start = i + 1;
        value->end = word.end;
        return true;
    }
    return false;
}

/* ---- Damage ---- */

static const char LIKELY[] = "  ==--!&|^()IBAW0123456789BLSRPLOGALARMSON\r\n\t";

static uint8_t any_byte(void)
{
    return percent(70) ? (uint8_t)LIKELY[below(sizeof LIKELY - 1)] : (uint8_t)below(256);
}

static void damage_byte(void)
{
    span here = {below((uint32_t)text.length), 0};
    uint8_t byte = any_byte();

    here.end = here.start + 1;
    switch (below(6)) {
    case 0:
    case 1:
        text.bytes[here.start] = byte;
        break;
    case 2:
        drop(here);
        break;
    case 3:
        copy_to(here.start, here);
        break;
    case 4:
        replace(here.start, here.start, &byte, 1);
        break;
    default: /* with the one behind it */
        if (here.end < text.length) {
            byte = text.bytes[here.end];
            text.bytes[here.end] = text.bytes[here.start];
            text.bytes[here.start] = byte;
        }
        break;
    }
}

/* Takes off the end of the text: anywhere, at a line end, or within one. */
static void cut(void)
{
    span line = any_line();

    switch (below(4)) {
    case 0:
        text.length = below((uint32_t)text.length + 1);
        break;
    case 1:
        text.length = line.start;
        break;
    case 2:
        text.length = line.end - 1;
        break;
    default:
        text.length -= 1;
        break;
    }
}

static void damage_lines(void)
{
    static const char *const odd[] = {
        "\n", "\r\n", " \n", "   \r\n", "ALARMS\n", "B000 AL\n", "B000\n", "\r", "\r\r\n",
        "# remark\n", "BLOCKS 1\n", "B000 BL 1\n", "B200 BL 1\n", "B999 AL\n", "B001 AL\n"
    };
    span a = any_line();
    span b = lines[below(line_count)];
    size_t length = text.length;

    switch (below(6)) {
    case 0:
        copy_to(a.start, a);
        break;
    case 1:
        drop(a);
        break;
    case 2:
        if (a.end <= b.start)
            exchange(a, b);
        else if (b.end <= a.start)
            exchange(b, a);
        break;
    case 3:
        copy_to(b.start, a);
        break;
    case 4:
        replace_string(a.start, a.start, ONE_OF(odd));
        break;
    default:
        replace_string(length, length, percent(60) ? ONE_OF(odd) : percent(50) ? " " : "0");
        break;
    }
}

/* Changes a line's end. */
static void damage_end(void)
{
    static const char *const ends[] = {
        "\r", "\r\r\n", "\n\r", "\n\n", "\r\n\r\n", " ", "", "\n ", "\f", "\v\n"
    };
    span line = any_line();

    if (text.bytes[line.end - 1] == '\n')
        replace_string(line.end - 1, line.end, ONE_OF(ends));
}

static void damage_words(void)
{
    static const char *const odd[] = {
        "I=0", "C=0", "I", "=", "I=", "=0", "S=I01", "X=0", "MODE=0", "UNIT=0", "PRESET=0", "0", "1",
        "B000", "I01", "BL", "AL", "ALARMS", "-", ";", "//", "I=I01", "A=0", "B=1", "L=0", "H=0"
    };
    span word, other;

    if (!any_word(&word))
        return;
    other = words[below(word_count)];
    switch (below(6)) {
    case 0:
        if (word.end <= other.start)
            exchange(word, other);
        else if (other.end <= word.start)
            exchange(other, word);
        break;
    case 1: /* doubled */
        copy_to(word.start, word);
        replace_string(word.end, word.end, " ");
        break;
    case 2:
    case 3:
        drop(word);
        break;
    case 4: /* one more */
        replace_string(word.start, word.start, " ");
        replace_string(word.start, word.start, ONE_OF(odd));
        break;
    default:
        replace_string(word.start, word.end, ONE_OF(odd));
        break;
    }
}

/* Gives a field another name, or its own with something wrong. */
static void damage_label(void)
{
    static const char *const labels[] = {
        "I", "C", "S", "R", "U", "D", "P", "A", "B", "X", "H", "L", "MODE", "UNIT", "ON", "OFF",
        "TIME", "PRESET", "RELATION", "PRIORITY", "", "i", "on", "Mode", "PRIO", "TIMES"
    };
    static const char *const signs[] = {" =", "= ", " = ", "", "==", ":", "\t="};
    span value;

    if (!any_value("-0123456789IBAW", &value))
        return;
    if (percent(50)) {
        replace_string(value.start - 1, value.start, ONE_OF(signs));
    } else {
        size_t start = value.start - 1;

        while (start > 0 && text.bytes[start - 1] >= 'A' && text.bytes[start - 1] <= 'Z')
            start--;
        replace_string(start, value.start - 1, ONE_OF(labels));
    }
}

/* Writes a number wrongly, or another number. */
static void damage_number(void)
{
    static const char *const numbers[] = {
        "-1", "2", "3", "6", "32767", "32768", "-32768", "-32769", "65535", "65536", "99999", "100000",
        "4294967296", "4294967297", "18446744073709551616", "-0", "00", "01", "-01", "+1", "+0", "--1",
        "1-", "-", "", "0x1", "1.0", "1,000", "\342\210\2221", "1e1", "A01", "W000", "I01", "B000"
    };
    static const char *const before[] = {"0", "+", "-", "00", "-0", " "};
    static const char *const behind[] = {"0", "00", "000000", ".", "-", "I", ")", "="};
    span value;

    if (!any_value("-0123456789", &value))
        return;
    switch (below(4)) {
    case 0:
        replace_string(value.start, value.start, ONE_OF(before));
        break;
    case 1:
        replace_string(value.end, value.end, ONE_OF(behind));
        break;
    default:
        replace_string(value.start, value.end, ONE_OF(numbers));
        break;
    }
}

/* Puts a name that is none, or is another sort's, in place of a name. */
static void damage_name(void)
{
    static const char *const names[] = {
        "I00", "I33", "I1", "I001", "I032", "I99", "B200", "B999", "B00", "B0", "B0000", "B12", "b000",
        "i01", "A00", "A09", "A10", "A1", "A001", "W200", "W00", "W0000", "a01", "w000", "A01", "W000",
        "O01", "l01", "IO1", "1", "2", "-1", "10", "!I01", "(I01)", "I01&I02", "I01;", "I01,", "\"I01\""
    };
    span value;

    if (any_value("IBAW01", &value))
        replace_string(value.start, value.end, ONE_OF(names));
}

/* Small letters, or other blanks, somewhere. */
static void damage_letters(void)
{
    span line = any_line();
    size_t i, start = line.start + below((uint32_t)(line.end - line.start));
    bool letters = percent(50);

    for (i = start; i < line.end; i++) {
        uint8_t byte = text.bytes[i];

        if (letters && byte >= 'A' && byte <= 'Z') {
            text.bytes[i] = (uint8_t)(byte - 'A' + 'a');
            return;
        }
        if (!letters && byte == ' ') {
            text.bytes[i] = percent(70) ? '\t' : percent(50) ? 0xA0 : 0;
            return;
        }
    }
}

/* Another number in front of a line. */
static void damage_block(void)
{
    span line = any_line();

    find_words(line);
    if (word_count > 0 && words[0].end - words[0].start == 4)
        text.bytes[words[0].start + 1 + below(3)] = (uint8_t)('0' + below(10));
}

static void damage_once(void)
{
    if (text.length == 0) {
        put_byte(any_byte());
        return;
    }
    switch (below(20)) {
    case 0:
    case 1:
    case 2:
        damage_byte();
        break;
    case 3:
    case 4:
        cut();
        break;
    case 5:
    case 6:
    case 7:
        damage_lines();
        break;
    case 8:
        damage_end();
        break;
    case 9:
    case 10:
    case 11:
        damage_words();
        break;
    case 12:
    case 13:
        damage_label();
        break;
    case 14:
    case 15:
        damage_number();
        break;
    case 16:
    case 17:
        damage_name();
        break;
    case 18:
        damage_letters();
        break;
    default:
        damage_block();
        break;
    }
}

/* Bytes in no order. */
static void put_nonsense(void)
{
    uint32_t length = percent(20) ? below(2) : below(60);

    while (length-- > 0)
        put_byte(any_byte());
}

static void put_bad(void)
{
    uint32_t kind = below(100);

    if (kind < 3) {
        put_nonsense();
        return;
    }
    if (percent(80))
        plan_good();
    else
        plan_refused();
    if (kind < 12 && plan.blocks > 0)
        plan_fault(BAD_FORMULA, BL);
    put_listing();
    if (kind < 12)
        return;
    if (kind < 14) { /* two listings in one */
        plan_good();
        put_listing();
        return;
    }
    do
        damage_once();
    while (percent(30));
}

/* ---- The call ---- */

size_t oracle_listing(uint64_t seed, uint8_t *out, size_t room)
{
    uint32_t kind;

    chance_state = seed;
    text.length = 0;
    kind = below(100);
    if (kind < 29) {
        plan_good();
        put_listing();
    } else if (kind < 62) {
        plan_refused();
        put_listing();
    } else {
        put_bad();
    }
    if (text.length > room)
        text.length = room;
    if (text.length > 0)
        memcpy(out, text.bytes, text.length);
    return text.length;
}
