/* Request L4 and docs/LISTING.md, in their order: kinds and names, import,
 * export.
 *
 * Import reads the lines as the document gives them, the formulas by L1's own
 * or-lists, xor-lists and and-lists, and writes down the bytes that the listing
 * stands for, whatever these are worth.  Only then does acceptance read them: it
 * alone knows refusals 2 to 4.  Export writes front to back from bytes that were
 * accepted, and so needs no checks.
 */
#include "listing.h"

#include <stdbool.h>
#include <stdlib.h>
#include <string.h>

#include "controller.h"
#include "formula.h"

enum {
    MOST_OPEN = 16,         /* parentheses, by L1 */
    MOST_ALARMS = 2097151,  /* that a number can count */

    WORD_MIN = -32768,
    WORD_MAX = 32767,
    WORD_CONSTANT = 1000,
    WORD_ZERO = 33768,  /* word reference: the constant 0 */
    SIGNED_ZERO = 32768 /* a setting marked +- that is 0 */
};

/* Operators of an expression; LEAF + r is the bit reference r. */
enum { NOT, AND, OR, XOR, NAND, NOR, LEAF };

/* ---- Kinds and names ---- */

enum { BL, SR, PL, AL, DL, OS, FL, CN, UD, CP, OG, ZC, ST, KINDS };

typedef enum { BIT, WORD, SIGNED, NUMBER } sort;

typedef struct {
    const char *name; /* null behind the last field */
    sort sort;
    int32_t most; /* of a NUMBER, from 0 */
} field;

static const struct {
    char name[3];
    field fields[6];
} KIND[KINDS] = {
    [BL] = {"BL", {{NULL, BIT, 0}}},
    [SR] = {"SR", {{"S", BIT, 0}, {"R", BIT, 0}, {"PRIORITY", NUMBER, 1}}},
    [PL] = {"PL", {{"I", BIT, 0}, {"MODE", NUMBER, 1}}},
    [AL] = {"AL", {{"I", BIT, 0}, {"C", BIT, 0}}},
    [DL] = {"DL", {{"I", BIT, 0}, {"C", BIT, 0}, {"UNIT", NUMBER, 2},
                   {"ON", NUMBER, 32767}, {"OFF", NUMBER, 32767}}},
    [OS] = {"OS", {{"I", BIT, 0}, {"C", BIT, 0}, {"UNIT", NUMBER, 2},
                   {"TIME", NUMBER, 32767}}},
    [FL] = {"FL", {{"I", BIT, 0}, {"UNIT", NUMBER, 2},
                   {"ON", NUMBER, 32767}, {"OFF", NUMBER, 32767}}},
    [CN] = {"CN", {{"I", BIT, 0}, {"C", BIT, 0}, {"PRESET", NUMBER, 32767}}},
    [UD] = {"UD", {{"U", BIT, 0}, {"D", BIT, 0}, {"P", BIT, 0}, {"C", BIT, 0},
                   {"PRESET", SIGNED, 0}}},
    [CP] = {"CP", {{"I", BIT, 0}, {"RELATION", NUMBER, 5},
                   {"A", WORD, 0}, {"B", WORD, 0}}},
    [OG] = {"OG", {{"I", BIT, 0}, {"A", SIGNED, 0}, {"B", SIGNED, 0}, {"C", SIGNED, 0},
                   {"X", WORD, 0}}},
    [ZC] = {"ZC", {{"I", BIT, 0}, {"MODE", NUMBER, 1},
                   {"L", WORD, 0}, {"X", WORD, 0}, {"H", WORD, 0}}},
    [ST] = {"ST", {{"I", BIT, 0}, {"X", WORD, 0}, {"H", WORD, 0}, {"L", WORD, 0}}},
};

/* Names of a letter and so many digits, for a number from low to high. */
typedef struct {
    char letter;
    unsigned digits;
    uint32_t low;
    uint32_t high;
    uint32_t code; /* the reference that low has; the others follow */
} names;

static const names INPUTS = {'I', 2, 1, 32, 2};
static const names OUTPUTS = {'B', 3, 0, 199, 34};
static const names ANALOGS = {'A', 2, 1, 8, 0};
static const names WORDS = {'W', 3, 0, 199, 8};

/* ---- Lists that grow ---- */

typedef struct {
    uint8_t *bytes;
    size_t length;
    size_t room;
} list;

/* Makes room for one more item; the items are `size` bytes each. */
static void *grown(void *items, size_t count, size_t *room, size_t size)
{
    if (count < *room)
        return items;
    *room = *room == 0 ? 64 : 2 * *room;
    items = *room <= SIZE_MAX / 2 / size ? realloc(items, *room * size) : NULL;
    if (items == NULL)
        abort();
    return items;
}

static void put_byte(list *l, unsigned byte)
{
    l->bytes = grown(l->bytes, l->length, &l->room, 1);
    l->bytes[l->length++] = (uint8_t)byte;
}

static void put_number(list *l, uint32_t value)
{
    for (; value >= 0x80; value >>= 7)
        put_byte(l, (value & 0x7F) | 0x80);
    put_byte(l, value);
}

static void put_list(list *l, const list *more)
{
    size_t i;

    for (i = 0; i < more->length; i++)
        put_byte(l, more->bytes[i]);
}

/* The answer for a result that was made: it is handed out if there is room. */
static oracle_exchange hand_out(const list *made, uint8_t *out, size_t room)
{
    oracle_exchange answer = {ORACLE_GOOD, 0, 0};

    if (made->length > room) {
        answer.refusal = ORACLE_SHORT;
        return answer;
    }
    memcpy(out, made->bytes, made->length); /* never of no bytes */
    answer.length = made->length;
    return answer;
}

static oracle_exchange refused(unsigned refusal, size_t place)
{
    oracle_exchange answer = {refusal, place, 0};

    return answer;
}

/* ---- Import: the bytes of a line ---- */

/* What is still to be read of a line, without its end. */
typedef struct {
    const uint8_t *next;
    const uint8_t *end;
} rest;

/* The next byte; -1 at the end. */
static int peek(const rest *r)
{
    return r->next < r->end ? *r->next : -1;
}

static bool take(rest *r, char byte)
{
    if (peek(r) != byte)
        return false;
    r->next++;
    return true;
}

static void skip_spaces(rest *r)
{
    while (take(r, ' '))
        ;
}

static bool word_ends(const rest *r)
{
    return peek(r) < 0 || peek(r) == ' ';
}

/* Takes these bytes, or none. */
static bool take_bytes(rest *r, const char *bytes)
{
    size_t length = strlen(bytes);

    if ((size_t)(r->end - r->next) < length || memcmp(r->next, bytes, length) != 0)
        return false;
    r->next += length;
    return true;
}

/* Takes the next word if it is this one, and nothing if it is another. */
static bool take_word(rest *r, const char *word)
{
    rest before;

    skip_spaces(r);
    before = *r;
    if (take_bytes(r, word) && word_ends(r))
        return true;
    *r = before;
    return false;
}

/* Takes `name=` of the next word, and nothing if it is another field's. */
static bool take_label(rest *r, const char *name)
{
    rest before;

    skip_spaces(r);
    before = *r;
    if (take_bytes(r, name) && take(r, '='))
        return true;
    *r = before;
    return false;
}

static bool is_digit(int byte)
{
    return byte >= '0' && byte <= '9';
}

/* ---- Import: values ---- */

/* These read a value from its first byte on; false if there is none.  What may
 * stand behind it is not theirs to say. */

static bool read_name(rest *r, const names *kind, uint32_t *code)
{
    uint32_t number = 0;
    unsigned i;

    if (!take(r, kind->letter))
        return false;
    for (i = 0; i < kind->digits; i++) {
        if (!is_digit(peek(r)))
            return false;
        number = 10 * number + (uint32_t)(*r->next++ - '0');
    }
    *code = kind->code + number - kind->low;
    return number >= kind->low && number <= kind->high;
}

static bool read_bit(rest *r, uint32_t *code)
{
    switch (peek(r)) {
    case '0':
    case '1':
        *code = (uint32_t)(*r->next++ - '0');
        return true;
    case 'I':
        return read_name(r, &INPUTS, code);
    default:
        return read_name(r, &OUTPUTS, code);
    }
}

static bool read_decimal(rest *r, int32_t low, int32_t high, int32_t *value)
{
    bool negative = take(r, '-');
    int32_t size = 0;

    if (take(r, '0')) { /* no digit may follow, as no word goes on behind a value */
        *value = 0;
        return !negative;
    }
    if (!is_digit(peek(r)))
        return false;
    while (is_digit(peek(r))) {
        size = 10 * size + (*r->next++ - '0');
        if (size > -WORD_MIN)
            return false; /* over all that any field takes */
    }
    *value = negative ? -size : size;
    return *value >= low && *value <= high;
}

static bool read_word(rest *r, uint32_t *code)
{
    int32_t value;

    switch (peek(r)) {
    case 'A':
        return read_name(r, &ANALOGS, code);
    case 'W':
        return read_name(r, &WORDS, code);
    default:
        if (!read_decimal(r, WORD_MIN, WORD_MAX, &value))
            return false;
        *code = (uint32_t)(value + WORD_ZERO);
        return true;
    }
}

/* The number that the program carries for the value of that field. */
static bool read_value(rest *r, const field *f, uint32_t *code)
{
    int32_t value;

    switch (f->sort) {
    case BIT:
        return read_bit(r, code);
    case WORD:
        return read_word(r, code);
    case SIGNED:
        if (!read_decimal(r, WORD_MIN, WORD_MAX, &value))
            return false;
        *code = (uint32_t)(value + SIGNED_ZERO);
        return true;
    default:
        if (!read_decimal(r, 0, f->most, &value))
            return false;
        *code = (uint32_t)value;
        return true;
    }
}

/* ---- Import: formulas ---- */

/* A formula while it is read, as a tree of any size.  Functions call each other
 * only into parentheses, of which no more than 16 are open; lists and rows of
 * NOT are taken in turn. */
typedef struct {
    struct node {
        uint32_t sign; /* an operator, or LEAF + r */
        size_t first;
        size_t second;
    } *nodes;
    size_t count;
    size_t room;
    unsigned open;
} tree;

static size_t add_node(tree *t, uint32_t sign, size_t first, size_t second)
{
    t->nodes = grown(t->nodes, t->count, &t->room, sizeof *t->nodes);
    t->nodes[t->count].sign = sign;
    t->nodes[t->count].first = first;
    t->nodes[t->count].second = second;
    return t->count++;
}

static bool read_or_list(rest *r, tree *t, size_t *root);

/* A part: any number of NOT, then a name or an or-list in parentheses. */
static bool read_part(rest *r, tree *t, size_t *root)
{
    size_t nots = 0;
    uint32_t code;

    skip_spaces(r);
    for (; take(r, '!'); nots++)
        skip_spaces(r);
    if (take(r, '(')) {
        if (t->open == MOST_OPEN)
            return false;
        t->open++;
        if (!read_or_list(r, t, root) || !take(r, ')'))
            return false;
        t->open--;
    } else {
        if (!read_bit(r, &code))
            return false;
        *root = add_node(t, LEAF + code, 0, 0);
    }
    for (; nots > 0; nots--)
        *root = add_node(t, NOT, *root, 0);
    skip_spaces(r);
    return true;
}

static bool read_and_list(rest *r, tree *t, size_t *root)
{
    if (!read_part(r, t, root))
        return false;
    for (;;) {
        uint32_t sign;
        size_t second;

        if (take_bytes(r, "&"))
            sign = AND;
        else if (take_bytes(r, "!&"))
            sign = NAND;
        else
            return true;
        if (!read_part(r, t, &second))
            return false;
        *root = add_node(t, sign, *root, second);
    }
}

static bool read_xor_list(rest *r, tree *t, size_t *root)
{
    if (!read_and_list(r, t, root))
        return false;
    while (take_bytes(r, "^")) {
        size_t second;

        if (!read_and_list(r, t, &second))
            return false;
        *root = add_node(t, XOR, *root, second);
    }
    return true;
}

static bool read_or_list(rest *r, tree *t, size_t *root)
{
    if (!read_xor_list(r, t, root))
        return false;
    for (;;) {
        uint32_t sign;
        size_t second;

        if (take_bytes(r, "|"))
            sign = OR;
        else if (take_bytes(r, "!|"))
            sign = NOR;
        else
            return true;
        if (!read_xor_list(r, t, &second))
            return false;
        *root = add_node(t, sign, *root, second);
    }
}

/* Puts the numbers of the nodes, operator first. */
static void put_tree(list *l, const tree *t, size_t root)
{
    size_t *waiting = NULL; /* parts still to be put, the next one last */
    size_t count = 0;
    size_t room = 0;

    waiting = grown(waiting, count, &room, sizeof *waiting);
    waiting[count++] = root;
    while (count > 0) {
        const struct node *node = &t->nodes[waiting[--count]];

        put_number(l, node->sign);
        if (node->sign >= LEAF)
            continue;
        if (node->sign != NOT) {
            waiting = grown(waiting, count, &room, sizeof *waiting);
            waiting[count++] = node->second;
        }
        waiting = grown(waiting, count, &room, sizeof *waiting);
        waiting[count++] = node->first;
    }
    free(waiting);
}

/* Reads the formula that is all the rest of the line. */
static bool read_formula(rest *r, list *l)
{
    tree t = {NULL, 0, 0, 0};
    size_t root = 0;
    bool good = read_or_list(r, &t, &root) && peek(r) < 0;

    if (good)
        put_tree(l, &t, root);
    free(t.nodes);
    return good;
}

/* ---- Import: lines ---- */

/* What the lines before stand for. */
typedef struct {
    uint32_t blocks;
    list fields; /* kinds and fields of the blocks */
    list alarms; /* their count and references */
    bool ended;  /* the line of alarms was read */
} listing;

static bool read_fields(rest *r, const field *f, list *l)
{
    for (; f->name != NULL; f++) {
        uint32_t code = 0; /* of a bit that is left out */

        if (take_label(r, f->name)) {
            if (!read_value(r, f, &code) || !word_ends(r))
                return false;
        } else if (f->sort != BIT) {
            return false;
        }
        put_number(l, code);
    }
    skip_spaces(r);
    return peek(r) < 0;
}

static bool read_block(rest *r, listing *l)
{
    uint32_t code, kind;

    if (!read_name(r, &OUTPUTS, &code) || !word_ends(r))
        return false;
    if (code - OUTPUTS.code != l->blocks) /* nor is there a name for a 201st */
        return false;
    l->blocks++;
    for (kind = 0; kind < KINDS; kind++) {
        if (!take_word(r, KIND[kind].name))
            continue;
        put_number(&l->fields, kind);
        if (kind == BL)
            return read_formula(r, &l->fields);
        return read_fields(r, KIND[kind].fields, &l->fields);
    }
    return false;
}

static bool read_alarms(rest *r, listing *l)
{
    list references = {NULL, 0, 0};
    uint32_t count = 0;
    bool good = true;

    for (;;) {
        uint32_t code;

        skip_spaces(r);
        if (peek(r) < 0)
            break;
        good = count < MOST_ALARMS && read_bit(r, &code) && word_ends(r);
        if (!good)
            break;
        put_number(&references, code);
        count++;
    }
    if (good) {
        put_number(&l->alarms, count);
        put_list(&l->alarms, &references);
        l->ended = true;
    }
    free(references.bytes);
    return good;
}

static bool read_line(rest r, listing *l)
{
    if (l->ended)
        return false;
    if (take_word(&r, "ALARMS"))
        return read_alarms(&r, l);
    return read_block(&r, l); /* the spaces before it were skipped */
}

/* Reads all lines; false if one is bad, at *place. */
static bool read_lines(const uint8_t *text, size_t length, listing *l, size_t *place)
{
    size_t start = 0;

    while (start < length) {
        size_t end = start;
        rest line;

        *place = start;
        while (end < length && text[end] != '\n')
            end++;
        if (end == length)
            return false;
        line.next = text + start;
        line.end = text + (end > start && text[end - 1] == '\r' ? end - 1 : end);
        if (!read_line(line, l))
            return false;
        start = end + 1;
    }
    *place = length; /* if the alarms are missing */
    return l->ended;
}

oracle_exchange oracle_import_listing(const uint8_t *text, size_t length,
                                      uint8_t *out, size_t room)
{
    listing l = {0, {NULL, 0, 0}, {NULL, 0, 0}, false};
    list program = {NULL, 0, 0};
    oracle_exchange answer;
    size_t place;

    if (!read_lines(text, length, &l, &place)) {
        answer = refused(ORACLE_BAD_TEXT, place);
    } else {
        oracle_acceptance acceptance;

        put_number(&program, l.blocks);
        put_list(&program, &l.fields);
        put_list(&program, &l.alarms);
        acceptance = oracle_accept(program.bytes, program.length);
        if (acceptance.refusal != ORACLE_GOOD)
            answer = refused(acceptance.refusal, acceptance.place);
        else
            answer = hand_out(&program, out, room);
    }
    free(program.bytes);
    free(l.fields.bytes);
    free(l.alarms.bytes);
    return answer;
}

/* ---- Export ---- */

/* The next number of a program that was accepted. */
static uint32_t next_number(const uint8_t **next)
{
    uint32_t value = 0;
    unsigned shift = 0;

    for (; **next >= 0x80; shift += 7)
        value |= (uint32_t)(*(*next)++ & 0x7F) << shift;
    return value | (uint32_t)*(*next)++ << shift;
}

static void write_string(list *text, const char *s)
{
    for (; *s != '\0'; s++)
        put_byte(text, (uint8_t)*s);
}

/* Writes a number in that many digits, or more if it needs them. */
static void write_digits(list *text, uint32_t number, unsigned digits)
{
    if (number >= 10 || digits > 1)
        write_digits(text, number / 10, digits > 1 ? digits - 1 : 1);
    put_byte(text, '0' + number % 10);
}

static void write_decimal(list *text, int32_t value)
{
    if (value < 0)
        put_byte(text, '-');
    write_digits(text, (uint32_t)(value < 0 ? -value : value), 1);
}

static void write_name(list *text, const names *kind, uint32_t code)
{
    put_byte(text, (uint8_t)kind->letter);
    write_digits(text, code - kind->code + kind->low, kind->digits);
}

static void write_bit(list *text, uint32_t code)
{
    if (code < INPUTS.code)
        write_digits(text, code, 1);
    else
        write_name(text, code < OUTPUTS.code ? &INPUTS : &OUTPUTS, code);
}

static void write_word(list *text, uint32_t code)
{
    if (code >= WORD_CONSTANT)
        write_decimal(text, (int32_t)code - WORD_ZERO);
    else
        write_name(text, code < WORDS.code ? &ANALOGS : &WORDS, code);
}

static void write_field(list *text, const field *f, uint32_t code)
{
    if (f->sort == BIT && code == 0)
        return;
    put_byte(text, ' ');
    write_string(text, f->name);
    put_byte(text, '=');
    switch (f->sort) {
    case BIT:
        write_bit(text, code);
        break;
    case WORD:
        write_word(text, code);
        break;
    case SIGNED:
        write_decimal(text, (int32_t)code - SIGNED_ZERO);
        break;
    default:
        write_decimal(text, (int32_t)code);
        break;
    }
}

/* What a place of a formula takes without parentheses: every list, one of at
 * least that tightness, or a part alone. */
typedef enum { OR_LIST, XOR_LIST, AND_LIST, PART } level;

static const struct {
    const char *sign;
    level level;
} OPERATOR[LEAF] = {
    [NOT] = {"!", PART},
    [AND] = {" & ", AND_LIST},
    [NAND] = {" !& ", AND_LIST},
    [XOR] = {" ^ ", XOR_LIST},
    [OR] = {" | ", OR_LIST},
    [NOR] = {" !| ", OR_LIST},
};

/* Writes the next part of an expression where that level is taken. */
static void write_formula(list *text, const uint8_t **next, level taken)
{
    uint32_t node = next_number(next);
    level own;

    if (node >= LEAF) {
        write_bit(text, node - LEAF);
        return;
    }
    if (node == NOT) {
        write_string(text, OPERATOR[NOT].sign);
        write_formula(text, next, PART);
        return;
    }
    own = OPERATOR[node].level;
    if (own < taken)
        put_byte(text, '(');
    write_formula(text, next, own);
    write_string(text, OPERATOR[node].sign);
    write_formula(text, next, own + 1);
    if (own < taken)
        put_byte(text, ')');
}

static void write_block(list *text, const uint8_t **next, uint32_t block)
{
    uint32_t kind = next_number(next);
    const field *f;

    write_name(text, &OUTPUTS, OUTPUTS.code + block);
    put_byte(text, ' ');
    write_string(text, KIND[kind].name);
    if (kind == BL) {
        put_byte(text, ' ');
        write_formula(text, next, OR_LIST);
    }
    for (f = KIND[kind].fields; f->name != NULL; f++)
        write_field(text, f, next_number(next));
    put_byte(text, '\n');
}

oracle_exchange oracle_export_program(const uint8_t *program, size_t length,
                                      uint8_t *out, size_t room)
{
    oracle_acceptance acceptance = oracle_accept(program, length);
    list text = {NULL, 0, 0};
    oracle_exchange answer;
    uint32_t count, i;

    if (acceptance.refusal != ORACLE_GOOD)
        return refused(acceptance.refusal, acceptance.place);
    count = next_number(&program);
    for (i = 0; i < count; i++)
        write_block(&text, &program, i);
    write_string(&text, "ALARMS");
    count = next_number(&program);
    for (i = 0; i < count; i++) {
        put_byte(&text, ' ');
        write_bit(&text, next_number(&program));
    }
    put_byte(&text, '\n');
    answer = hand_out(&text, out, room);
    free(text.bytes);
    return answer;
}
