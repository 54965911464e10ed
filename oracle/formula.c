/* Request L1 in two passes that know little of each other.  The first goes over
 * the bytes front to back and asks of each whether it may stand there; what it
 * has to remember for that is what may come next and how many parentheses are
 * open.  Beside it, it writes down the signs of the text.  The second goes over
 * the signs back to front: there the nodes of an operator-first expression come
 * out last to first, with no more than a list of operators that wait.
 */
#include "formula.h"

#include <stdbool.h>

#include "controller.h"

enum {
    MOST_DEPTH = 16,
    MOST_OPEN = 16,
    MOST_NAMES = (ORACLE_NODES + 1) / 2, /* each two-part operator needs one more */

    /* Parentheses that are open to the same depth hold different names, at
     * least one each.  So a good text of few enough nodes has no more signs. */
    MOST_SIGNS = ORACLE_NODES + 2 * MOST_OPEN * MOST_NAMES
};

/* Signs: the nodes of document 01, LEAF + r being the bit reference r, and the
 * parentheses. */
enum { NOT, AND, OR, XOR, NAND, NOR, LEAF, OPEN = 254, CLOSE = 255 };

/* ---- Names ---- */

/* The names of one kind: so many digits, for a number from low to high. */
typedef struct {
    uint8_t digits;
    uint8_t low;
    uint8_t high;
    uint8_t zero; /* the node that the number 0 has or would have */
} names;

static const names CONSTANTS = {1, 0, 1, LEAF};
static const names INPUTS = {2, 1, 32, LEAF + 2 - 1}; /* I01 is reference 2 */
static const names OUTPUTS = {3, 0, 199, LEAF + 34};

/* ---- First pass: the bytes ---- */

typedef enum {
    PART,  /* a part begins */
    DIGIT, /* a name goes on */
    AFTER, /* a part has ended */
    OTHER  /* a part has ended and `!` was read: the other byte of !& or !| */
} expected;

typedef struct {
    expected next;
    unsigned open;

    const names *kind; /* of the name that goes on */
    unsigned digits;   /* of it that are still to come */
    uint32_t number;   /* of those that were */

    size_t nodes; /* of the whole text, also those over the bound */
    size_t count; /* of the signs, as far as there is room */
    uint8_t signs[MOST_SIGNS];
} reading;

static void keep(reading *r, unsigned sign)
{
    if (r->count < MOST_SIGNS)
        r->signs[r->count++] = (uint8_t)sign;
}

/* Keeps a node, and says what comes next; true, for the byte may stand. */
static bool node(reading *r, unsigned sign, expected next)
{
    r->nodes++;
    keep(r, sign);
    r->next = next;
    return true;
}

static bool begin_name(reading *r, const names *kind)
{
    r->kind = kind;
    r->digits = kind->digits;
    r->number = 0;
    r->next = DIGIT;
    return true;
}

/* A digit may stand if some number of the kind begins with those read. */
static bool read_digit(reading *r, uint8_t byte)
{
    uint32_t lowest, highest;
    unsigned i;

    if (byte < '0' || byte > '9')
        return false;
    r->number = 10 * r->number + (byte - (uint32_t)'0');
    r->digits--;
    lowest = highest = r->number;
    for (i = 0; i < r->digits; i++) {
        lowest = 10 * lowest;
        highest = 10 * highest + 9;
    }
    if (highest < r->kind->low || lowest > r->kind->high)
        return false;
    return r->digits > 0 || node(r, r->kind->zero + r->number, AFTER);
}

static bool open_one(reading *r)
{
    if (r->open == MOST_OPEN)
        return false;
    r->open++;
    keep(r, OPEN);
    return true; /* a part is expected, as before */
}

static bool close_one(reading *r)
{
    if (r->open == 0)
        return false;
    r->open--;
    keep(r, CLOSE);
    return true; /* a part has ended, as before */
}

static bool read_part(reading *r, uint8_t byte)
{
    switch (byte) {
    case ' ':
        return true;
    case '!':
        return node(r, NOT, PART);
    case '(':
        return open_one(r);
    case 'I':
        return begin_name(r, &INPUTS);
    case 'B':
        return begin_name(r, &OUTPUTS);
    default:
        return begin_name(r, &CONSTANTS) && read_digit(r, byte);
    }
}

static bool read_after(reading *r, uint8_t byte)
{
    switch (byte) {
    case ' ':
        return true;
    case '&':
        return node(r, AND, PART);
    case '^':
        return node(r, XOR, PART);
    case '|':
        return node(r, OR, PART);
    case '!':
        r->next = OTHER;
        return true;
    case ')':
        return close_one(r);
    default:
        return false;
    }
}

static bool read_other(reading *r, uint8_t byte)
{
    switch (byte) {
    case '&':
        return node(r, NAND, PART);
    case '|':
        return node(r, NOR, PART);
    default:
        return false;
    }
}

/* Reads a byte; false if it may not stand there. */
static bool read_byte(reading *r, uint8_t byte)
{
    switch (r->next) {
    case PART:
        return read_part(r, byte);
    case DIGIT:
        return read_digit(r, byte);
    case AFTER:
        return read_after(r, byte);
    default:
        return read_other(r, byte);
    }
}

/* Reads the text; false if it is bad, at *place. */
static bool read_text(reading *r, const uint8_t *text, size_t length, size_t *place)
{
    size_t i;

    r->next = PART;
    r->open = 0;
    r->nodes = 0;
    r->count = 0;
    for (i = 0; i < length; i++) {
        if (!read_byte(r, text[i])) {
            *place = i;
            return false;
        }
    }
    *place = length; /* if it stops too soon */
    return r->next == AFTER && r->open == 0;
}

/* ---- Second pass: the signs ---- */

/* How tightly a waiting sign holds; a parenthesis holds nothing beyond it. */
static unsigned tightness(uint8_t sign)
{
    switch (sign) {
    case AND:
    case NAND:
        return 3;
    case XOR:
        return 2;
    case OR:
    case NOR:
        return 1;
    default:
        return 0;
    }
}

/* Writes the nodes of a good text that has no more than there is room for.
 * From the right to the left they come out last to first.  A name is a node at
 * once, and so is a NOT: what was written just before it is its part, and that
 * is whole.  A two-part operator still waits for its first part.  This reaches
 * to the left over all that holds tighter, and over what holds as tightly,
 * because those group to the left; what ends it is a looser operator, the
 * parenthesis or the beginning of the text. */
static void write_nodes(const reading *r, uint8_t *nodes)
{
    uint8_t waiting[MOST_SIGNS];
    size_t waits = 0;
    size_t room = r->nodes; /* the places still to be written are those before it */
    size_t i;

    for (i = r->count; i-- > 0;) {
        uint8_t sign = r->signs[i];

        if (sign == CLOSE) {
            waiting[waits++] = sign;
        } else if (sign == OPEN) {
            while (waiting[waits - 1] != CLOSE)
                nodes[--room] = waiting[--waits];
            waits--;
        } else if (tightness(sign) > 0) {
            while (waits > 0 && tightness(waiting[waits - 1]) > tightness(sign))
                nodes[--room] = waiting[--waits];
            waiting[waits++] = sign;
        } else {
            nodes[--room] = sign;
        }
    }
    while (waits > 0)
        nodes[--room] = waiting[--waits];
}

/* The depth of the deepest node, from the last node to the first: a part's
 * height is known when its operator is met, and the first part's lies on top. */
static unsigned deepest(const uint8_t *nodes, size_t count)
{
    uint8_t heights[ORACLE_NODES];
    size_t parts = 0;
    size_t i;

    for (i = count; i-- > 0;) {
        if (nodes[i] >= LEAF) {
            heights[parts++] = 1;
            continue;
        }
        if (nodes[i] != NOT) {
            uint8_t first = heights[--parts];

            if (first > heights[parts - 1])
                heights[parts - 1] = first;
        }
        heights[parts - 1]++;
    }
    return heights[0];
}

/* ---- The call ---- */

static oracle_formula refused(unsigned refusal, size_t place)
{
    oracle_formula f = {0};

    f.refusal = refusal;
    f.place = place;
    return f;
}

oracle_formula oracle_read_formula(const uint8_t *text, size_t length)
{
    oracle_formula f = {0};
    reading r;
    size_t place;

    if (!read_text(&r, text, length, &place))
        return refused(ORACLE_BAD_TEXT, place);
    if (r.nodes > ORACLE_NODES)
        return refused(ORACLE_OUTSIDE, 0);
    write_nodes(&r, f.nodes);
    if (deepest(f.nodes, r.nodes) > MOST_DEPTH)
        return refused(ORACLE_OUTSIDE, 0);
    f.count = r.nodes;
    return f;
}
