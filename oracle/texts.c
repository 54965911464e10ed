/* Texts from a seed.  A good one is mostly made as a tree of as many nodes and
 * as deep as is wanted, and then written with the parentheses that it needs,
 * some that it does not need, and spaces.  A bad one is a good one damaged.
 * What is being made stands in one tree, one style and one text.
 */
#include "texts.h"

#include <stdbool.h>
#include <string.h>

#include "chance.h"

enum { NOT, AND, OR, XOR, NAND, NOR, LEAF };

enum {
    MOST_NODES = 63,
    MOST_DEPTH = 16,
    MOST_OPEN = 16,
    MOST_TREE = 256, /* nodes of any tree made here */
    BIT_INPUT = 2,
    BIT_OUTPUT = 34
};

/* ---- Bytes ---- */

static struct {
    uint8_t bytes[ORACLE_MOST_TEXT];
    size_t length;
} text;

static void put_byte(unsigned byte)
{
    if (text.length < sizeof text.bytes)
        text.bytes[text.length++] = (uint8_t)byte;
}

static void put_string(const char *s)
{
    for (; *s != '\0'; s++)
        put_byte((uint8_t)*s);
}

/* ---- Style: how a good text is written ---- */

typedef enum { NARROW, TYPED, LOOSE, WIDE } gaps;

static struct {
    gaps gaps;
    uint32_t extra;     /* percent of the parts with parentheses not needed */
    uint32_t most_open; /* parentheses open at once */
    uint32_t open;
} style;

static void set_style(void)
{
    static const gaps kinds[] = {NARROW, NARROW, TYPED, TYPED, TYPED, LOOSE, LOOSE, LOOSE, WIDE};
    static const uint32_t extras[] = {0, 0, 0, 5, 5, 20, 50};

    style.gaps = ONE_OF(kinds);
    style.extra = ONE_OF(extras);
    style.most_open = MOST_OPEN;
    style.open = 0;
}

/* Spaces where they may be; `usual` where a tidy writer has one. */
static void put_gap(bool usual)
{
    uint32_t spaces = 0;

    switch (style.gaps) {
    case NARROW:
        break;
    case TYPED:
        spaces = usual;
        break;
    case LOOSE:
        spaces = percent(50) ? below(3) : 0;
        break;
    case WIDE:
        spaces = percent(2) ? below(60) : below(5);
        break;
    }
    while (spaces-- > 0)
        put_byte(' ');
}

static void put_sign(const char *sign, bool usual)
{
    put_gap(usual);
    put_string(sign);
    put_gap(usual);
}

static void put_operator(unsigned node)
{
    static const char *const signs[LEAF] = {"!", "&", "|", "^", "!&", "!|"};

    put_sign(signs[node], node != NOT);
}

static void put_digits(unsigned number, unsigned unit)
{
    for (; unit > 0; unit /= 10)
        put_byte('0' + number / unit % 10);
}

static void put_name(unsigned reference)
{
    put_gap(false);
    if (reference < BIT_INPUT) {
        put_digits(reference, 1);
    } else if (reference < BIT_OUTPUT) {
        put_byte('I');
        put_digits(reference - BIT_INPUT + 1, 10);
    } else {
        put_byte('B');
        put_digits(reference - BIT_OUTPUT, 100);
    }
    put_gap(false);
}

/* A bit reference, often of a name at an end of some digit. */
static unsigned any_reference(void)
{
    static const uint8_t inputs[] = {1, 2, 9, 10, 11, 19, 20, 29, 30, 31, 32};
    static const uint8_t outputs[] = {0, 1, 9, 10, 19, 90, 99, 100, 101, 109, 190, 198, 199};

    switch (below(8)) {
    case 0:
        return below(2);
    case 1:
    case 2:
        return BIT_INPUT + ONE_OF(inputs) - 1u;
    case 3:
    case 4:
        return BIT_INPUT + below(32);
    case 5:
        return BIT_OUTPUT + ONE_OF(outputs);
    default:
        return BIT_OUTPUT + below(200);
    }
}

/* ---- Trees ---- */

static struct {
    struct {
        uint8_t node;
        uint16_t first;
        uint16_t second;
    } at[MOST_TREE];
    uint32_t count;
} tree;

/* The most nodes of a tree that is no deeper. */
static uint32_t full(uint32_t depth)
{
    return depth >= 12 ? 4095 : (1u << depth) - 1;
}

static uint32_t least(uint32_t a, uint32_t b)
{
    return a < b ? a : b;
}

static uint32_t most(uint32_t a, uint32_t b)
{
    return a > b ? a : b;
}

/* Between low and high: either anywhere or, as often, about the middle. */
static uint32_t share_of(uint32_t low, uint32_t high)
{
    if (percent(50))
        return low + below(high - low + 1);
    return low + (high - low) / 2;
}

/* Grows a tree of that many nodes and no deeper, or just as deep if it is to be
 * tall.  There have to be such trees.  Answers the root. */
static uint32_t grow(uint32_t nodes, uint32_t depth, bool tall)
{
    static const uint8_t two_part[] = {AND, OR, XOR, NAND, NOR};
    uint32_t root = tree.count++;
    uint32_t rest = nodes - 1;
    uint32_t below_it = depth - 1;
    uint32_t low, high, main_part;
    bool main_first;

    if (nodes == 1) {
        tree.at[root].node = (uint8_t)(LEAF + any_reference());
        return root;
    }
    /* The main part is the one that grows tall if one has to. */
    low = tall ? below_it : 1;
    if (rest > full(below_it))
        low = most(low, rest - full(below_it));
    high = least(rest - 1, full(below_it));
    if (rest <= full(below_it) && (low > high || percent(15))) {
        tree.at[root].node = NOT;
        tree.at[root].first = (uint16_t)grow(rest, below_it, tall);
        return root;
    }
    main_part = share_of(low, high);
    main_first = percent(60);
    tree.at[root].node = ONE_OF(two_part);
    if (main_first) {
        tree.at[root].first = (uint16_t)grow(main_part, below_it, tall);
        tree.at[root].second = (uint16_t)grow(rest - main_part, below_it, false);
    } else {
        tree.at[root].first = (uint16_t)grow(rest - main_part, below_it, false);
        tree.at[root].second = (uint16_t)grow(main_part, below_it, tall);
    }
    return root;
}

/* ---- Writing a tree ---- */

/* Which kind of list has the node for its last operator. */
typedef enum { OR_LIST, XOR_LIST, AND_LIST, ONE_PART } level;

static level level_of(unsigned node)
{
    switch (node) {
    case OR:
    case NOR:
        return OR_LIST;
    case XOR:
        return XOR_LIST;
    case AND:
    case NAND:
        return AND_LIST;
    default:
        return ONE_PART;
    }
}

/* The most parentheses open at once that the tree needs where at least the
 * given level is needed. */
static uint32_t needed(uint32_t root, level least_level)
{
    unsigned node = tree.at[root].node;
    level own = level_of(node);
    uint32_t inner = 0;

    if (node == NOT)
        inner = needed(tree.at[root].first, ONE_PART);
    else if (node < LEAF)
        inner = most(needed(tree.at[root].first, own),
                     needed(tree.at[root].second, own + 1));
    return own < least_level ? inner + 1 : inner;
}

static void put_tree(uint32_t root, level least_level)
{
    unsigned node = tree.at[root].node;
    level own = level_of(node);
    bool extra = percent(style.extra)
        && style.open + 1 + needed(root, OR_LIST) <= style.most_open;

    if (own < least_level || extra) {
        style.open++;
        put_sign("(", false);
        put_tree(root, OR_LIST);
        put_sign(")", false);
        style.open--;
    } else if (node >= LEAF) {
        put_name(node - LEAF);
    } else if (node == NOT) {
        put_operator(NOT);
        put_tree(tree.at[root].first, ONE_PART);
    } else {
        put_tree(tree.at[root].first, own);
        put_operator(node);
        put_tree(tree.at[root].second, own + 1);
    }
}

/* Writes a new tree of that many nodes and no deeper, or just as deep; another
 * one if it needs more parentheses than may be open. */
static void put_new_tree(uint32_t nodes, uint32_t depth, bool tall, level least_level)
{
    do {
        tree.count = 0;
        grow(nodes, depth, tall);
    } while (style.open + needed(0, least_level) > style.most_open);
    put_tree(0, least_level);
}

/* ---- Good texts ---- */

static void put_nots(uint32_t count)
{
    while (count-- > 0)
        put_operator(NOT);
}

/* Parts with operators of any kind between them, all on one line. */
static void put_flat(uint32_t parts, uint32_t most_nots, uint32_t most_nodes)
{
    uint32_t i;

    for (i = 0; i < parts; i++) {
        if (i > 0)
            put_operator(1 + below(LEAF - 1));
        put_nots(percent(70) ? 0 : below(most_nots + 1));
        put_new_tree(percent(60) ? 1 : 1 + below(most_nodes), MOST_DEPTH, false, ONE_PART);
    }
}

/* Few nodes and many parentheses, as many as may be open. */
static void put_nested(void)
{
    style.extra = (uint32_t)between(70, 95);
    put_new_tree(1 + below(6), MOST_DEPTH, false, OR_LIST);
}

static void put_within(void)
{
    uint32_t depth, kind = below(100);

    if (kind < 30) {
        put_new_tree(1 + below(9), MOST_DEPTH, false, OR_LIST);
    } else if (kind < 48) {
        put_new_tree(10 + below(50), MOST_DEPTH, false, OR_LIST);
    } else if (kind < 58) {
        put_new_tree(MOST_NODES - below(3), 6 + below(11), false, OR_LIST);
    } else if (kind < 74) {
        depth = MOST_DEPTH - below(3);
        put_new_tree(depth + below(percent(30) ? MOST_NODES - depth + 1 : 12), depth, true, OR_LIST);
    } else if (kind < 90) {
        put_flat(2 + below(6), 3, 5);
    } else {
        put_nested();
    }
}

/* How many parts or NOTs: mostly not many more than the least, seldom so many
 * that the text takes thousands of bytes, for which it may not be wide. */
static uint32_t any_length(uint32_t least_length)
{
    if (percent(80))
        return least_length + below(40);
    if (style.gaps == WIDE)
        style.gaps = TYPED;
    return 100 + below(500);
}

/* A text that is good but for the bounds, often just over one of them. */
static void put_over(void)
{
    uint32_t depth, kind = below(100);

    if (kind < 45) {
        put_new_tree(MOST_NODES + 1 + (percent(70) ? below(2) : below(100)), 8 + below(9), false, OR_LIST);
    } else if (kind < 80) {
        depth = MOST_DEPTH + 1 + (percent(70) ? 0 : below(4));
        put_new_tree(depth + below(percent(30) ? MOST_NODES - depth + 1 : 12), depth, true, OR_LIST);
    } else if (kind < 90) {
        put_flat(any_length(33), 2, 1);
    } else {
        put_nots(any_length(MOST_DEPTH));
        put_new_tree(1 + below(9), MOST_DEPTH, false, ONE_PART);
    }
}

/* Writes a text with spaces at both ends, after what is there. */
static void put_good(bool over)
{
    set_style();
    put_gap(false);
    if (over)
        put_over();
    else
        put_within();
    put_gap(false);
}

/* ---- Damage ---- */

static const char SIGNS[] = "!!&&||^^()()IB0123 ";

static uint8_t any_byte(void)
{
    return percent(60) ? (uint8_t)SIGNS[below(sizeof SIGNS - 1)] : (uint8_t)below(256);
}

/* Puts a byte before that place. */
static void insert(size_t place, uint8_t byte)
{
    put_byte(0);
    memmove(text.bytes + place + 1, text.bytes + place, text.length - place - 1);
    text.bytes[place] = byte;
}

static void drop(size_t place)
{
    text.length--;
    memmove(text.bytes + place, text.bytes + place + 1, text.length - place);
}

static void swap(size_t a, size_t b)
{
    uint8_t byte = text.bytes[a];

    text.bytes[a] = text.bytes[b];
    text.bytes[b] = byte;
}

/* A place of the text, not where a space is if others can be found. */
static size_t any_place(void)
{
    size_t place = 0;
    unsigned tries;

    for (tries = 0; tries < 3; tries++) {
        place = below((uint32_t)text.length);
        if (text.bytes[place] != ' ')
            break;
    }
    return place;
}

/* Changes a name's digit, or the letter, to one that may be wrong. */
static void spoil_name(size_t place)
{
    static const char likely[] = "0123456789IBibO";
    size_t i;

    for (i = 0; i < text.length; i++) {
        size_t here = (place + i) % text.length;
        uint8_t byte = text.bytes[here];

        if (byte == 'I' || byte == 'B' || (byte >= '0' && byte <= '9')) {
            text.bytes[here] = (uint8_t)likely[below(sizeof likely - 1)];
            return;
        }
    }
}

static void damage_once(void)
{
    size_t place;

    if (text.length == 0 || text.length == sizeof text.bytes) {
        text.length = 0;
        put_byte(any_byte());
        return;
    }
    place = any_place();
    switch (below(9)) {
    case 0:
        text.bytes[place] = any_byte();
        break;
    case 1:
        drop(place);
        break;
    case 2:
        insert(place, text.bytes[place]);
        break;
    case 3:
        swap(place, place > 0 ? place - 1 : text.length - 1);
        break;
    case 4:
        swap(place, any_place());
        break;
    case 5:
        text.length = place;
        break;
    case 6:
        insert(place, any_byte());
        break;
    case 7:
        insert(place, (uint8_t)below(256));
        break;
    default:
        spoil_name(place);
        break;
    }
}

/* More parentheses open than may be: a 17th, seldom an 18th. */
static void put_too_nested(void)
{
    uint32_t i, over = MOST_OPEN + (percent(80) ? 1 : 2);

    set_style();
    if (percent(50))
        put_flat(1 + below(3), 1, 4);
    if (percent(50) && text.length > 0)
        put_operator(1 + below(LEAF - 1));
    for (i = 0; i < over; i++)
        put_sign("(", false);
    style.most_open += over;
    put_new_tree(1 + below(4), MOST_DEPTH, false, OR_LIST);
    for (i = 0; i < over; i++)
        put_sign(")", false);
}

/* Bytes in no order. */
static void put_nonsense(void)
{
    uint32_t length = percent(20) ? below(2) : below(30);
    bool blank = percent(15);
    bool signs = percent(80);

    while (length-- > 0)
        put_byte(blank ? ' ' : signs ? any_byte() : below(256));
}

static void put_bad(void)
{
    uint32_t kind = below(100);

    if (kind < 6) {
        put_too_nested();
    } else if (kind < 12) {
        put_nonsense();
    } else if (kind < 20) {
        put_good(percent(20));
        put_good(percent(20));
    } else {
        put_good(percent(20));
        damage_once();
        while (percent(25))
            damage_once();
    }
}

/* ---- The call ---- */

size_t oracle_text(uint64_t seed, uint8_t *out, size_t room)
{
    uint32_t kind;

    chance_state = seed;
    text.length = 0;
    kind = below(100);
    if (kind < 46)
        put_good(false);
    else if (kind < 55)
        put_good(true);
    else
        put_bad();
    if (text.length > room)
        text.length = room;
    if (text.length > 0)
        memcpy(out, text.bytes, text.length);
    return text.length;
}
