/* formulas < texts
 *
 * Reads a text on each line and prints its answer on one: refusal, place, count
 * and the nodes.  A line is in the escaped form that `texts` writes, or it is
 * `@N hh`, a text of N times the byte hh.
 */
#include <stdbool.h>
#include <stdio.h>

#include "formula.h"

enum { MOST_TEXT = 1000000 };

static struct {
    uint8_t bytes[MOST_TEXT];
    size_t length;
} text;

/* The value of a hexadecimal digit, a capital if a letter; -1 if it is none. */
static int hex_digit(int c)
{
    if (c >= '0' && c <= '9')
        return c - '0';
    return c >= 'A' && c <= 'F' ? c - 'A' + 10 : -1;
}

/* Reads two hexadecimal digits; -1 if they are not there. */
static int read_hex(void)
{
    int high = hex_digit(getchar());
    int low = high < 0 ? -1 : hex_digit(getchar());

    return low < 0 ? -1 : 16 * high + low;
}

/* Adds a byte to the text; false if there is none, or no room. */
static bool add(int byte)
{
    if (byte < 0 || text.length == MOST_TEXT)
        return false;
    text.bytes[text.length++] = (uint8_t)byte;
    return true;
}

/* Reads the rest of a line `@N hh`. */
static bool read_repeated(void)
{
    size_t times = 0;
    int c, byte;

    while ((c = getchar()) >= '0' && c <= '9') {
        times = 10 * times + (size_t)(c - '0');
        if (times > MOST_TEXT)
            return false;
    }
    if (c != ' ' || (byte = read_hex()) < 0 || getchar() != '\n')
        return false;
    while (times-- > 0)
        add(byte);
    return true;
}

/* Reads the rest of a line of which c is the first byte. */
static bool read_escaped(int c)
{
    for (; c != '\n'; c = getchar()) {
        if (c < 32 || c > 126 || c == '@')
            return false;
        if (!add(c == '\\' ? read_hex() : c))
            return false;
    }
    return true;
}

static void print_answer(const oracle_formula *f)
{
    size_t i;

    printf("%u %zu %zu", f->refusal, f->place, f->count);
    for (i = 0; i < f->count; i++)
        printf(" %u", (unsigned)f->nodes[i]);
    putchar('\n');
}

int main(void)
{
    int c;

    while ((c = getchar()) != EOF) {
        oracle_formula f;

        text.length = 0;
        if (!(c == '@' ? read_repeated() : read_escaped(c))) {
            fflush(stdout);
            fputs("formulas: a line is not in the escaped form, or is too long\n", stderr);
            return 2;
        }
        f = oracle_read_formula(text.bytes, text.length);
        print_answer(&f);
    }
    return 0;
}
