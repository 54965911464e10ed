/* listings < lines
 * listings E FIRST LAST
 * listings I FIRST LAST
 *
 * Reads a program or a listing on each line and prints its answer on one:
 * refusal, place, length and the result.  A line `E hh..` is a program to
 * export, in hexadecimal digits, and its result is a text in the escaped form
 * that `texts` writes.  A line `I text` is a listing to import, in that form, and
 * its result is in hexadecimal digits.  `E<n>` and `I<n>` lend a buffer of n
 * bytes, others one that is long enough.
 *
 * With a letter and seeds it prints such lines: the programs or the listings of
 * those seeds.
 */
#include <errno.h>
#include <inttypes.h>
#include <stdbool.h>
#include <stdio.h>
#include <stdlib.h>
#include <string.h>

#include "listing.h"
#include "listings.h"
#include "recordings.h"

enum { MOST_ROOM = 16777216, ENOUGH = 65536 };

static struct {
    uint8_t *bytes;
    size_t length;
    size_t room;
} given;

/* Adds a byte; false if there is none, or no room. */
static bool add(int byte)
{
    if (byte < 0)
        return false;
    if (given.length == given.room) {
        size_t room = given.room == 0 ? 4096 : 2 * given.room;
        uint8_t *bytes = realloc(given.bytes, room);

        if (bytes == NULL)
            return false;
        given.bytes = bytes;
        given.room = room;
    }
    given.bytes[given.length++] = (uint8_t)byte;
    return true;
}

/* The value of a hexadecimal digit; -1 if it is none. */
static int hex_digit(int c)
{
    if (c >= '0' && c <= '9')
        return c - '0';
    if (c >= 'a' && c <= 'f')
        return c - 'a' + 10;
    return c >= 'A' && c <= 'F' ? c - 'A' + 10 : -1;
}

/* Reads a hexadecimal digit more; -1 if they are not two. */
static int read_hex(int c)
{
    int high = hex_digit(c);
    int low = high < 0 ? -1 : hex_digit(getchar());

    return low < 0 ? -1 : 16 * high + low;
}

/* Reads the rest of a line of bytes in hexadecimal digits. */
static bool read_program(void)
{
    int c;

    while ((c = getchar()) != '\n') {
        if (c != ' ' && !add(read_hex(c)))
            return false;
    }
    return true;
}

/* Reads the rest of a line in the escaped form. */
static bool read_escaped(void)
{
    int c;

    while ((c = getchar()) != '\n') {
        if (c < 32 || c > 126 || c == '@')
            return false;
        if (!add(c == '\\' ? read_hex(getchar()) : c))
            return false;
    }
    return true;
}

static void print_escaped(const uint8_t *text, size_t length)
{
    size_t i;

    for (i = 0; i < length; i++) {
        uint8_t byte = text[i];

        if (byte >= 32 && byte <= 126 && byte != '\\' && byte != '@')
            putchar(byte);
        else
            printf("\\%02" PRIX8, byte);
    }
}

static void print_hex(const uint8_t *bytes, size_t length)
{
    size_t i;

    for (i = 0; i < length; i++)
        printf("%02" PRIX8, bytes[i]);
}

/* Reads the room behind the letter, and the space or the end of line behind it;
 * false if it is too large.  *more if the line goes on. */
static bool read_room(size_t *room, bool *more)
{
    int c = getchar();

    *room = ENOUGH;
    if (c >= '0' && c <= '9') {
        *room = 0;
        for (; c >= '0' && c <= '9'; c = getchar()) {
            *room = 10 * *room + (size_t)(c - '0');
            if (*room > MOST_ROOM)
                return false;
        }
    }
    *more = c == ' ';
    return c == ' ' || c == '\n';
}

/* Answers a line of which c is the letter. */
static bool answer_line(int c)
{
    oracle_exchange answer;
    uint8_t *out;
    size_t room;
    bool more;

    given.length = 0;
    if ((c != 'E' && c != 'I') || !read_room(&room, &more))
        return false;
    if (more && !(c == 'E' ? read_program() : read_escaped()))
        return false;
    out = malloc(room > 0 ? room : 1);
    if (out == NULL)
        return false;
    if (c == 'E')
        answer = oracle_export_program(given.bytes, given.length, out, room);
    else
        answer = oracle_import_listing(given.bytes, given.length, out, room);
    printf("%u %zu %zu", answer.refusal, answer.place, answer.length);
    if (answer.length > 0) {
        putchar(' ');
        if (c == 'E')
            print_escaped(out, answer.length);
        else
            print_hex(out, answer.length);
    }
    putchar('\n');
    free(out);
    return true;
}

static bool read_seed(const char *word, uint64_t *seed)
{
    char *end;

    errno = 0;
    *seed = strtoull(word, &end, 10);
    return *word >= '0' && *word <= '9' && *end == '\0' && errno == 0;
}

static void print_seeds(char letter, uint64_t first, uint64_t last)
{
    static uint8_t made[ORACLE_MOST_LISTING];
    uint64_t seed;

    for (seed = first; seed <= last; seed++) {
        printf("%c ", letter);
        if (letter == 'E')
            print_hex(made, oracle_program(seed, made, sizeof made));
        else
            print_escaped(made, oracle_listing(seed, made, sizeof made));
        putchar('\n');
        if (seed == last)
            break; /* it may be the greatest there is */
    }
}

int main(int argc, char **argv)
{
    uint64_t first, last;
    int c;

    if (argc == 4 && (strcmp(argv[1], "E") == 0 || strcmp(argv[1], "I") == 0)
        && read_seed(argv[2], &first) && read_seed(argv[3], &last)) {
        print_seeds(argv[1][0], first, last);
    } else if (argc > 1) {
        fputs("usage: listings [E|I FIRST LAST]\n", stderr);
        return 2;
    } else {
        while ((c = getchar()) != EOF) {
            if (!answer_line(c)) {
                fflush(stdout);
                fputs("listings: a line is not in one of the forms, or is too long\n", stderr);
                return 2;
            }
        }
    }
    free(given.bytes);
    if (fflush(stdout) != 0) {
        fputs("listings: the answers could not be written\n", stderr);
        return 1;
    }
    return 0;
}
