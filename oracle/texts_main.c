/* texts FIRST LAST
 *
 * Prints the texts of those seeds, a line each in the escaped form: bytes 33 to
 * 126 but for \ and @, and the space, stand for themselves, any other is \hh.
 */
#include <errno.h>
#include <inttypes.h>
#include <stdbool.h>
#include <stdio.h>
#include <stdlib.h>

#include "texts.h"

static bool read_seed(const char *word, uint64_t *seed)
{
    char *end;

    errno = 0;
    *seed = strtoull(word, &end, 10);
    return *word >= '0' && *word <= '9' && *end == '\0' && errno == 0;
}

static void print_escaped(const uint8_t *text, size_t length)
{
    size_t i;

    for (i = 0; i < length; i++) {
        uint8_t byte = text[i];

        if (byte >= 32 && byte <= 126 && byte != '\\' && byte != '@')
            putchar(byte);
        else
            printf("\\%02" PRIX8, byte);
    }
    putchar('\n');
}

int main(int argc, char **argv)
{
    static uint8_t text[ORACLE_MOST_TEXT];
    uint64_t first, last, seed;

    if (argc != 3 || !read_seed(argv[1], &first) || !read_seed(argv[2], &last)) {
        fputs("usage: texts FIRST LAST\n", stderr);
        return 2;
    }
    for (seed = first; seed <= last; seed++) {
        print_escaped(text, oracle_text(seed, text, sizeof text));
        if (seed == last)
            break; /* it may be the greatest there is */
    }
    if (fflush(stdout) != 0) {
        fputs("texts: the texts could not be written\n", stderr);
        return 1;
    }
    return 0;
}
