/* formula < texts
 *
 * Reads a formula on each line and prints its node numbers, and the bytes of the
 * block: a BL.  What is refused it prints with a mark under the bad byte.
 */
#include <inttypes.h>
#include <stdbool.h>
#include <stdio.h>
#include <string.h>

#include "lanwezik.h"

enum { MOST_LINE = 4096, KIND_BL = 0, GROUP = 128 };

/* Prints the bytes of a number below 16,384: groups of seven bits, lowest first. */
static void print_number(uint32_t number)
{
    if (number < GROUP)
        printf(" %02" PRIX32, number);
    else
        printf(" %02" PRIX32 " %02" PRIX32, GROUP + number % GROUP, number / GROUP);
}

static void print_nodes(const lanwezik_expression *expression)
{
    uint32_t i;

    printf("nodes");
    for (i = 0; i < expression->count; i++)
        printf(" %u", (unsigned)expression->nodes[i]);
    printf("\nblock");
    print_number(KIND_BL);
    for (i = 0; i < expression->count; i++)
        print_number(expression->nodes[i]);
    putchar('\n');
}

/* Prints the line again, and a mark under the byte at a place. */
static void print_mark(const char *line, uint64_t place)
{
    printf("%s\n%*s^\n", line, (int)place, "");
}

/* Prints what a line is answered. */
static void read_line(const char *line)
{
    lanwezik_expression expression = lanwezik_formula((const uint8_t *)line, strlen(line));

    switch (expression.refusal) {
    case LANWEZIK_GOOD:
        print_nodes(&expression);
        break;
    case LANWEZIK_BAD_TEXT:
        printf("refused 7 at %" PRIu64 "\n", expression.place);
        print_mark(line, expression.place);
        break;
    default:
        printf("refused %" PRIu32 ": more than 63 operators and names, or more than 16 deep\n", expression.refusal);
        break;
    }
}

int main(void)
{
    char line[MOST_LINE];

    while (fgets(line, sizeof line, stdin) != NULL) {
        size_t length = strcspn(line, "\n");

        if (length == sizeof line - 1) {
            fputs("a line is too long\n", stderr);
            return 1;
        }
        line[length] = '\0';
        read_line(line);
    }
    return ferror(stdin) || fflush(stdout) != 0;
}
