/* stack
 *
 * How much stack a formula takes: reads texts of a million bytes, and the deepest
 * ones there are, on a stack that was painted before, and prints what each is
 * answered and how many bytes of the stack were written.  Ends with status 1 if
 * a text takes more than the 16 parentheses do.
 */
#include <inttypes.h>
#include <pthread.h>
#include <stdbool.h>
#include <stdio.h>
#include <stdlib.h>
#include <string.h>

#include "lanwezik.h"

enum { LONG = 1000000, ROOM = 1 << 20, PAINT = 0xA5, OPEN = 16 };

static _Alignas(4096) unsigned char stack[ROOM];
static uint8_t text[LONG];
static size_t length;
static lanwezik_expression answer;

static void *call(void *nothing)
{
    answer = lanwezik_formula(text, length);
    return nothing;
}

/* Reads the text on the painted stack; the bytes that were written. */
static size_t used(void)
{
    pthread_attr_t attributes;
    pthread_t thread;
    size_t clean = 0;

    memset(stack, PAINT, sizeof stack);
    if (pthread_attr_init(&attributes) != 0 || pthread_attr_setstack(&attributes, stack, sizeof stack) != 0
        || pthread_create(&thread, &attributes, call, NULL) != 0 || pthread_join(thread, NULL) != 0) {
        fputs("no thread\n", stderr);
        exit(2);
    }
    while (clean < sizeof stack && stack[clean] == PAINT)
        clean++;
    return sizeof stack - clean;
}

static void put(const char *what, size_t times)
{
    size_t size = strlen(what);

    for (; times > 0 && length + size <= sizeof text; times--) {
        memcpy(text + length, what, size);
        length += size;
    }
}

/* Reads the text, prints what it is and takes, and begins a new one. */
static size_t try_text(const char *name)
{
    size_t bytes = used();

    printf("%-52s %7zu bytes: refusal %" PRIu32 " at %" PRIu64 ", %" PRIu32 " nodes, stack %zu\n", name, length,
           answer.refusal, answer.place, answer.count, bytes);
    length = 0;
    return bytes;
}

int main(void)
{
    size_t least, most;
    bool within = true;

    put("1", 1);
    least = try_text("1");
    put("!(1&1^1|(", OPEN / 2);
    put("1", 1);
    put("))", OPEN / 2);
    most = try_text("16 parentheses");
    put("!", LONG);
    within = try_text("a million `!`") <= most && within;
    put("(", LONG);
    within = try_text("a million `(`") <= most && within;
    put("!(", LONG);
    within = try_text("`!(` half a million times") <= most && within;
    put(" ", LONG);
    within = try_text("a million spaces") <= most && within;
    put("1&", LONG);
    within = try_text("`1&` half a million times") <= most && within;
    put("!", LONG - 1);
    put("1", 1);
    within = try_text("`!` but for the last byte, a name") <= most && within;
    put("1", 1);
    put("^!1", LONG);
    within = try_text("`^!1` as often as there is room") <= most && within;
    printf("16 parentheses take %zu bytes of stack over those that none take; %s\n", most - least,
           within ? "no text takes more" : "A TEXT TAKES MORE");
    return within ? 0 : 1;
}
