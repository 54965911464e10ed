/* A formula typed as text, request L1, read a second time.
 *
 * The call keeps no memory of its own and answers for any bytes of any length.
 */
#ifndef ORACLE_FORMULA_H
#define ORACLE_FORMULA_H

#include <stddef.h>
#include <stdint.h>

enum {
    ORACLE_BAD_TEXT = 7, /* a number of refusal, beside those of controller.h */
    ORACLE_NODES = 63    /* the most of one expression */
};

typedef struct {
    unsigned refusal; /* 0, 2 or 7 */
    size_t place;     /* of a bad text: where it goes wrong; else 0 */
    size_t count;     /* 0 if refused */
    uint8_t nodes[ORACLE_NODES]; /* operator first, zero beyond those counted */
} oracle_formula;

/* Reads a text as the nodes of a BL expression: refusal 7, then 2. */
oracle_formula oracle_read_formula(const uint8_t *text, size_t length);

#endif
