/* Whole programs as a listing, request L4, read a second time; the form of the
 * lines is that of docs/LISTING.md.
 *
 * The calls answer for any bytes of any length; a pointer may be null where its
 * length is 0.  What is lent as `out` lies apart from what is read.  Refused, no
 * byte of it changes; else the result stands at its front and no other byte of
 * it changes.  They take memory as they need it, and abort if there is none.
 */
#ifndef ORACLE_LISTING_H
#define ORACLE_LISTING_H

#include <stddef.h>
#include <stdint.h>

enum {
    ORACLE_SHORT = 12 /* a number of refusal: the buffer is too short, at 0 */
};

typedef struct {
    unsigned refusal; /* 0, or on export 1 to 4, 8 or 12, on import 7, 2 to 4 or 12 */
    size_t place;     /* of 7: in the text; of 1 to 3 and 8: in the program; else 0 */
    size_t length;    /* of the result; 0 if refused */
} oracle_exchange;

/* Makes the listing of a program. */
oracle_exchange oracle_export_program(const uint8_t *program, size_t length,
                                      uint8_t *out, size_t room);

/* Makes the program of a listing. */
oracle_exchange oracle_import_listing(const uint8_t *text, size_t length,
                                      uint8_t *out, size_t room);

#endif
