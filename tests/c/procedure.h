/*
 * Procedure files for the tests, from the request's own notation: events a to z without e, or #N for code N, which
 * may be any byte; e is empty; + is choice; parts side by side are a sequence; {k,l} or {k,} after a part is a repeat.
 */
#ifndef PROCEDURE_H
#define PROCEDURE_H

#include <stddef.h>
#include <stdint.h>

#include "seqp.h"

enum { NODE_BYTES = 8, TRAILER_BYTES = 12, NO_BOUND = 65535 };

/* Room for one byte more than a file may have. */
struct procedure {
    uint8_t bytes[SEQ_FILE_MOST_BYTES + 1];
    size_t length;
};

struct procedure procedure_of(const char *notation);

/* So many codes, from the first on in equal steps. */
struct series {
    int first, step, count;
};

/* Writes the choice of these events in that notation, in brackets, and gives the place behind it. */
char *put_choice(char *at, struct series codes);

/* a with so many repeats around it, all with the same bounds. */
struct procedure nested_of(const char *bounds, int repeats);

/* The same nodes behind so many bytes of free text. */
struct procedure with_text(const struct procedure *from, size_t text_length);

/* Two bytes, little-endian. */
void put_number(uint8_t *at, unsigned number);

/* Where a 2-byte field of a node stands in a file without text: 0 is kind and code, 1 to 3 the fields. */
uint8_t *field_of(struct procedure *p, unsigned node, unsigned field);
/* Where byte number `at` of the trailer stands. */
uint8_t *trailer_of(struct procedure *p, unsigned at);

/* The codes of a run that is written in the same letters and numbers; gives how many. */
size_t run_of(const char *notation, uint8_t *codes);

#endif
