/* A procedure file in the station's memory, its text and its nodes. */
#ifndef PROCEDURE_H
#define PROCEDURE_H

#include <stddef.h>
#include <stdint.h>

#include "seqp.h"

enum { NODE_BYTES = 8, TRAILER_BYTES = 12, MOST_TEXT = 4096, MOST_BOUND = 4096, NO_BOUND = 65535 };

enum kind { EMPTY, EVENT, CHOICE, SEQUENCE, REPEAT, KINDS };

/* One byte more than a file may have, so that one that is too long is known. */
struct procedure {
    uint8_t bytes[SEQ_FILE_MOST_BYTES + 1];
    size_t length;
};

struct node {
    unsigned kind, code, fields[3];
};

struct trailer {
    const uint8_t *letters;
    unsigned nodes, edition;
    uint32_t distance;
};

/* Reads a file; says why on standard error and gives 0 if it can't. */
int load_procedure(const char *path, struct procedure *p);

/* For a file that has at least a trailer's length. */
struct trailer trailer_of(const struct procedure *p);

/* For files that are answered with 0, or with 4 and above. */
unsigned node_count(const struct procedure *p);
size_t text_length(const struct procedure *p);
struct node node_at(const struct procedure *p, unsigned number);

unsigned two_bytes(const uint8_t *at);

#endif
