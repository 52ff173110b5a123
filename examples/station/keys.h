/* The keys' names. A line "e10 jaw shut" of a procedure's free text names key 10. */
#ifndef KEYS_H
#define KEYS_H

#include "procedure.h"

enum { KEYS = SEQ_MOST_CODE + 1, MOST_NAME = 40 };

/* Each name lies in the procedure's text and has at most MOST_NAME bytes; it has none where a key is not named. */
struct keys {
    struct {
        const uint8_t *bytes;
        size_t length;
    } names[KEYS];
};

/* A set of keys, as the library gives it: 0 to 63 as bits of the first word, the others of the second. */
struct key_set {
    uint64_t low, high;
};

void read_keys(const struct procedure *p, struct keys *keys);
void print_key(const struct keys *keys, unsigned code);
void print_keys(const struct keys *keys, struct key_set set);

/* Indented, as many on a line as fit, for sets that may be long. */
void print_key_lines(const struct keys *keys, struct key_set set);

/* The free text, in plain ASCII. */
void print_text(const struct procedure *p);

#endif
