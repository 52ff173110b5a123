/*
 * Memory lent to a call, with unreachable pages on either side. A slice stands at the beginning of what is
 * reachable or at its end, so that one byte before it, or one behind it, ends the test. An empty slice may be lent as
 * a null pointer too, as C callers do.
 */
#ifndef LENT_H
#define LENT_H

#include <stddef.h>
#include <stdint.h>

enum side { AT_BEGINNING, AT_END, AT_END_OR_NULL };

struct lent {
    uint8_t *bytes;
    size_t length;
    uint8_t *mapping;
    size_t mapped;
};

/* A copy of the bytes: to be read only, or to be written too. */
struct lent lend(const uint8_t *bytes, size_t length, enum side side);
struct lent lend_writable(const uint8_t *bytes, size_t length, enum side side);
void take_back(struct lent *lent);

/* Space and results are lent full of junk: byte i holds junk_at(i). */
struct lent lend_junk(size_t length, enum side side);
uint8_t junk_at(size_t i);

#endif
