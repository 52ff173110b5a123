/* Records from their items' numbers. */
#ifndef RECORD_H
#define RECORD_H

#include <stddef.h>
#include <stdint.h>

enum { MOST_ITEMS = 16 };

/* Lays out the items, two bytes each, and gives the length in bytes. */
size_t record_bytes(const uint16_t *items, size_t count, uint8_t *bytes);

/* Lays out one item and moves behind it. */
void put_item(uint8_t **at, unsigned node, unsigned mark);

#endif
