/* Records in files. */
#ifndef STORED_H
#define STORED_H

#include <stddef.h>
#include <stdint.h>

#include "seqp.h"

/* A run of one event inside 32 repeats has so many items, and each further event adds no more. */
enum { MOST_ITEMS_AN_EVENT = 2 * SEQ_MOST_REPEATS + 1 };

/*
 * Writes a record into a file that is not there yet; says why and gives 0 if it can't, and then leaves nothing. The
 * file gets its name when it is whole: up to then it is FILE.part, since a shorter file might be a record too, and
 * the empty one is where nothing need be done.
 */
int store_record(const char *path, const uint8_t *record, size_t length);

/* A record, at most as long as one that the station saves, to be freed; says why and gives NULL if it can't. */
uint8_t *load_record(const char *path, size_t *length);

#endif
