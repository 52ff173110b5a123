/* A record, shown with its blocks indented. */
#ifndef RECORD_H
#define RECORD_H

#include "keys.h"
#include "procedure.h"

/* For a record that the library's check accepted. A long one is cut, and the rest counted. */
void print_record(const struct procedure *p, const struct keys *keys, const uint8_t *record, size_t length);

#endif
