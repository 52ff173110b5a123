/* An event as it is typed: 11, e11, 11*6 or e11*6. */
#ifndef TYPED_H
#define TYPED_H

#include <stddef.h>

/* Reads a word; says what is wrong and gives 0 if it is no event. */
int read_event(const char *word, unsigned *code, size_t *times);

#endif
