/* How many blocks the repeats around a run's place have, and how many they may have. */
#ifndef BLOCKS_H
#define BLOCKS_H

#include "keys.h"
#include "procedure.h"

/* Of each repeat around the place that a state of this procedure reaches; nothing where there is none. */
void print_blocks(const struct procedure *p, const struct keys *keys, const uint8_t state[SEQ_STATE_BYTES]);

#endif
