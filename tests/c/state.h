/* The 66 bytes of a state, from the node reached and the counters. */
#ifndef STATE_H
#define STATE_H

#include <stdint.h>

#include "seqp.h"

/* The first number is 0 at the start, or else 1 + the event node reached; the others count blocks. */
struct state {
    uint16_t reached;
    uint16_t counters[SEQ_MOST_REPEATS];
};

void state_bytes(const struct state *state, uint8_t bytes[SEQ_STATE_BYTES]);

#endif
