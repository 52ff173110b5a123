#include "state.h"

#include "procedure.h"

void state_bytes(const struct state *state, uint8_t bytes[SEQ_STATE_BYTES])
{
    put_number(bytes, state->reached);
    for (unsigned i = 0; i < SEQ_MOST_REPEATS; i++)
        put_number(bytes + 2 + 2 * i, state->counters[i]);
}
