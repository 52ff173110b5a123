/* The run that is under way: its events, its state and what the library says of it. */
#ifndef RUN_H
#define RUN_H

#include "keys.h"
#include "procedure.h"

/* A break stays until the run begins anew, though the library does not keep it in the state. */
struct run {
    uint8_t events[SEQ_MOST_RUN];
    size_t length;
    uint8_t state[SEQ_STATE_BYTES];
    uint32_t verdict;
    int is_saved; /* with all its events, in a file */
};

void begin_run(const struct procedure *p, struct run *run);

/* Takes one key so many times and says how the run stands; gives 0 if it was not all taken. */
int take_key(const struct procedure *p, const struct keys *keys, struct run *run, unsigned code, size_t times);

/*
 * Whether the run is complete and in no file, so that its end would be a loss. One without events is none, though
 * some procedures are complete with it: nothing was done.
 */
int is_unsaved(const struct run *run);

/* The keys that can come next; none after a break. */
void print_lit(const struct procedure *p, const struct keys *keys, const struct run *run);
void print_run(const struct keys *keys, const struct run *run);

const char *verdict_name(uint32_t verdict);

#endif
