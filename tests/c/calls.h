/*
 * The five calls, each made three times: with every slice and result at the beginning of what is reachable, with
 * every one at its end, and so again with a null pointer for each empty slice. Files, runs, events, records and the
 * state of a prompt are lent for reading only. Results and space are lent full of junk. Each call is one case, and
 * all that it gives is compared.
 */
#ifndef CALLS_H
#define CALLS_H

#include <stddef.h>
#include <stdint.h>

#include "codes.h"
#include "seqp.h"
#include "tally.h"

struct slice {
    const uint8_t *bytes;
    size_t length;
};

/* All but the answer and the node is 0 where the answer is not 7. */
struct judgement {
    uint32_t answer, node, kind, code;
    struct codes shared;
    uint32_t count;
};

struct followed {
    uint32_t answer;
    uint64_t taken;
    uint32_t verdict;
};

void expect_judge(struct tally *t, const char *name, struct slice file, struct judgement wanted);

/* The state afterwards has the length of the state before. */
void expect_follow(struct tally *t, const char *name, struct slice file, struct slice state, struct slice events,
                   struct followed wanted, const uint8_t *state_after);

/* The record wanted is empty where the answer is a refusal. */
void expect_write(struct tally *t, const char *name, struct slice file, struct slice run, size_t space_length,
                  uint32_t answer, struct slice record);

void expect_check(struct tally *t, const char *name, struct slice file, struct slice record, uint32_t answer,
                  uint32_t yes);

void expect_prompt(struct tally *t, const char *name, struct slice file, struct slice state, uint32_t answer,
                   struct codes lit);

#endif
