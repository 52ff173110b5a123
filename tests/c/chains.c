/* Procedures of 512 nodes, as one-sided as they can be, through every call. */
#include <stdio.h>
#include <string.h>

#include "calls.h"
#include "procedure.h"
#include "record.h"
#include "sections.h"
#include "state.h"

enum {
    MOST_NOTATION = 4096,
    CHAIN_EVENTS = SEQ_MOST_NODES / 2,
    CODES = SEQ_MOST_CODE + 1
};

/* (e0 e1 .. e127 e0 ..){0,} with 256 events, grouped to the left or to the right: 512 nodes. */
static struct procedure chain(int to_the_right)
{
    char notation[MOST_NOTATION] = "(";
    size_t at = 1;
    for (int i = 0; i < CHAIN_EVENTS; i++)
        at += (size_t)sprintf(notation + at, to_the_right && i > 0 ? "(#%d" : "#%d", i % CODES);
    for (int i = 1; to_the_right && i < CHAIN_EVENTS; i++)
        notation[at++] = ')';
    strcpy(notation + at, "){0,}");
    return procedure_of(notation);
}

/* The node of an event of the chain: to the left, a sequence stands behind each event but the first. */
static unsigned chain_node(int to_the_right, unsigned event)
{
    return to_the_right || event == 0 ? event : 2 * event - 1;
}

/* The state that an event of the chain reaches, in its one block. */
static void stand_behind(int to_the_right, unsigned event, uint8_t bytes[SEQ_STATE_BYTES])
{
    const struct state state = {(uint16_t)(1 + chain_node(to_the_right, event)), {1}};
    state_bytes(&state, bytes);
}

static void try_chain(struct tally *t, const char *name, int to_the_right, size_t text_length)
{
    static const uint8_t start[SEQ_STATE_BYTES];
    struct procedure plain = chain(to_the_right), p = with_text(&plain, text_length);
    const struct slice file = {p.bytes, p.length};
    uint8_t run[CHAIN_EVENTS], record[SEQ_ITEM_BYTES * (CHAIN_EVENTS + 2)], *at = record;
    uint8_t before[SEQ_STATE_BYTES], after[SEQ_STATE_BYTES];
    put_item(&at, SEQ_MOST_NODES - 1, SEQ_MARK_OPENING);
    for (unsigned i = 0; i < CHAIN_EVENTS; i++) {
        run[i] = (uint8_t)(i % CODES);
        put_item(&at, chain_node(to_the_right, i), SEQ_MARK_EVENT);
    }
    put_item(&at, SEQ_MOST_NODES - 1, SEQ_MARK_CLOSING);
    stand_behind(to_the_right, CHAIN_EVENTS - 2, before);
    stand_behind(to_the_right, CHAIN_EVENTS - 1, after);

    expect_judge(t, name, file, (struct judgement){.answer = SEQ_DONE});
    expect_follow(t, name, file, (struct slice){start, sizeof start}, (struct slice){run, sizeof run},
                  (struct followed){SEQ_DONE, sizeof run, SEQ_COMPLETE}, after);
    expect_write(t, name, file, (struct slice){run, sizeof run}, sizeof record, SEQ_DONE,
                 (struct slice){record, sizeof record});
    expect_check(t, name, file, (struct slice){record, sizeof record}, SEQ_DONE, 1);
    expect_prompt(t, name, file, (struct slice){before, sizeof before}, SEQ_DONE, (struct codes){0, UINT64_C(1) << 63});
    expect_prompt(t, name, file, (struct slice){after, sizeof after}, SEQ_DONE, (struct codes){1, 0});
}

void chains(struct tally *t)
{
    try_chain(t, "512 nodes to the left", 0, 0);
    try_chain(t, "512 nodes to the right", 1, 0);
    try_chain(t, "a file of 8,204 bytes", 0, SEQ_FILE_MOST_BYTES - TRAILER_BYTES - NODE_BYTES * SEQ_MOST_NODES);
}
