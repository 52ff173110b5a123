/*
 * The longest that there is: a record of 65,536 events with 32 blocks around each (8 MB), and a record and a run
 * of over a million events, which Check and Follow take without a limit.
 */
#include <stdio.h>
#include <stdlib.h>
#include <string.h>

#include "calls.h"
#include "procedure.h"
#include "record.h"
#include "sections.h"
#include "state.h"

enum {
    MOST_NOTATION = 256,
    DEEP_ITEMS = 2 * SEQ_MOST_REPEATS + 1,
    LONG_EVENTS = 1400000,
    LONG_ITEMS = 3
};

static uint8_t *space_for(size_t length)
{
    uint8_t *made = calloc(length, 1);
    if (made == NULL) {
        perror("calloc");
        exit(2);
    }
    return made;
}

/* a in 31 repeats of one block each, and one around them without a bound: every event has 32 blocks of its own. */
static struct procedure deep_procedure(void)
{
    char notation[MOST_NOTATION] = "a";
    for (int i = 1; i < SEQ_MOST_REPEATS; i++)
        strcat(notation, "{1,1}");
    strcat(notation, "{0,}");
    return procedure_of(notation);
}

static struct slice deep_record(size_t events)
{
    const size_t length = events * DEEP_ITEMS * SEQ_ITEM_BYTES;
    uint8_t *bytes = space_for(length), *at = bytes;
    for (size_t i = 0; i < events; i++) {
        for (unsigned node = SEQ_MOST_REPEATS; node > 0; node--)
            put_item(&at, node, SEQ_MARK_OPENING);
        put_item(&at, 0, SEQ_MARK_EVENT);
        for (unsigned node = 1; node <= SEQ_MOST_REPEATS; node++)
            put_item(&at, node, SEQ_MARK_CLOSING);
    }
    return (struct slice){bytes, length};
}

static void write_deep_record(struct tally *t)
{
    struct procedure p = deep_procedure();
    uint8_t *zeros = space_for(SEQ_MOST_RUN + 1);
    const struct slice file = {p.bytes, p.length}, run = {zeros, SEQ_MOST_RUN}, longer = {zeros, SEQ_MOST_RUN + 1};
    const struct slice record = deep_record(SEQ_MOST_RUN), none = {zeros, 0};

    expect_write(t, "a record of 8 MB", file, run, record.length, SEQ_DONE, record);
    expect_write(t, "a record of 8 MB, a byte short", file, run, record.length - 1, SEQ_SPACE, none);
    expect_write(t, "65,537 events", file, longer, record.length + DEEP_ITEMS * SEQ_ITEM_BYTES, SEQ_RUN_LENGTH, none);
    expect_check(t, "a record of 8 MB", file, record, SEQ_DONE, 1);
    expect_check(t, "a record of 8 MB, an item short", file, (struct slice){record.bytes, record.length - 2}, SEQ_DONE,
                 0);
    free((void *)(uintptr_t)record.bytes);
    free(zeros);
}

/* 9 stands before 10. */
static void refuse_long_run(struct tally *t)
{
    struct procedure p = procedure_of("a{2,4}");
    uint8_t *zeros = space_for(SEQ_MOST_RUN + 1);
    const struct slice file = {p.bytes, p.length}, none = {zeros, 0};
    expect_write(t, "65,537 events that are no word", file, (struct slice){zeros, SEQ_MOST_RUN + 1}, 6, SEQ_RUN_LENGTH,
                 none);
    expect_write(t, "65,536 events that are no word", file, (struct slice){zeros, SEQ_MOST_RUN}, 6, SEQ_RUN_INCOMPLETE,
                 none);
    free(zeros);
}

static void follow_and_check_long(struct tally *t)
{
    static const uint8_t start[SEQ_STATE_BYTES];
    const struct state one = {1, {1}};
    struct procedure p = procedure_of("a{0,}");
    const struct slice file = {p.bytes, p.length};
    const size_t length = (size_t)LONG_EVENTS * LONG_ITEMS * SEQ_ITEM_BYTES;
    uint8_t *record = space_for(length), *events = space_for(LONG_EVENTS), *at = record, after[SEQ_STATE_BYTES];
    for (int i = 0; i < LONG_EVENTS; i++) {
        put_item(&at, 1, SEQ_MARK_OPENING);
        put_item(&at, 0, SEQ_MARK_EVENT);
        put_item(&at, 1, SEQ_MARK_CLOSING);
    }
    state_bytes(&one, after);

    expect_check(t, "1,400,000 blocks", file, (struct slice){record, length}, SEQ_DONE, 1);
    record[length - 1] = SEQ_MARK_OPENING * SEQ_MARK_UNIT / 256;
    expect_check(t, "1,400,000 blocks, the last not closed", file, (struct slice){record, length}, SEQ_DONE, 0);
    expect_follow(t, "1,400,000 events", file, (struct slice){start, sizeof start},
                  (struct slice){events, LONG_EVENTS}, (struct followed){SEQ_DONE, LONG_EVENTS, SEQ_COMPLETE}, after);
    free(record);
    free(events);
}

void full_size(struct tally *t)
{
    refuse_long_run(t);
    write_deep_record(t);
    follow_and_check_long(t);
}
