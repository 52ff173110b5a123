/*
 * Codes through every call: a procedure that takes all 128 in any order, and procedures of a single code, beside bytes
 * that are that code but for a higher bit, or that are none.
 */
#include <stdio.h>
#include <string.h>

#include "calls.h"
#include "procedure.h"
#include "record.h"
#include "sections.h"
#include "state.h"

enum { MOST_NOTATION = 1024, CODES = SEQ_MOST_CODE + 1 };

/* The nodes of (e0|e1|..|e127){0,}: a choice stands behind each event but the first, and the repeat behind all. */
enum { LAST_EVENT = 2 * SEQ_MOST_CODE - 1, REPEAT = 2 * CODES - 1 };

static const uint8_t start[SEQ_STATE_BYTES];

static struct procedure any_code(void)
{
    char notation[MOST_NOTATION];
    strcpy(put_choice(notation, (struct series){0, 1, CODES}), "{0,}");
    return procedure_of(notation);
}

/* All codes in turn, each in a block of its own, and then a byte. */
static void take_all_codes(struct tally *t)
{
    const struct procedure p = any_code();
    const struct slice file = {p.bytes, p.length};
    const struct state last = {1 + LAST_EVENT, {1}};
    const struct codes all = {UINT64_MAX, UINT64_MAX};
    uint8_t run[CODES + 1], record[SEQ_ITEM_BYTES * 3 * CODES], *at = record, after[SEQ_STATE_BYTES];
    const struct slice from_start = {start, sizeof start}, then = {after, sizeof after}, longer = {run, CODES + 1};
    for (unsigned code = 0; code < CODES; code++) {
        run[code] = (uint8_t)code;
        put_item(&at, REPEAT, SEQ_MARK_OPENING);
        put_item(&at, code == 0 ? 0 : 2 * code - 1, SEQ_MARK_EVENT);
        put_item(&at, REPEAT, SEQ_MARK_CLOSING);
    }
    run[CODES] = CODES;
    state_bytes(&last, after);

    expect_judge(t, "all codes", file, (struct judgement){.answer = SEQ_DONE});
    expect_prompt(t, "all codes", file, from_start, SEQ_DONE, all);
    expect_prompt(t, "all codes, behind the last", file, then, SEQ_DONE, all);
    expect_follow(t, "all codes", file, from_start, (struct slice){run, CODES},
                  (struct followed){SEQ_DONE, CODES, SEQ_COMPLETE}, after);
    expect_follow(t, "all codes and 128", file, from_start, longer, (struct followed){SEQ_DONE, CODES, SEQ_BROKEN},
                  after);
    expect_write(t, "all codes", file, (struct slice){run, CODES}, sizeof record, SEQ_DONE,
                 (struct slice){record, sizeof record});
    expect_write(t, "all codes and 128", file, longer, sizeof record, SEQ_RUN_INCOMPLETE, (struct slice){run, 0});
    expect_check(t, "all codes", file, (struct slice){record, sizeof record}, SEQ_DONE, 1);
}

/* A procedure of one code takes that byte and no other. */
static void take_one_code(struct tally *t, unsigned code, uint8_t byte)
{
    static const uint8_t record[SEQ_ITEM_BYTES];
    char notation[20], name[60];
    sprintf(notation, "#%u", code);
    snprintf(name, sizeof name, "%s with the event %u", notation, byte);
    const struct procedure p = procedure_of(notation);
    const struct slice file = {p.bytes, p.length}, run = {&byte, 1};
    const struct followed taken = {SEQ_DONE, 1, SEQ_COMPLETE}, broken = {SEQ_DONE, 0, SEQ_BROKEN};
    const struct state reached = {1, {0}};
    const int is_taken = byte == code;
    uint8_t after[SEQ_STATE_BYTES];
    state_bytes(&reached, after);

    expect_follow(t, name, file, (struct slice){start, sizeof start}, run, is_taken ? taken : broken,
                  is_taken ? after : start);
    expect_write(t, name, file, run, sizeof record, is_taken ? SEQ_DONE : SEQ_RUN_INCOMPLETE,
                 (struct slice){record, is_taken ? sizeof record : 0});
}

/* A choice of two codes has a conflict if they are one, and is malformed if the second is none. */
static void judge_two_codes(struct tally *t, unsigned code, unsigned other)
{
    char notation[20];
    sprintf(notation, "#%u+#%u", code, other);
    const struct procedure p = procedure_of(notation);
    const struct judgement malformed = {.answer = SEQ_NODE, .node = 1}, admitted = {.answer = SEQ_DONE},
                           conflict = {SEQ_CONFLICT, 2, SEQ_CONFLICT_CHOICE, code, only_code(code), 1};
    expect_judge(t, notation, (struct slice){p.bytes, p.length},
                 other > SEQ_MOST_CODE ? malformed : other == code ? conflict : admitted);
}

static void prompt_one_code(struct tally *t, unsigned code)
{
    char notation[20];
    sprintf(notation, "#%u", code);
    const struct procedure p = procedure_of(notation);
    expect_prompt(t, notation, (struct slice){p.bytes, p.length}, (struct slice){start, sizeof start}, SEQ_DONE,
                  only_code(code));
}

void every_code(struct tally *t)
{
    static const uint8_t events[] = {0, 63, 64, 127}, bytes[] = {0, 63, 64, 127, 128, 191, 192, 255};
    take_all_codes(t);
    for (size_t i = 0; i < sizeof events; i++) {
        prompt_one_code(t, events[i]);
        for (size_t j = 0; j < sizeof bytes; j++) {
            take_one_code(t, events[i], bytes[j]);
            judge_two_codes(t, events[i], bytes[j]);
        }
    }
}
