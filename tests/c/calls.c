#include "calls.h"

#include "lent.h"

static const enum side sides[] = {AT_BEGINNING, AT_END, AT_END_OR_NULL};
enum { SIDES = sizeof sides / sizeof sides[0] };

static const char *side_name(enum side side)
{
    return side == AT_BEGINNING ? "at the beginning" : side == AT_END ? "at the end" : "at the end or null";
}

static struct lent lend_slice(struct slice slice, enum side side)
{
    return lend(slice.bytes, slice.length, side);
}

/* A result stands alone, so that a write of another width than its own is outside too. */
static uint32_t *result_32(struct lent *lent, enum side side)
{
    *lent = lend_junk(sizeof(uint32_t), side);
    return (uint32_t *)(void *)lent->bytes;
}

static uint64_t *result_64(struct lent *lent, enum side side)
{
    *lent = lend_junk(sizeof(uint64_t), side);
    return (uint64_t *)(void *)lent->bytes;
}

static void expect_codes(struct tally *t, uint64_t low, uint64_t high, struct codes wanted)
{
    expect_number(t, "the low word", low, wanted.low);
    expect_number(t, "the high word", high, wanted.high);
}

static void take_back_all(struct lent *lent, int count)
{
    for (int i = 0; i < count; i++)
        take_back(&lent[i]);
}

static void judge_once(struct tally *t, struct slice file, struct judgement wanted, enum side side)
{
    struct lent lent[7];
    lent[0] = lend_slice(file, side);
    uint32_t *node = result_32(&lent[1], side), *kind = result_32(&lent[2], side), *code = result_32(&lent[3], side);
    uint64_t *low = result_64(&lent[4], side), *high = result_64(&lent[5], side);
    uint32_t *count = result_32(&lent[6], side);

    uint32_t answer = seq_judge(lent[0].bytes, lent[0].length, node, kind, code, low, high, count);

    expect_number(t, "the answer", answer, wanted.answer);
    expect_number(t, "the node", *node, wanted.node);
    expect_number(t, "the kind", *kind, wanted.kind);
    expect_number(t, "the code", *code, wanted.code);
    expect_codes(t, *low, *high, wanted.shared);
    expect_number(t, "the count", *count, wanted.count);
    take_back_all(lent, 7);
}

void expect_judge(struct tally *t, const char *name, struct slice file, struct judgement wanted)
{
    for (int i = 0; i < SIDES; i++) {
        begin_case(t, "judge, %s, slices %s", name, side_name(sides[i]));
        judge_once(t, file, wanted, sides[i]);
        end_case(t);
    }
}

static void follow_once(struct tally *t, struct slice file, struct slice state, struct slice events,
                        struct followed wanted, const uint8_t *state_after, enum side side)
{
    struct lent lent[5];
    lent[0] = lend_slice(file, side);
    lent[1] = lend_writable(state.bytes, state.length, side);
    lent[2] = lend_slice(events, side);
    uint64_t *taken = result_64(&lent[3], side);
    uint32_t *verdict = result_32(&lent[4], side);

    uint32_t answer = seq_follow(lent[0].bytes, lent[0].length, lent[1].bytes, lent[1].length, lent[2].bytes,
                                 lent[2].length, taken, verdict);

    expect_number(t, "the answer", answer, wanted.answer);
    expect_number(t, "taken", *taken, wanted.taken);
    expect_number(t, "the verdict", *verdict, wanted.verdict);
    expect_bytes(t, "state", lent[1].bytes, state_after, state.length);
    take_back_all(lent, 5);
}

void expect_follow(struct tally *t, const char *name, struct slice file, struct slice state, struct slice events,
                   struct followed wanted, const uint8_t *state_after)
{
    for (int i = 0; i < SIDES; i++) {
        begin_case(t, "follow, %s, slices %s", name, side_name(sides[i]));
        follow_once(t, file, state, events, wanted, state_after, sides[i]);
        end_case(t);
    }
}

static void expect_junk(struct tally *t, const struct lent *space, size_t from)
{
    size_t at = from;
    while (at < space->length && space->bytes[at] == junk_at(at))
        at++;
    expect_number(t, "the first byte of the space that changed, or its length", at, space->length);
}

static void write_once(struct tally *t, struct slice file, struct slice run, size_t space_length, uint32_t answer,
                       struct slice record, enum side side)
{
    struct lent lent[4];
    lent[0] = lend_slice(file, side);
    lent[1] = lend_slice(run, side);
    lent[2] = lend_junk(space_length, side);
    uint64_t *length = result_64(&lent[3], side);

    uint32_t given = seq_write(lent[0].bytes, lent[0].length, lent[1].bytes, lent[1].length, lent[2].bytes,
                               lent[2].length, length);

    expect_number(t, "the answer", given, answer);
    expect_number(t, "the length", *length, record.length);
    if (record.length <= space_length)
        expect_bytes(t, "record", lent[2].bytes, record.bytes, record.length);
    expect_junk(t, &lent[2], record.length);
    take_back_all(lent, 4);
}

void expect_write(struct tally *t, const char *name, struct slice file, struct slice run, size_t space_length,
                  uint32_t answer, struct slice record)
{
    for (int i = 0; i < SIDES; i++) {
        begin_case(t, "write, %s, slices %s", name, side_name(sides[i]));
        write_once(t, file, run, space_length, answer, record, sides[i]);
        end_case(t);
    }
}

static void check_once(struct tally *t, struct slice file, struct slice record, uint32_t answer, uint32_t yes,
                       enum side side)
{
    struct lent lent[3];
    lent[0] = lend_slice(file, side);
    lent[1] = lend_slice(record, side);
    uint32_t *given = result_32(&lent[2], side);

    expect_number(t, "the answer",
                  seq_check(lent[0].bytes, lent[0].length, lent[1].bytes, lent[1].length, given), answer);
    expect_number(t, "yes", *given, yes);
    take_back_all(lent, 3);
}

void expect_check(struct tally *t, const char *name, struct slice file, struct slice record, uint32_t answer,
                  uint32_t yes)
{
    for (int i = 0; i < SIDES; i++) {
        begin_case(t, "check, %s, slices %s", name, side_name(sides[i]));
        check_once(t, file, record, answer, yes, sides[i]);
        end_case(t);
    }
}

static void prompt_once(struct tally *t, struct slice file, struct slice state, uint32_t answer, struct codes lit,
                        enum side side)
{
    struct lent lent[4];
    lent[0] = lend_slice(file, side);
    lent[1] = lend_slice(state, side);
    uint64_t *low = result_64(&lent[2], side), *high = result_64(&lent[3], side);

    expect_number(t, "the answer",
                  seq_prompt(lent[0].bytes, lent[0].length, lent[1].bytes, lent[1].length, low, high), answer);
    expect_codes(t, *low, *high, lit);
    take_back_all(lent, 4);
}

void expect_prompt(struct tally *t, const char *name, struct slice file, struct slice state, uint32_t answer,
                   struct codes lit)
{
    for (int i = 0; i < SIDES; i++) {
        begin_case(t, "prompt, %s, slices %s", name, side_name(sides[i]));
        prompt_once(t, file, state, answer, lit, sides[i]);
        end_case(t);
    }
}
