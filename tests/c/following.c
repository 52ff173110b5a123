/* Follow: the bench cases with the state after each, breaks, and states that no run reaches. */
#include <stdio.h>
#include <string.h>

#include "calls.h"
#include "procedure.h"
#include "sections.h"
#include "state.h"

enum { MOST_EVENTS = 32 };

static const struct run_case {
    const char *procedure, *run;
    uint64_t taken;
    uint32_t verdict;
    struct state after;
} runs[] = {
    /* B1 */
    {"a{2,4}", "", 0, SEQ_UNFINISHED, {0, {0}}},
    {"a{2,4}", "a", 1, SEQ_UNFINISHED, {1, {1}}},
    {"a{2,4}", "aa", 2, SEQ_COMPLETE, {1, {2}}},
    {"a{2,4}", "aaaaa", 4, SEQ_BROKEN, {1, {4}}},
    /* B2 */
    {"(a{0,1}){0,3}", "aaa", 3, SEQ_COMPLETE, {1, {1, 3}}},
    {"(a{0,1}){0,3}", "aaaa", 3, SEQ_BROKEN, {1, {1, 3}}},
    /* B5 */
    {"a{2,2}a", "aa", 2, SEQ_UNFINISHED, {1, {2}}},
    {"a{2,2}a", "aaa", 3, SEQ_COMPLETE, {3, {0}}},
    /* B9 */
    {"(eb{0,1}){0,2}", "bb", 2, SEQ_COMPLETE, {2, {1, 2}}},
    /* B10 */
    {"(a+e){3,3}", "", 0, SEQ_COMPLETE, {0, {0}}},
    {"(a+e){3,3}", "a", 1, SEQ_COMPLETE, {1, {1}}},
    /* B12 */
    {"(ab){1,2}", "aba", 3, SEQ_UNFINISHED, {1, {2}}},
    /* B13 */
    {"e", "", 0, SEQ_COMPLETE, {0, {0}}},
    {"e", "a", 0, SEQ_BROKEN, {0, {0}}},
    /* B14 */
    {"(a{2,2}){0,}", "aaa", 3, SEQ_UNFINISHED, {1, {1, 1}}},
    {"(a{2,2}){0,}", "aaaa", 4, SEQ_COMPLETE, {1, {2, 1}}},
    /* a counter without an upper bound stops at the lower one */
    {"a{3,}", "aaaaa", 5, SEQ_COMPLETE, {1, {3}}},
    {"a{0,}", "aaaaa", 5, SEQ_COMPLETE, {1, {1}}},
    {"(a+e){3,}", "aaaaa", 5, SEQ_COMPLETE, {1, {1}}},
    /* a new stay counts anew, and a repeat that is left counts 0 */
    {"(a{2,3}b){1,2}", "aabaa", 5, SEQ_UNFINISHED, {1, {2, 2}}},
    {"(a{2,3}b){1,2}", "aab", 3, SEQ_COMPLETE, {3, {0, 1}}},
    {"(a{2,3}b){1,2}", "aabab", 4, SEQ_BROKEN, {1, {1, 2}}},
    {"(a{2,2}b){2,2}", "aabab", 4, SEQ_BROKEN, {1, {1, 2}}},
    {"(a{2,2}b){2,2}", "aabaab", 6, SEQ_COMPLETE, {3, {0, 2}}},
    {"a{1,2}b{1,2}", "aabb", 4, SEQ_COMPLETE, {3, {0, 2}}},
    {"(a{0,2}+b)c", "bc", 2, SEQ_COMPLETE, {5, {0}}},
    {"(a{0,2}+b)c", "c", 1, SEQ_COMPLETE, {5, {0}}},
    /* codes of both words */
    {"#63#64#127", "#63#64#127", 3, SEQ_COMPLETE, {4, {0}}},
    {"#63#64#127", "#63#0", 1, SEQ_BROKEN, {1, {0}}},
    {"#63#64#127", "#63#64#63", 2, SEQ_BROKEN, {2, {0}}},
    {"(#63+#64+#127){0,}", "#64#63#127#128#63", 3, SEQ_BROKEN, {4, {1}}},
    {"(#63+#64+#127){0,}", "#127#63#64#255", 3, SEQ_BROKEN, {2, {1}}},
    {"#127{2,4}", "#127#127#127#127#127", 4, SEQ_BROKEN, {1, {4}}},
};
enum { RUNS = sizeof runs / sizeof runs[0] };

static void follow_at_once(struct tally *t, const char *name, const struct run_case *c, struct slice file)
{
    static const uint8_t start[SEQ_STATE_BYTES];
    uint8_t events[MOST_EVENTS], after[SEQ_STATE_BYTES];
    size_t length = run_of(c->run, events);
    state_bytes(&c->after, after);
    expect_follow(t, name, file, (struct slice){start, sizeof start}, (struct slice){events, length},
                  (struct followed){SEQ_DONE, c->taken, c->verdict}, after);
}

/* The same run, an event a call; the state goes from call to call. */
static void follow_one_by_one(struct tally *t, const char *name, const struct run_case *c, struct slice file)
{
    uint8_t events[MOST_EVENTS], after[SEQ_STATE_BYTES], state[SEQ_STATE_BYTES] = {0};
    size_t length = run_of(c->run, events);
    uint64_t taken, all_taken = 0;
    uint32_t verdict;
    state_bytes(&c->after, after);

    begin_case(t, "follow, %s, an event a call", name);
    expect_number(t, "the answer",
                  seq_follow(file.bytes, file.length, state, sizeof state, events, 0, &taken, &verdict), SEQ_DONE);
    for (size_t i = 0; i < length && verdict != SEQ_BROKEN; i++) {
        expect_number(t, "the answer",
                      seq_follow(file.bytes, file.length, state, sizeof state, events + i, 1, &taken, &verdict),
                      SEQ_DONE);
        all_taken += taken;
    }
    expect_number(t, "taken", all_taken, c->taken);
    expect_number(t, "the verdict", verdict, c->verdict);
    expect_bytes(t, "state", state, after, sizeof state);
    end_case(t);
}

static void follow_runs(struct tally *t)
{
    for (int i = 0; i < RUNS; i++) {
        struct procedure p = procedure_of(runs[i].procedure);
        char name[80];
        snprintf(name, sizeof name, "%s with the run \"%s\"", runs[i].procedure, runs[i].run);
        follow_at_once(t, name, &runs[i], (struct slice){p.bytes, p.length});
        follow_one_by_one(t, name, &runs[i], (struct slice){p.bytes, p.length});
    }
}

/* A code above 127 never continues, and the events before it are taken. */
static void follow_high_codes(struct tally *t)
{
    static const uint8_t start[SEQ_STATE_BYTES], events[] = {0, 128}, high[] = {255};
    const struct state one = {1, {1}};
    struct procedure p = procedure_of("a{0,}");
    const struct slice file = {p.bytes, p.length}, from_start = {start, sizeof start};
    uint8_t after[SEQ_STATE_BYTES];
    state_bytes(&one, after);
    expect_follow(t, "code 128", file, from_start, (struct slice){events, 2},
                  (struct followed){SEQ_DONE, 1, SEQ_BROKEN}, after);
    expect_follow(t, "code 255", file, from_start, (struct slice){high, 1},
                  (struct followed){SEQ_DONE, 0, SEQ_BROKEN}, start);
}

/* With no events the call reports on the state, also on one that stands behind a break. */
static void follow_nothing(struct tally *t)
{
    static const uint8_t none[1];
    const struct state four = {1, {4}};
    struct procedure p = procedure_of("a{2,4}");
    uint8_t state[SEQ_STATE_BYTES];
    state_bytes(&four, state);
    expect_follow(t, "no events", (struct slice){p.bytes, p.length}, (struct slice){state, sizeof state},
                  (struct slice){none, 0}, (struct followed){SEQ_DONE, 0, SEQ_COMPLETE}, state);
}

/* 32 repeats of 4,096 blocks each, all begun: no run that reaches this could ever be typed. */
static void follow_from_the_last_blocks(struct tally *t)
{
    static const uint8_t one[1];
    struct procedure p = nested_of("{4096,4096}", SEQ_MOST_REPEATS);
    const struct slice file = {p.bytes, p.length};
    struct state last = {1, {0}};
    uint8_t state[SEQ_STATE_BYTES];
    for (int i = 0; i < SEQ_MOST_REPEATS; i++)
        last.counters[i] = 4096;
    state_bytes(&last, state);
    expect_follow(t, "the last of 4,096 blocks in each of 32 repeats", file, (struct slice){state, sizeof state},
                  (struct slice){one, 0}, (struct followed){SEQ_DONE, 0, SEQ_COMPLETE}, state);
    expect_follow(t, "one event more", file, (struct slice){state, sizeof state}, (struct slice){one, 1},
                  (struct followed){SEQ_DONE, 0, SEQ_BROKEN}, state);
}

static const struct state_case {
    const char *procedure;
    struct state state;
} wrong_states[] = {
    {"a{3,}", {0, {1}}},         /* the start has no block */
    {"a{3,}", {1, {0}}},         /* a repeat around the place has one */
    {"a{3,}", {1, {4}}},         /* above the number at which it stops */
    {"a{2,4}", {1, {5}}},
    {"a{2,4}", {1, {2, 1}}},     /* past the last repeat */
    {"a{2,4}", {2, {1}}},        /* a repeat is no event */
    {"a{2,4}", {3, {0}}},        /* no such node */
    {"a{2,4}", {65535, {0}}},
    {"a{2,2}a", {3, {2}}},       /* a repeat that was left */
    {"(a+e){3,3}", {1, {4}}},
    {"e", {1, {0}}},
};
enum { WRONG_STATES = sizeof wrong_states / sizeof wrong_states[0] };

static void expect_state_refused(struct tally *t, const char *name, const struct procedure *p, struct slice state)
{
    static const uint8_t events[1] = {0};
    const struct slice file = {p->bytes, p->length};
    expect_follow(t, name, file, state, (struct slice){events, 1}, (struct followed){SEQ_STATE, 0, 0}, state.bytes);
    expect_follow(t, name, file, state, (struct slice){events, 0}, (struct followed){SEQ_STATE, 0, 0}, state.bytes);
    expect_prompt(t, name, file, state, SEQ_STATE, (struct codes){0, 0});
}

static void refuse_states(struct tally *t)
{
    for (int i = 0; i < WRONG_STATES; i++) {
        struct procedure p = procedure_of(wrong_states[i].procedure);
        uint8_t state[SEQ_STATE_BYTES];
        char name[80];
        state_bytes(&wrong_states[i].state, state);
        snprintf(name, sizeof name, "%s with state %u, %u ..", wrong_states[i].procedure,
                 wrong_states[i].state.reached, wrong_states[i].state.counters[0]);
        expect_state_refused(t, name, &p, (struct slice){state, sizeof state});
    }
}

static void refuse_state_lengths(struct tally *t)
{
    static const size_t lengths[] = {0, 1, 65, 67, 132};
    static const uint8_t zeros[132];
    struct procedure p = procedure_of("a{2,4}");
    for (size_t i = 0; i < sizeof lengths / sizeof lengths[0]; i++) {
        char name[60];
        snprintf(name, sizeof name, "a state of %zu bytes", lengths[i]);
        expect_state_refused(t, name, &p, (struct slice){zeros, lengths[i]});
    }
}

void following(struct tally *t)
{
    follow_runs(t);
    follow_high_codes(t);
    follow_nothing(t);
    follow_from_the_last_blocks(t);
    refuse_states(t);
    refuse_state_lengths(t);
}
