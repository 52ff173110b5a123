#include "run.h"

#include <inttypes.h>
#include <stdio.h>
#include <stdlib.h>
#include <string.h>

#include "blocks.h"

enum { MOST_SHOWN = 20 };

/* The file was admitted and the state is our own, so that no call has a reason to refuse. */
static void demand_done(const char *call, uint32_t answer)
{
    if (answer == SEQ_DONE)
        return;
    fprintf(stderr, "station: %s gives answer %" PRIu32 " (%s); the archive and the station do not fit\n", call, answer,
            seq_answer_words(answer));
    exit(2);
}

const char *verdict_name(uint32_t verdict)
{
    return verdict == SEQ_COMPLETE ? "complete" : verdict == SEQ_UNFINISHED ? "unfinished" : "broken";
}

/* Follows events from where the run stands, and gives how many were taken. */
static uint64_t follow(const struct procedure *p, struct run *run, const uint8_t *events, size_t length)
{
    uint64_t taken;
    demand_done("seq_follow", seq_follow(p->bytes, p->length, run->state, sizeof run->state, events, length, &taken,
                                         &run->verdict));
    return taken;
}

void begin_run(const struct procedure *p, struct run *run)
{
    memset(run, 0, sizeof *run);
    follow(p, run, run->events, 0);
}

int is_unsaved(const struct run *run)
{
    return run->verdict == SEQ_COMPLETE && run->length > 0 && !run->is_saved;
}

/* The keys that can follow the events taken. */
static struct key_set next_keys(const struct procedure *p, const struct run *run)
{
    struct key_set lit;
    demand_done("seq_prompt", seq_prompt(p->bytes, p->length, run->state, sizeof run->state, &lit.low, &lit.high));
    return lit;
}

void print_lit(const struct procedure *p, const struct keys *keys, const struct run *run)
{
    printf("Lit: ");
    print_keys(keys, run->verdict == SEQ_BROKEN ? (struct key_set){0, 0} : next_keys(p, run));
    printf("\n");
}

void print_run(const struct keys *keys, const struct run *run)
{
    const size_t shown = run->length <= MOST_SHOWN ? run->length : MOST_SHOWN;
    printf("%zu event%s, %s%s\n", run->length, run->length == 1 ? "" : "s", verdict_name(run->verdict),
           shown < run->length ? "; the last ones:" : shown > 0 ? ":" : "");
    for (size_t i = run->length - shown; i < run->length; i++) {
        printf("  ");
        print_key(keys, run->events[i]);
        printf("\n");
    }
}

/* Whether the events before the break are a complete run that is in no file, and that can't be saved any more. */
static int is_lost(const struct procedure *p, struct run *run)
{
    follow(p, run, run->events, 0);
    const int lost = is_unsaved(run);
    run->verdict = SEQ_BROKEN;
    return lost;
}

/* A key may be lit and yet break the run, since the prompt does not look at counts; the blocks then tell why. */
static void explain_break(const struct procedure *p, const struct keys *keys, struct run *run, unsigned code)
{
    const struct key_set lit = next_keys(p, run);
    printf("broken at event %zu.\n", run->length + 1);
    if (!seq_has_code(lit.low, lit.high, code)) {
        printf("Lit was: ");
        print_keys(keys, lit);
        printf("\n");
    }
    print_blocks(p, keys, run->state);
    if (is_lost(p, run))
        printf("The run was complete before this event, and it is not saved.\n");
    printf("Type new to begin anew.\n");
}

static int may_take(const struct run *run, size_t times)
{
    if (run->verdict == SEQ_BROKEN) {
        printf("The run is broken and takes no more events. Type new to begin anew.\n");
        return 0;
    }
    if (times > SEQ_MOST_RUN - run->length) {
        printf("A run has at most %d events here, and this one has %zu.\n", SEQ_MOST_RUN, run->length);
        return 0;
    }
    return 1;
}

int take_key(const struct procedure *p, const struct keys *keys, struct run *run, unsigned code, size_t times)
{
    uint8_t *events = run->events + run->length;
    if (!may_take(run, times))
        return 0;
    memset(events, (int)code, times);
    const uint64_t taken = follow(p, run, events, times);
    run->length += taken;
    if (taken > 0)
        run->is_saved = 0;

    print_key(keys, code);
    if (times > 1)
        printf(", %" PRIu64 " of %zu taken", taken, times);
    printf(": ");
    if (run->verdict == SEQ_BROKEN) {
        explain_break(p, keys, run, code);
        return 0;
    }
    printf("%s. ", verdict_name(run->verdict));
    print_lit(p, keys, run);
    return 1;
}
