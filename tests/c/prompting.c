/* Prompt: the codes that can come next, where bounds of 2 and more do not count. */
#include <stdio.h>

#include "calls.h"
#include "procedure.h"
#include "sections.h"
#include "state.h"

enum { A = 1, B = 2, C = 4 };

static const struct prompt_case {
    const char *procedure;
    struct state state;
    struct codes lit;
} prompts[] = {
    {"a{2,4}", {0, {0}}, {A, 0}},
    {"a{2,4}", {1, {1}}, {A, 0}},
    {"a{2,4}", {1, {4}}, {A, 0}},
    {"a{2,2}b", {0, {0}}, {A, 0}},
    {"a{2,2}b", {1, {1}}, {A | B, 0}},
    {"a{2,2}b", {1, {2}}, {A | B, 0}},
    {"a{2,2}b", {3, {0}}, {0, 0}},
    {"a{1,1}b", {1, {1}}, {B, 0}},
    {"(a+e)(b+e)c", {0, {0}}, {A | B | C, 0}},
    {"(ab){1,2}", {2, {1}}, {A, 0}},
    {"(a+e){3,3}", {0, {0}}, {A, 0}},
    {"e", {0, {0}}, {0, 0}},
    /* one word alone, at both of its ends */
    {"#63{0,}", {0, {0}}, {LOW(63), 0}},
    {"#63{0,}", {1, {1}}, {LOW(63), 0}},
    {"#64{0,}", {0, {0}}, {0, HIGH(64)}},
    {"#64{0,}", {1, {1}}, {0, HIGH(64)}},
    {"#127{0,}", {0, {0}}, {0, HIGH(127)}},
    {"#127{0,}", {1, {1}}, {0, HIGH(127)}},
    /* both words */
    {"a+#63+#64+#127", {0, {0}}, {A | LOW(63), HIGH(64) | HIGH(127)}},
    {"(a+#64)(b+#127)", {0, {0}}, {A, HIGH(64)}},
    {"(a+#64)(b+#127)", {1, {0}}, {B, HIGH(127)}},
    {"(a+#64)(b+#127)", {2, {0}}, {B, HIGH(127)}},
    {"(a+#64)(b+#127)", {5, {0}}, {0, 0}},
    {"#63{2,3}#64{2,3}#127", {1, {1}}, {LOW(63), HIGH(64)}},
    {"#63{2,3}#64{2,3}#127", {3, {0, 1}}, {0, HIGH(64) | HIGH(127)}},
};
enum { PROMPTS = sizeof prompts / sizeof prompts[0] };

void prompting(struct tally *t)
{
    for (int i = 0; i < PROMPTS; i++) {
        struct procedure p = procedure_of(prompts[i].procedure);
        uint8_t state[SEQ_STATE_BYTES];
        char name[80];
        state_bytes(&prompts[i].state, state);
        snprintf(name, sizeof name, "%s with state %u, %u ..", prompts[i].procedure, prompts[i].state.reached,
                 prompts[i].state.counters[0]);
        expect_prompt(t, name, (struct slice){p.bytes, p.length}, (struct slice){state, sizeof state}, SEQ_DONE,
                      prompts[i].lit);
    }
}
