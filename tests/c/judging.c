/*
 * Judge: the bench cases, the settled readings of the request, the limits that are still admitted, and conflicts that
 * share many codes.
 */
#include <stdio.h>

#include "calls.h"
#include "procedure.h"
#include "sections.h"

static const struct judge_case {
    const char *procedure;
    struct judgement wanted;
} cases[] = {
    /* B1 to B14 */
    {"a{2,4}", {0}},
    {"(a{0,1}){0,3}", {0}},
    {"(a{1,2}){3,4}", {7, 2, 4, 0, {LOW(0), 0}, 1}},
    {"((a+e)(b+e)){0,2}", {7, 7, 4, 1, {LOW(1), 0}, 1}},
    {"a{2,2}a", {0}},
    {"a{0,2}a", {7, 3, 2, 0, {LOW(0), 0}, 1}},
    {"a{2,3}a", {7, 3, 3, 0, {LOW(0), 0}, 1}},
    {"(a{2,3}(b+e)){0,}", {7, 6, 4, 0, {LOW(0), 0}, 1}},
    {"(eb{0,1}){0,2}", {0}},
    {"(a+e){3,3}", {0}},
    {"a+ab", {7, 4, 1, 0, {LOW(0), 0}, 1}},
    {"(ab){1,2}", {0}},
    {"e", {0}},
    {"(a{2,2}){0,}", {0}},
    /* code and set belong to the lowest kind, also in the higher word: what the node shares in kind 3 is left out */
    {"(#5#1{0,1}){0,1}(#5+#1)", {7, 8, 2, 5, {LOW(5), 0}, 1}},
    {"(#70#1{0,1}){0,1}(#70+#1)", {7, 8, 2, 70, {0, HIGH(70)}, 1}},
    /* the lower bound of a body that may be empty is 0 */
    {"((a+e){3,3}){0,2}", {7, 4, 4, 0, {LOW(0), 0}, 1}},
    /* a reading is a list of items */
    {"e+e", {0}},
    {"a{0,1}+b{0,1}", {0}},
    /* the ends of codes and bounds */
    {"#63", {0}},
    {"#63+#63", {7, 2, 1, 63, {LOW(63), 0}, 1}},
    {"(#0+#63)(#62+e)(#63)", {0}},
    {"#64", {0}},
    {"#64+#64", {7, 2, 1, 64, {0, HIGH(64)}, 1}},
    {"#127", {0}},
    {"#127+#127", {7, 2, 1, 127, {0, HIGH(127)}, 1}},
    {"(#0+#127)(#126+e)(#127)", {0}},
    {"#128", {.answer = 4, .node = 0}},
    {"(#127+#128)#255", {.answer = 4, .node = 1}},
    {"#255", {.answer = 4, .node = 0}},
    /* each kind with a code of the higher word */
    {"#64{0,2}#64", {7, 3, 2, 64, {0, HIGH(64)}, 1}},
    {"#127{2,3}#127", {7, 3, 3, 127, {0, HIGH(127)}, 1}},
    {"(#100{1,2}){3,4}", {7, 2, 4, 100, {0, HIGH(100)}, 1}},
    /* several shared codes and the lowest of them, in either word or in both */
    {"(#127+#64)+(#64+#127)", {7, 6, 1, 64, {0, HIGH(64) | HIGH(127)}, 2}},
    {"(#127+#126)+(#65+#126+#127)", {7, 8, 1, 126, {0, HIGH(126) | HIGH(127)}, 2}},
    {"(#127+#63)+(#127+#63)", {7, 6, 1, 63, {LOW(63), HIGH(127)}, 2}},
    {"(#64+#3+#127)+(#127+#64+#3)", {7, 10, 1, 3, {LOW(3), HIGH(64) | HIGH(127)}, 3}},
    /* the same for the other kinds */
    {"(#63+#64){0,1}(#64+#63+c)", {7, 9, 2, 63, {LOW(63), HIGH(64)}, 2}},
    {"(#63+#64){2,3}(#64+#63+c)", {7, 9, 3, 63, {LOW(63), HIGH(64)}, 2}},
    {"((#63+#64){1,2}){3,4}", {7, 4, 4, 63, {LOW(63), HIGH(64)}, 2}},
    /* what a higher node shares is left out */
    {"(b+b)(a+a)", {7, 2, 1, 1, {LOW(1), 0}, 1}},
    {"((a+b)+(b+c))+(a+b+c)", {7, 6, 1, 1, {LOW(1), 0}, 1}},
    /* codes that differ by 64 are two */
    {"#0+#64", {0}},
    {"(#127#63){0,2}", {0}},
    {"#63{0,1}#127{1,2}#63", {0}},
    {"a{4096,4096}", {0}},
    {"a{4096,}", {0}},
    {"e{2,3}", {0}},
};
enum { CASES = sizeof cases / sizeof cases[0] };

/* The left choice or the right one: what they share is shared by the root, and by nothing below it. */
static const struct sharing_case {
    const char *name;
    struct series left, right;
    struct judgement wanted;
} sharings[] = {
    /* every second code from 40 to 72 */
    {"40 and 40 codes, 17 of them shared", {40, 2, 40}, {34, 1, 40},
     {7, 158, 1, 40, {UINT64_C(0x5555550000000000), 0x155}, 17}},
    {"128 codes and the same from the last on", {0, 1, 128}, {127, -1, 128},
     {7, 510, 1, 0, {UINT64_MAX, UINT64_MAX}, 128}},
    {"128 codes and all of them but 127", {0, 1, 128}, {0, 1, 127}, {7, 508, 1, 0, {UINT64_MAX, UINT64_MAX >> 1}, 127}},
    {"the codes of the low word twice", {0, 1, 64}, {0, 1, 64}, {7, 254, 1, 0, {UINT64_MAX, 0}, 64}},
    {"the codes of the high word twice", {64, 1, 64}, {64, 1, 64}, {7, 254, 1, 64, {0, UINT64_MAX}, 64}},
    {"codes 0 to 63 and 63 to 127", {0, 1, 64}, {63, 1, 65}, {7, 256, 1, 63, {LOW(63), 0}, 1}},
    {"codes 0 to 63 and 64 to 127", {0, 1, 64}, {64, 1, 64}, {0}},
    {"even codes and odd ones", {0, 2, 64}, {1, 2, 64}, {0}},
};
enum { SHARINGS = sizeof sharings / sizeof sharings[0] };

static void judge_sharing(struct tally *t, const struct sharing_case *c)
{
    enum { MOST_NOTATION = 2048 };
    char notation[MOST_NOTATION], *between = put_choice(notation, c->left);
    *between = '+';
    put_choice(between + 1, c->right);
    struct procedure p = procedure_of(notation);
    expect_judge(t, c->name, (struct slice){p.bytes, p.length}, c->wanted);
}

static void judge_text(struct tally *t, size_t text_length)
{
    struct procedure plain = procedure_of("(a{1,2}){3,4}"), made = with_text(&plain, text_length);
    char name[60];
    snprintf(name, sizeof name, "%zu bytes of text", text_length);
    expect_judge(t, name, (struct slice){made.bytes, made.length}, (struct judgement){7, 2, 4, 0, {LOW(0), 0}, 1});
}

void judging(struct tally *t)
{
    for (int i = 0; i < CASES; i++) {
        struct procedure p = procedure_of(cases[i].procedure);
        expect_judge(t, cases[i].procedure, (struct slice){p.bytes, p.length}, cases[i].wanted);
    }
    for (int i = 0; i < SHARINGS; i++)
        judge_sharing(t, &sharings[i]);
    judge_text(t, 1);
    judge_text(t, 7);
    judge_text(t, 4096);
}
