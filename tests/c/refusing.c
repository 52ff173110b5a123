/*
 * Files that are refused with 1 to 7. Each is handed to every call, with a state and a run that would do for
 * another file: all answer alike, give 0 for the rest and leave what was lent. Only Check passes over a 7.
 */
#include <stdio.h>
#include <string.h>

#include "calls.h"
#include "procedure.h"
#include "sections.h"

static void expect_refused(struct tally *t, const char *name, const struct procedure *p, struct judgement wanted)
{
    enum { SPACE = 9 };
    static const uint8_t start[SEQ_STATE_BYTES], junk[3] = {9, 9, 9}, run[1] = {0}, record[2] = {0, 0};
    const struct slice file = {p->bytes, p->length}, none = {run, 0};
    const struct followed refused = {wanted.answer, 0, 0};

    expect_judge(t, name, file, wanted);
    expect_follow(t, name, file, (struct slice){start, sizeof start}, (struct slice){run, 1}, refused, start);
    expect_follow(t, name, file, (struct slice){junk, sizeof junk}, none, refused, junk);
    expect_write(t, name, file, (struct slice){run, 1}, SPACE, wanted.answer, none);
    expect_prompt(t, name, file, (struct slice){start, sizeof start}, wanted.answer, (struct codes){0, 0});
    if (wanted.answer != SEQ_CONFLICT)
        expect_check(t, name, file, (struct slice){record, sizeof record}, wanted.answer, 0);
}

/* 1: the length. */
static void refuse_lengths(struct tally *t)
{
    static const size_t lengths[] = {0, 1, 12, 19, SEQ_FILE_MOST_BYTES + 1};
    struct procedure p = procedure_of("a");
    for (size_t i = 0; i < sizeof lengths / sizeof lengths[0]; i++) {
        char name[60];
        snprintf(name, sizeof name, "%zu bytes", lengths[i]);
        p.length = lengths[i];
        expect_refused(t, name, &p, (struct judgement){.answer = 1});
    }
}

/* 2 and 3: the trailer. Two bytes of it are changed, and perhaps the text made longer. */
static const struct trailer_case {
    const char *name;
    unsigned at, number;
    uint32_t answer;
} trailers[] = {
    {"first letters wrong", 0, 'S' + 256 * 'e', 2},
    {"last letters wrong", 2, 'Q' + 256 * 'Q', 2},
    {"edition 0", 6, 0, 2},
    {"edition 2", 6, 2, 2},
    {"edition 257", 6, 257, 2},
    {"no nodes", 4, 0, 3},
    {"a node too few", 4, 1, 3},
    {"a node too many", 4, 3, 3},
    {"513 nodes", 4, 513, 3},
    {"65,535 nodes", 4, 65535, 3},
    {"distance 1 short", 8, 27, 3},
    {"distance 1 long", 8, 29, 3},
    {"distance beyond the third byte", 10, 1, 3},
    {"distance beyond the fourth byte", 10, 256, 3},
};
enum { TRAILERS = sizeof trailers / sizeof trailers[0] };

static void refuse_trailers(struct tally *t)
{
    for (int i = 0; i < TRAILERS; i++) {
        struct procedure p = procedure_of("a{0,1}");
        put_number(trailer_of(&p, trailers[i].at), trailers[i].number);
        expect_refused(t, trailers[i].name, &p, (struct judgement){.answer = trailers[i].answer});
    }
}

/* A trailer that agrees with itself and speaks of more nodes than the file has room for. */
static void refuse_nodes_beyond_the_file(struct tally *t)
{
    struct procedure p = procedure_of("a");
    put_number(trailer_of(&p, 4), SEQ_MOST_NODES);
    put_number(trailer_of(&p, 8), TRAILER_BYTES + NODE_BYTES * SEQ_MOST_NODES);
    expect_refused(t, "512 nodes in 20 bytes", &p, (struct judgement){.answer = 3});
    put_number(trailer_of(&p, 2), 0);
    expect_refused(t, "512 nodes in 20 bytes, letters wrong", &p, (struct judgement){.answer = 2});
}

static void refuse_text(struct tally *t)
{
    struct procedure plain = procedure_of("a"), made = with_text(&plain, 4097);
    expect_refused(t, "4,097 bytes of text", &made, (struct judgement){.answer = 3});
}

/* 4 and 5: one field of a node. Field 0 is the kind and 256 times the code. */
static const struct node_case {
    const char *procedure;
    unsigned node, field, number;
    uint32_t answer, reported;
} nodes[] = {
    {"a", 0, 0, 5, 4, 0},
    {"a", 0, 0, 255, 4, 0},
    {"a", 0, 0, 1 + 256 * 128, 4, 0},
    {"a", 0, 0, 1 + 256 * 192, 4, 0},
    {"a", 0, 0, 1 + 256 * 255, 4, 0},
    {"#127#127", 1, 0, 1 + 256 * 128, 4, 1},
    {"a", 0, 1, 1, 4, 0},
    {"a", 0, 2, 256, 4, 0},
    {"a", 0, 3, 65535, 4, 0},
    {"e", 0, 0, 256, 4, 0},
    {"e", 0, 1, 1, 4, 0},
    {"e", 0, 3, 1, 4, 0},
    {"a+b", 2, 0, 2 + 256, 4, 2},
    {"a+b", 2, 3, 1, 4, 2},
    {"ab", 2, 0, 3 + 256, 4, 2},
    {"ab", 2, 3, 65535, 4, 2},
    {"a{0,1}", 1, 0, 4 + 256, 4, 1},
    {"a{0,}", 1, 2, 4097, 4, 1},
    {"a{2,4}", 1, 2, 5, 4, 1},
    {"a{0,1}", 1, 3, 0, 4, 1},
    {"a{0,1}", 1, 3, 4097, 4, 1},
    {"a{0,1}", 1, 3, 65534, 4, 1},
    {"abc", 1, 0, 9, 4, 1},
    /* children */
    {"a+b", 2, 1, 1, 5, 2},
    {"a+b", 2, 2, 0, 5, 2},
    {"ab", 2, 2, 65535, 5, 2},
    {"a{0,1}", 1, 1, 1, 5, 1},
    {"a{0,1}", 1, 1, 65535, 5, 1},
    {"(ab)c", 4, 1, 1, 5, 4},
    /* a node that has no room for its children: node 0 a choice, a repeat, a repeat whose body would wrap */
    {"ab", 0, 0, 2, 5, 0},
    {"ab", 1, 0, 2, 5, 1},
};
enum { NODES = sizeof nodes / sizeof nodes[0] };

static void refuse_nodes(struct tally *t)
{
    for (int i = 0; i < NODES; i++) {
        struct procedure p = procedure_of(nodes[i].procedure);
        char name[80];
        snprintf(name, sizeof name, "%s with field %u of node %u %u", nodes[i].procedure, nodes[i].field,
                 nodes[i].node, nodes[i].number);
        put_number(field_of(&p, nodes[i].node, nodes[i].field), nodes[i].number);
        expect_refused(t, name, &p, (struct judgement){.answer = nodes[i].answer, .node = nodes[i].reported});
    }
}

static void refuse_several(struct tally *t)
{
    struct procedure p = procedure_of("abc");
    put_number(field_of(&p, 0, 0), 2);
    put_number(field_of(&p, 3, 0), 9);
    expect_refused(t, "a choice at node 0 and kind 9 at node 3", &p, (struct judgement){.answer = 4, .node = 3});
    put_number(field_of(&p, 2, 3), 1);
    expect_refused(t, "a bad record at nodes 2 and 3", &p, (struct judgement){.answer = 4, .node = 2});

    p = procedure_of("ab");
    put_number(field_of(&p, 2, 0), 1);
    put_number(field_of(&p, 2, 1), 0);
    put_number(field_of(&p, 2, 2), 0);
    expect_refused(t, "three events and nothing above them", &p, (struct judgement){.answer = 5, .node = 2});

    p = procedure_of("a{0,1}");
    memset(p.bytes, 0, NODE_BYTES);
    put_number(field_of(&p, 0, 0), 4);
    put_number(field_of(&p, 0, 1), 65535);
    put_number(field_of(&p, 0, 3), 1);
    expect_refused(t, "a repeat at node 0 with body 65,535", &p, (struct judgement){.answer = 5, .node = 0});
}

/* 6 stands before 7. */
static void refuse_repeats(struct tally *t)
{
    struct procedure p = nested_of("{0,1}", SEQ_MOST_REPEATS + 1);
    expect_refused(t, "33 repeats", &p, (struct judgement){.answer = 6, .node = 33});
    p = nested_of("{0,2}", SEQ_MOST_REPEATS + 1);
    expect_refused(t, "33 repeats and a conflict", &p, (struct judgement){.answer = 6, .node = 33});
    p = nested_of("{0,2}", SEQ_MOST_REPEATS);
    expect_refused(t, "32 repeats and a conflict", &p, (struct judgement){7, 2, 4, 0, {LOW(0), 0}, 1});
}

static void refuse_conflicts(struct tally *t)
{
    static const struct conflict_case {
        const char *procedure;
        struct judgement wanted;
    } conflicts[] = {
        {"a+ab", {7, 4, 1, 0, {LOW(0), 0}, 1}},
        {"a{0,2}a", {7, 3, 2, 0, {LOW(0), 0}, 1}},
        {"a{2,3}a", {7, 3, 3, 0, {LOW(0), 0}, 1}},
        {"(a{1,2}){3,4}", {7, 2, 4, 0, {LOW(0), 0}, 1}},
        {"#64+#64#127", {7, 4, 1, 64, {0, HIGH(64)}, 1}},
        {"#127{2,3}#127", {7, 3, 3, 127, {0, HIGH(127)}, 1}},
    };
    for (size_t i = 0; i < sizeof conflicts / sizeof conflicts[0]; i++) {
        struct procedure p = procedure_of(conflicts[i].procedure);
        expect_refused(t, conflicts[i].procedure, &p, conflicts[i].wanted);
    }
}

void refusing(struct tally *t)
{
    refuse_lengths(t);
    refuse_trailers(t);
    refuse_nodes_beyond_the_file(t);
    refuse_text(t);
    refuse_nodes(t);
    refuse_several(t);
    refuse_repeats(t);
    refuse_conflicts(t);
}
