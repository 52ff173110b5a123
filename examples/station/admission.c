#include "admission.h"

#include <inttypes.h>
#include <stdio.h>
#include <string.h>

#include "notation.h"
#include "plain.h"

struct judgement {
    uint32_t answer, node, kind, code;
    struct key_set shared;
    uint32_t count;
};

static void explain_length(const struct procedure *p)
{
    if (p->length > SEQ_FILE_MOST_BYTES)
        printf("The file is longer than %d bytes, the most that a procedure may have.\n", SEQ_FILE_MOST_BYTES);
    else
        printf("The file has %zu bytes; a procedure has at least %d. Was it cut off?\n", p->length,
               SEQ_FILE_LEAST_BYTES);
}

static void explain_letters(const struct procedure *p)
{
    const struct trailer trailer = trailer_of(p);
    if (memcmp(trailer.letters, "SEQP", 4) != 0)
        printf("This is no procedure file: the letters SEQP do not stand 12 bytes before its end.\n");
    else
        printf("The file is of edition %u; this station knows edition 1.\n", trailer.edition);
}

static void explain_layout(const struct procedure *p)
{
    const struct trailer trailer = trailer_of(p);
    const unsigned long span = TRAILER_BYTES + NODE_BYTES * (unsigned long)trailer.nodes;
    if (trailer.nodes < 1 || trailer.nodes > SEQ_MOST_NODES)
        printf("It says that it has %u nodes; a procedure has 1 to %d.\n", trailer.nodes, SEQ_MOST_NODES);
    else if (trailer.distance != span)
        printf("It says that its nodes begin %lu bytes before the end; %u nodes begin %lu before it.\n",
               (unsigned long)trailer.distance, trailer.nodes, span);
    else if (span > p->length)
        printf("It says that it has %u nodes, which do not fit into %zu bytes.\n", trailer.nodes, p->length);
    else
        printf("Its text is longer than %d bytes.\n", MOST_TEXT);
}

static int are_bounds(unsigned lower, unsigned upper)
{
    return lower <= MOST_BOUND && upper >= 1 && lower <= upper && (upper <= MOST_BOUND || upper == NO_BOUND);
}

static void explain_node(struct node node)
{
    if (node.kind >= KINDS)
        printf("there is no kind %u; kinds are 0 to %d.\n", node.kind, KINDS - 1);
    else if (node.kind == EVENT && node.code > SEQ_MOST_CODE)
        printf("there is no key e%u; keys are e0 to e%d.\n", node.code, SEQ_MOST_CODE);
    else if (node.kind == REPEAT && node.code == 0 && !are_bounds(node.fields[1], node.fields[2]))
        printf("it has the bounds %u and %u. The lower is 0 to %d; the upper is 1 to %d,\n"
               "or %d for none, and not below the lower.\n",
               node.fields[1], node.fields[2], MOST_BOUND, MOST_BOUND, NO_BOUND);
    else
        printf("a field that has no meaning there is not 0.\n");
}

/* The first node of a part whose nodes are in order. */
static unsigned first_node(const struct procedure *p, unsigned root)
{
    struct node node = node_at(p, root);
    while (node.kind >= CHOICE) {
        root = node.fields[0];
        node = node_at(p, root);
    }
    return root;
}

/* One child is where the order puts it, or the message says where that is. */
static int child_stands(const char *name, unsigned said, unsigned right)
{
    if (said != right)
        printf("%s must be node %u; the file says %u.\n", name, right, said);
    return said == right;
}

/* The nodes before this one are in order. */
static void explain_order(const struct procedure *p, unsigned number)
{
    const struct node node = node_at(p, number);
    const int is_pair = node.kind == CHOICE || node.kind == SEQUENCE;
    if (is_pair && (number == 0 || first_node(p, number - 1) == 0))
        printf("it needs two parts before it and has %s.\n", number == 0 ? "none" : "one");
    else if (node.kind == REPEAT && number == 0)
        printf("it needs a part before it and has none.\n");
    else if (is_pair && !(child_stands("its right child", node.fields[1], number - 1) &&
                          child_stands("its left child", node.fields[0], first_node(p, number - 1) - 1)))
        return;
    else if (node.kind == REPEAT && !child_stands("its body", node.fields[0], number - 1))
        return;
    else
        printf("it is the last, and its part begins at node %u; those before belong to nothing.\n",
               first_node(p, number));
}

/* All keys that clash, where there are several, and then one of them: each can come in the same two ways. */
static void name_keys(const struct keys *keys, struct judgement given)
{
    const int are_several = given.count > 1;
    if (are_several) {
        printf("%" PRIu32 " keys clash there:\n", given.count);
        print_key_lines(keys, given.shared);
    }
    print_key(keys, given.code);
    printf("%s", are_several ? ", like each of them," : "");
}

/* The two ways in which a key could come, which no record could tell apart. */
static void explain_conflict(const struct procedure *p, const struct keys *keys, struct judgement given)
{
    static const char *const ways[] = {
        [SEQ_CONFLICT_CHOICE] = "as the beginning of the left choice, or of the right one",
        [SEQ_CONFLICT_FIRST_FIRST] = "as the beginning of the left part, or, that left out, of the right one",
        [SEQ_CONFLICT_AFTER_FIRST] = "as more of the left part, or as the beginning of the right one",
        [SEQ_CONFLICT_REPEAT] = "as more of the same block, or as the beginning of the next",
    };
    printf("Node %u has a conflict of kind %u:\n  ", given.node, given.kind);
    print_part(p, given.node);
    printf("\n");
    name_keys(keys, given);
    printf(" can come there in two ways, and no record could tell which:\n%s.\n", ways[given.kind]);
}

static void explain_refusal(const struct procedure *p, const struct keys *keys, struct judgement given)
{
    switch (given.answer) {
    case SEQ_FILE_LENGTH:
        explain_length(p);
        break;
    case SEQ_LETTERS:
        explain_letters(p);
        break;
    case SEQ_LAYOUT:
        explain_layout(p);
        break;
    case SEQ_NODE:
        printf("Node %u: ", given.node);
        explain_node(node_at(p, given.node));
        break;
    case SEQ_ORDER:
        printf("Node %u: ", given.node);
        explain_order(p, given.node);
        break;
    case SEQ_REPEATS:
        printf("It has more than %d repeats; node %u is the first too many.\n", SEQ_MOST_REPEATS, given.node);
        break;
    case SEQ_CONFLICT:
        explain_conflict(p, keys, given);
        break;
    default:
        printf("The library gives answer %u, which this station does not know.\n", given.answer);
        break;
    }
}

int is_admitted(const struct procedure *p, struct keys *keys, const char *path)
{
    struct judgement given;
    given.answer = seq_judge(p->bytes, p->length, &given.node, &given.kind, &given.code, &given.shared.low,
                             &given.shared.high, &given.count);
    if (given.answer == SEQ_DONE || given.answer > SEQ_LAYOUT)
        read_keys(p, keys);
    if (given.answer == SEQ_DONE) {
        say_of(stdout, "", path, ": admitted, ");
        printf("%u node%s.\n", node_count(p), node_count(p) == 1 ? "" : "s");
        print_text(p);
        return 1;
    }
    say_of(stdout, "", path, ": refused, ");
    printf("answer %" PRIu32 ".\n", given.answer);
    if (given.answer > SEQ_LAYOUT)
        print_text(p);
    explain_refusal(p, keys, given);
    return 0;
}
