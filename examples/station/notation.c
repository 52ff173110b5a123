#include "notation.h"

#include <stdio.h>

/* A part stands without brackets where its own sign binds at least so strongly. */
enum binding { AS_CHOICE, AS_SEQUENCE, AS_ITEM };

static enum binding binding_of(unsigned kind)
{
    return kind == CHOICE ? AS_CHOICE : kind == SEQUENCE ? AS_SEQUENCE : AS_ITEM;
}

void print_bounds(struct node repeat)
{
    const unsigned lower = repeat.fields[1], upper = repeat.fields[2];
    if (upper == NO_BOUND)
        printf("{%u,}", lower);
    else
        printf("{%u,%u}", lower, upper);
}

static void print_within(const struct procedure *p, unsigned root, enum binding least);

/* Both signs group to the left: a part of their own kind wants brackets on the right only. */
static void print_pair(const struct procedure *p, struct node node, char sign, enum binding left)
{
    print_within(p, node.fields[0], left);
    putchar(sign);
    print_within(p, node.fields[1], left + 1);
}

static void print_node(const struct procedure *p, struct node node)
{
    switch (node.kind) {
    case EVENT:
        printf("e%u", node.code);
        break;
    case CHOICE:
        print_pair(p, node, '|', AS_CHOICE);
        break;
    case SEQUENCE:
        print_pair(p, node, ',', AS_SEQUENCE);
        break;
    case REPEAT:
        print_within(p, node.fields[0], AS_ITEM);
        print_bounds(node);
        break;
    default:
        printf("()");
        break;
    }
}

static void print_within(const struct procedure *p, unsigned root, enum binding least)
{
    const struct node node = node_at(p, root);
    const int brackets = binding_of(node.kind) < least;
    if (brackets)
        putchar('(');
    print_node(p, node);
    if (brackets)
        putchar(')');
}

void print_part(const struct procedure *p, unsigned root)
{
    print_within(p, root, AS_CHOICE);
}
