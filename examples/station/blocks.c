#include "blocks.h"

#include <stdio.h>

#include "notation.h"

enum { PLACE_BYTES = 2, COUNTER_BYTES = 2 };

static int has_empty_word(const struct procedure *p, unsigned root)
{
    const struct node node = node_at(p, root);
    switch (node.kind) {
    case EVENT:
        return 0;
    case CHOICE:
        return has_empty_word(p, node.fields[0]) || has_empty_word(p, node.fields[1]);
    case SEQUENCE:
        return has_empty_word(p, node.fields[0]) && has_empty_word(p, node.fields[1]);
    case REPEAT:
        return node.fields[1] == 0 || has_empty_word(p, node.fields[0]);
    default:
        return 1;
    }
}

/* A body that may be left out leaves nothing to be wanted: its repeat may end after any block. */
static unsigned least_blocks(const struct procedure *p, struct node repeat)
{
    return has_empty_word(p, repeat.fields[0]) ? 0 : repeat.fields[1];
}

/* A repeat of one key goes by the key's name, any other by its notation. */
static void print_repeat(const struct procedure *p, const struct keys *keys, unsigned number)
{
    const struct node body = node_at(p, node_at(p, number).fields[0]);
    if (body.kind == EVENT)
        print_key(keys, body.code);
    else
        print_part(p, number);
}

static void print_least_and_most(unsigned least, unsigned most)
{
    if (most == NO_BOUND && least == 0)
        printf("any number");
    else if (most == NO_BOUND)
        printf("%u or more", least);
    else if (least == 0)
        printf("up to %u", most);
    else if (least == most)
        printf("%u", most);
    else
        printf("%u to %u", least, most);
}

/* Without an upper bound the counter stops once no more blocks are wanted, and at 1 at the least. */
static void print_count(const struct procedure *p, const struct keys *keys, unsigned number, unsigned blocks)
{
    const struct node repeat = node_at(p, number);
    const unsigned least = least_blocks(p, repeat), most = repeat.fields[2];
    printf("  ");
    print_repeat(p, keys, number);
    printf(": %s%u of ", most == NO_BOUND && blocks >= least ? "at least " : "", blocks);
    print_least_and_most(least, most);
    printf("%s\n", blocks < least ? ", wants more" : blocks == most ? ", is full" : "");
}

/* A repeat stands behind its body, so that the rising order goes from the innermost outwards. */
void print_blocks(const struct procedure *p, const struct keys *keys, const uint8_t state[SEQ_STATE_BYTES])
{
    const uint8_t *counter = state + PLACE_BYTES;
    const char *heading = "Blocks begun, the innermost repeat first:\n";
    for (unsigned number = 0; number < node_count(p); number++) {
        if (node_at(p, number).kind != REPEAT)
            continue;
        const unsigned blocks = two_bytes(counter);
        counter += COUNTER_BYTES;
        if (blocks == 0)
            continue;
        printf("%s", heading);
        heading = "";
        print_count(p, keys, number, blocks);
    }
}
