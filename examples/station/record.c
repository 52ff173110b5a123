#include "record.h"

#include <stdio.h>

#include "notation.h"

enum { MOST_SHOWN = 200, INDENT = 2 };

/* Where the showing of a record stands. */
struct shown {
    int depth;
    unsigned before;                 /* the item before this one, or 65535 */
    unsigned blocks[SEQ_MOST_NODES]; /* the number of the last block of each repeat */
};

static unsigned node_of(unsigned item)
{
    return item % SEQ_MARK_UNIT;
}

static unsigned mark_of(unsigned item)
{
    return item / SEQ_MARK_UNIT;
}

static void print_event(const struct procedure *p, const struct keys *keys, unsigned node)
{
    print_key(keys, node_at(p, node).code);
    printf(" (node %u)\n", node);
}

/* A block counts on where it follows a block of the same repeat. */
static void print_opening(const struct procedure *p, struct shown *shown, unsigned node)
{
    const int follows = mark_of(shown->before) == SEQ_MARK_CLOSING && node_of(shown->before) == node;
    shown->blocks[node] = follows ? shown->blocks[node] + 1 : 1;
    printf("block %u of ", shown->blocks[node]);
    print_bounds(node_at(p, node));
    printf(" (node %u)\n", node);
}

/* A closing shows in the indenting alone. */
static void print_item(const struct procedure *p, const struct keys *keys, struct shown *shown, unsigned item)
{
    if (mark_of(item) == SEQ_MARK_CLOSING) {
        shown->depth--;
    } else {
        printf("%*s", INDENT * (shown->depth + 1), "");
        if (mark_of(item) == SEQ_MARK_OPENING) {
            print_opening(p, shown, node_of(item));
            shown->depth++;
        } else {
            print_event(p, keys, node_of(item));
        }
    }
    shown->before = item;
}

void print_record(const struct procedure *p, const struct keys *keys, const uint8_t *record, size_t length)
{
    struct shown shown = {0, 65535, {0}};
    const size_t items = length / SEQ_ITEM_BYTES, most = items <= MOST_SHOWN ? items : MOST_SHOWN;
    for (size_t i = 0; i < most; i++)
        print_item(p, keys, &shown, two_bytes(record + SEQ_ITEM_BYTES * i));
    if (items > most)
        printf("  .. and %zu items more\n", items - most);
}
