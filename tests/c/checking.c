/* Check: records that are a reading and records that are none. (Those that Write wrote are checked beside it.) */
#include <stdio.h>
#include <string.h>

#include "calls.h"
#include "procedure.h"
#include "record.h"
#include "sections.h"

static const struct check_case {
    const char *procedure;
    uint32_t yes;
    size_t count;
    uint16_t items[MOST_ITEMS];
} checks[] = {
    /* a conflict does not matter */
    {"(a{1,2}){3,4}", 1, 15,
     {4098, 4097, 0, 8193, 8194, 4098, 4097, 0, 8193, 8194, 4098, 4097, 0, 8193, 8194}},
    {"a+ab", 1, 1, {0}},
    {"a+ab", 1, 2, {1, 2}},
    {"a+ab", 0, 2, {0, 2}},
    /* the empty record */
    {"e", 1, 0, {0}},
    {"a{0,2}", 1, 0, {0}},
    {"(a+e){3,3}", 1, 0, {0}},
    {"a", 0, 0, {0}},
    /* too few blocks, too many */
    {"a{2,4}", 0, 3, {4097, 0, 8193}},
    {"a{2,4}", 1, 6, {4097, 0, 8193, 4097, 0, 8193}},
    {"a{0,1}", 0, 6, {4097, 0, 8193, 4097, 0, 8193}},
    /* items that name no event, opening or closing */
    {"a{2,2}a", 0, 1, {4}},
    {"a{2,2}a", 0, 1, {12288}},
    {"a{2,2}a", 0, 1, {1}},
    {"a{2,2}a", 0, 1, {4096}},
    {"a{2,2}a", 0, 1, {65535}},
    {"a{2,2}a", 0, 2, {4097, 8193}},
    {"a", 0, 1, {4096}},
    {"a", 0, 1, {61440}},
    {"a", 0, 2, {0, 0}},
    /* a block without an event, a block that is not closed, closings alone */
    {"(a+e){3,3}", 0, 2, {4099, 8195}},
    {"a{0,2}", 0, 2, {4097, 0}},
    {"a{0,2}", 0, 1, {8193}},
    {"a{0,2}", 0, 4, {4097, 0, 8193, 8193}},
    /* a closing of another repeat, a record of another procedure */
    {"(a{0,1}b){0,2}", 0, 6, {4100, 4097, 0, 8196, 2, 8196}},
    {"(a{0,1}b){0,2}", 1, 6, {4100, 4097, 0, 8193, 2, 8196}},
    {"ab", 0, 6, {4100, 4097, 0, 8193, 2, 8196}},
    /* a record does not name its procedure: two nodes and no more are the record of a run of each */
    {"#1#2", 1, 2, {0, 1}},
    {"#7#9", 1, 2, {0, 1}},
    {"#64#127", 1, 2, {0, 1}},
    /* codes of both words, and a conflict between them */
    {"(#63+#127)#64{0,2}", 1, 4, {1, 4100, 3, 8196}},
    {"(#63+#127)#64{0,2}", 0, 4, {0, 4099, 3, 8195}},
    {"#127+#127#64", 1, 2, {1, 2}},
};
enum { CHECKS = sizeof checks / sizeof checks[0] };

static void check_items(struct tally *t)
{
    for (int i = 0; i < CHECKS; i++) {
        struct procedure p = procedure_of(checks[i].procedure);
        uint8_t record[2 * MOST_ITEMS];
        const size_t length = record_bytes(checks[i].items, checks[i].count, record);
        char name[80];
        snprintf(name, sizeof name, "%s with %zu items from %u on", checks[i].procedure, checks[i].count,
                 checks[i].items[0]);
        expect_check(t, name, (struct slice){p.bytes, p.length}, (struct slice){record, length}, SEQ_DONE,
                     checks[i].yes);
    }
}

static void check_odd_bytes(struct tally *t)
{
    static const uint8_t zeros[3];
    struct procedure p = procedure_of("a"), empty = procedure_of("e");
    expect_check(t, "1 byte", (struct slice){p.bytes, p.length}, (struct slice){zeros, 1}, SEQ_DONE, 0);
    expect_check(t, "3 bytes", (struct slice){p.bytes, p.length}, (struct slice){zeros, 3}, SEQ_DONE, 0);
    expect_check(t, "1 byte for e", (struct slice){empty.bytes, empty.length}, (struct slice){zeros, 1}, SEQ_DONE, 0);
}

void checking(struct tally *t)
{
    check_items(t);
    check_odd_bytes(t);
}
