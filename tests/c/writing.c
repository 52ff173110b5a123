/* Write: the records of the bench cases, into space that just fits, that is longer, and that is too short. */
#include <stdio.h>
#include <string.h>

#include "calls.h"
#include "procedure.h"
#include "record.h"
#include "sections.h"

static const struct record_case {
    const char *procedure, *run;
    size_t count;
    uint16_t items[MOST_ITEMS];
} records[] = {
    {"a{2,2}a", "aaa", 7, {4097, 0, 8193, 4097, 0, 8193, 2}},
    {"(a+e){3,3}", "a", 3, {4099, 0, 8195}},
    {"(a+e){3,3}", "", 0, {0}},
    {"(ab){1,2}", "abab", 8, {4099, 0, 1, 8195, 4099, 0, 1, 8195}},
    {"e", "", 0, {0}},
    {"a{1,1}", "a", 3, {4097, 0, 8193}},
    {"a+b", "b", 1, {1}},
    {"(a{0,1}){0,3}", "aa", 10, {4098, 4097, 0, 8193, 8194, 4098, 4097, 0, 8193, 8194}},
    {"(eb{0,1}){0,2}", "b", 5, {4100, 4098, 1, 8194, 8196}},
    {"#63#64#127", "#63#64#127", 3, {0, 1, 3}},
    {"(#64+#127){1,2}", "#127#64", 6, {4099, 1, 8195, 4099, 0, 8195}},
};
enum { RECORDS = sizeof records / sizeof records[0] };

static void write_and_check(struct tally *t, const struct record_case *c)
{
    enum { MORE = 13 };
    struct procedure p = procedure_of(c->procedure);
    uint8_t run[MOST_ITEMS], record[2 * MOST_ITEMS];
    const struct slice file = {p.bytes, p.length}, events = {run, run_of(c->run, run)};
    const struct slice wanted = {record, record_bytes(c->items, c->count, record)}, nothing = {record, 0};
    char name[80];
    snprintf(name, sizeof name, "%s with the run \"%s\"", c->procedure, c->run);

    expect_write(t, name, file, events, wanted.length, SEQ_DONE, wanted);
    expect_write(t, name, file, events, wanted.length + MORE, SEQ_DONE, wanted);
    expect_check(t, name, file, wanted, SEQ_DONE, 1);
    if (wanted.length > 0) {
        expect_write(t, name, file, events, wanted.length - 1, SEQ_SPACE, nothing);
        expect_write(t, name, file, events, 0, SEQ_SPACE, nothing);
    }
}

static void refuse_runs(struct tally *t)
{
    static const char *const not_complete[][2] = {
        {"a{2,4}", ""}, {"a{2,4}", "a"}, {"a{2,4}", "aaaaa"}, {"a{2,4}", "b"}, {"e", "a"}, {"(ab){1,2}", "aba"},
    };
    for (size_t i = 0; i < sizeof not_complete / sizeof not_complete[0]; i++) {
        struct procedure p = procedure_of(not_complete[i][0]);
        uint8_t run[MOST_ITEMS];
        const size_t length = run_of(not_complete[i][1], run);
        expect_write(t, not_complete[i][1], (struct slice){p.bytes, p.length}, (struct slice){run, length}, 64,
                     SEQ_RUN_INCOMPLETE, (struct slice){run, 0});
    }
}

/* A run is no word with a code that no event may have, nor with another event's. 10 stands before 11. */
static void refuse_codes(struct tally *t)
{
    static const uint8_t codes[] = {63, 64, 127, 128, 255};
    struct procedure p = procedure_of("a{0,}");
    const struct slice file = {p.bytes, p.length};
    for (size_t i = 0; i < sizeof codes; i++) {
        const uint8_t run[] = {0, codes[i]};
        char name[40];
        snprintf(name, sizeof name, "code %u", codes[i]);
        expect_write(t, name, file, (struct slice){run, 2}, 64, SEQ_RUN_INCOMPLETE, (struct slice){run, 0});
        expect_write(t, name, file, (struct slice){run, 2}, 0, SEQ_RUN_INCOMPLETE, (struct slice){run, 0});
    }
}

void writing(struct tally *t)
{
    for (int i = 0; i < RECORDS; i++)
        write_and_check(t, &records[i]);
    refuse_runs(t);
    refuse_codes(t);
}
