/*
 * One call of the library, made again and again, so that its instructions can be counted.
 *
 *     measure CALL FILE INPUT BYTES REPEATS    makes the call so often and prints what it gave the last time
 *     measure stack CALL FILE INPUT BYTES      makes it once and prints how many bytes of stack it touched
 *
 * CALL is judge, follow, midrun, write, check or prompt. INPUT is the run, for check the record; its first BYTES
 * bytes are lent, or all of it ("all"). midrun is follow with the last of these events alone, from the state
 * that the others lead to. Two runs that differ in REPEATS alone differ by what the calls cost, the
 * handing over of the arguments included. A result is the answer, then the numbers in the header's order; for
 * write the record follows on the next line.
 */
#include <stdint.h>
#include <stdio.h>
#include <stdlib.h>
#include <string.h>
#include <ucontext.h>

#include "input.h"
#include "seqp.h"

enum {
    MOST_REPEATS = 16,
    SPACE_BYTES = 1 << 20,
    STACK_BYTES = 1 << 24,
    PAINT = 0xa5
};

static struct input file, lent;
static uint8_t states[MOST_REPEATS][SEQ_STATE_BYTES]; /* each call has its own start */
static uint8_t space[SPACE_BYTES];
static _Alignas(64) uint8_t painted[STACK_BYTES];

static uint32_t answer, node, kind, code, count, verdict, yes;
static uint64_t taken, length, low, high;

static void fail(const char *why)
{
    fprintf(stderr, "measure: %s\n", why);
    exit(2);
}

static void judge(uint8_t *state)
{
    (void)state;
    answer = seq_judge(file.bytes, file.length, &node, &kind, &code, &low, &high, &count);
}

static void follow(uint8_t *state)
{
    answer = seq_follow(file.bytes, file.length, state, SEQ_STATE_BYTES, lent.bytes, lent.length, &taken, &verdict);
}

/* Takes all events but the last, so that each call has that one left. */
static void begin_midrun(void)
{
    if (lent.length < 1)
        fail("there is no event to go on with");
    lent.length--;
    follow(states[0]);
    for (int i = 1; i < MOST_REPEATS; i++)
        memcpy(states[i], states[0], SEQ_STATE_BYTES);
    lent.bytes += lent.length;
    lent.length = 1;
}

static void write_record(uint8_t *state)
{
    (void)state;
    answer = seq_write(file.bytes, file.length, lent.bytes, lent.length, space, sizeof space, &length);
}

static void check(uint8_t *state)
{
    (void)state;
    answer = seq_check(file.bytes, file.length, lent.bytes, lent.length, &yes);
}

static void prompt(uint8_t *state)
{
    answer = seq_prompt(file.bytes, file.length, state, SEQ_STATE_BYTES, &low, &high);
}

static void print_judge(void)
{
    printf("%u %u %u %u %llu %llu %u\n", answer, node, kind, code, (unsigned long long)low, (unsigned long long)high,
           count);
}

static void print_follow(void)
{
    printf("%u %llu %u\n", answer, (unsigned long long)taken, verdict);
}

static void print_write(void)
{
    printf("%u %llu\n", answer, (unsigned long long)length);
    fwrite(space, 1, length <= sizeof space ? length : 0, stdout);
}

static void print_check(void)
{
    printf("%u %u\n", answer, yes);
}

static void print_prompt(void)
{
    printf("%u %llu %llu\n", answer, (unsigned long long)low, (unsigned long long)high);
}

static const struct call {
    const char *name;
    void (*begin)(void); /* once, before the calls; NULL where nothing is to be done */
    void (*make)(uint8_t *state);
    void (*print)(void);
} calls[] = {
    {"judge", NULL, judge, print_judge},
    {"follow", NULL, follow, print_follow},
    {"midrun", begin_midrun, follow, print_follow},
    {"write", NULL, write_record, print_write},
    {"check", NULL, check, print_check},
    {"prompt", NULL, prompt, print_prompt},
};
enum { CALLS = sizeof calls / sizeof calls[0] };

static const struct call *call_named(const char *name)
{
    for (int i = 0; i < CALLS; i++)
        if (strcmp(calls[i].name, name) == 0)
            return &calls[i];
    fail("there is no such call");
    return NULL;
}

static void read_lent(const char *file_path, const char *input_path, const char *bytes)
{
    file = read_input(file_path);
    lent = read_input(input_path);
    if (strcmp(bytes, "all") == 0)
        return;
    size_t wanted = strtoul(bytes, NULL, 10);
    if (wanted > lent.length)
        fail("the input is shorter");
    lent.length = wanted;
}

static int repeat(const struct call *call, int repeats)
{
    if (repeats < 1 || repeats > MOST_REPEATS)
        fail("so many repeats are not provided for");
    if (call->begin != NULL)
        call->begin();
    for (int i = 0; i < repeats; i++)
        call->make(states[i]);
    call->print();
    return 0;
}

static const struct call *on_paint;
static uint8_t *top;

static void make_on_paint(void)
{
    top = __builtin_frame_address(0);
    on_paint->make(states[0]);
}

/* Makes the call on a stack of one colour, and looks how far down the colour is gone. */
static int print_stack(const struct call *call)
{
    static ucontext_t here, there;
    memset(painted, PAINT, sizeof painted);
    getcontext(&there);
    there.uc_stack.ss_sp = painted;
    there.uc_stack.ss_size = sizeof painted;
    there.uc_link = &here;
    on_paint = call;
    makecontext(&there, make_on_paint, 0);
    swapcontext(&here, &there);

    const uint8_t *lowest = painted;
    while (*lowest == PAINT)
        lowest++;
    printf("%ld\n", (long)(top - lowest));
    return 0;
}

int main(int argc, char **argv)
{
    if (argc != 6)
        fail("CALL FILE INPUT BYTES REPEATS | stack CALL FILE INPUT BYTES");
    if (strcmp(argv[1], "stack") == 0) {
        read_lent(argv[3], argv[4], argv[5]);
        return print_stack(call_named(argv[2]));
    }
    read_lent(argv[2], argv[3], argv[4]);
    return repeat(call_named(argv[1]), atoi(argv[5]));
}
