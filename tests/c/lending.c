/* That a byte outside a lent slice does end a program, on the machine on which the tests run. */
#define _DEFAULT_SOURCE
#include <signal.h>
#include <sys/wait.h>
#include <unistd.h>

#include "lent.h"
#include "sections.h"

static void read_byte(volatile uint8_t *at)
{
    (void)*at;
}

static void write_byte(volatile uint8_t *at)
{
    *at = 0;
}

enum { TOUCHED = 0, ENDED = 3 };

static void end_here(int signal_number)
{
    (void)signal_number;
    _exit(ENDED);
}

/* Whether a process that touches the byte is ended by it. */
static int is_unreachable(void (*touch)(volatile uint8_t *), uint8_t *at)
{
    int status = 0;
    pid_t child = fork();
    if (child == 0) {
        signal(SIGSEGV, end_here);
        signal(SIGBUS, end_here);
        touch(at);
        _exit(TOUCHED);
    }
    waitpid(child, &status, 0);
    return WIFEXITED(status) && WEXITSTATUS(status) == ENDED;
}

static void expect_touch(struct tally *t, const char *name, void (*touch)(volatile uint8_t *), uint8_t *at,
                         unsigned unreachable)
{
    begin_case(t, "lending, %s", name);
    expect_number(t, "unreachable", (unsigned)is_unreachable(touch, at), unreachable);
    end_case(t);
}

void lending(struct tally *t)
{
    enum { LENGTH = 5 };
    static const uint8_t bytes[LENGTH] = {1, 2, 3, 4, 5};
    struct lent first = lend(bytes, LENGTH, AT_BEGINNING), last = lend(bytes, LENGTH, AT_END);
    struct lent writable = lend_writable(bytes, LENGTH, AT_END), none = lend(bytes, 0, AT_END);

    expect_touch(t, "the first byte", read_byte, first.bytes, 0);
    expect_touch(t, "the last byte", read_byte, last.bytes + LENGTH - 1, 0);
    expect_touch(t, "the byte before the first", read_byte, first.bytes - 1, 1);
    expect_touch(t, "the byte behind the last", read_byte, last.bytes + LENGTH, 1);
    expect_touch(t, "a byte of an empty slice", read_byte, none.bytes, 1);
    expect_touch(t, "a write to what is to be read only", write_byte, last.bytes, 1);
    expect_touch(t, "a write to what may be written", write_byte, writable.bytes, 0);
    expect_touch(t, "a write behind what may be written", write_byte, writable.bytes + LENGTH, 1);

    take_back(&first);
    take_back(&last);
    take_back(&writable);
    take_back(&none);
}
