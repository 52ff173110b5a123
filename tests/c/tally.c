#define _DEFAULT_SOURCE
#include "tally.h"

#include <inttypes.h>
#include <signal.h>
#include <stdarg.h>
#include <stdio.h>
#include <string.h>
#include <unistd.h>

void begin_case(struct tally *t, const char *format, ...)
{
    va_list words;
    va_start(words, format);
    vsnprintf(t->name, sizeof t->name, format, words);
    va_end(words);
    t->differs = 0;
}

void end_case(struct tally *t)
{
    if (t->differs)
        t->failed++;
    else
        t->passed++;
}

void expect_number(struct tally *t, const char *what, uint64_t given, uint64_t wanted)
{
    if (given == wanted)
        return;
    t->differs = 1;
    printf("FAILS %s: %s is %" PRIu64 ", not %" PRIu64 "\n", t->name, what, given, wanted);
}

void expect_bytes(struct tally *t, const char *what, const uint8_t *given, const uint8_t *wanted, size_t length)
{
    size_t at = 0;
    while (at < length && given[at] == wanted[at])
        at++;
    if (at == length)
        return;
    t->differs = 1;
    printf("FAILS %s: byte %zu of the %s is %u, not %u\n", t->name, at, what, given[at], wanted[at]);
}

static const struct tally *watched;

static void tell(const char *text)
{
    ssize_t written = write(STDOUT_FILENO, text, strlen(text));
    (void)written;
}

static void on_touch(int signal_number)
{
    (void)signal_number;
    tell("FAILS ");
    tell(watched->name);
    tell(": memory that was not lent, or lent for reading only, was touched\n");
    _exit(1);
}

void watch(const struct tally *t)
{
    struct sigaction action;
    memset(&action, 0, sizeof action);
    action.sa_handler = on_touch;
    watched = t;
    sigaction(SIGSEGV, &action, NULL);
    sigaction(SIGBUS, &action, NULL);
}
