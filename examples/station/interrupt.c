#define _GNU_SOURCE /* for ppoll */

#include "interrupt.h"

#include <poll.h>
#include <signal.h>
#include <stddef.h>

static const int heeded[] = {SIGINT, SIGTERM, SIGHUP};
enum { HEEDED = sizeof heeded / sizeof heeded[0] };

static volatile sig_atomic_t came;

static void note(int signal)
{
    came = signal;
}

/* Without SA_RESTART, so that a call that waits comes back. */
static void heed(int signal)
{
    struct sigaction before, noted = {0};
    noted.sa_handler = note;
    sigemptyset(&noted.sa_mask);
    if (sigaction(signal, NULL, &before) == 0 && before.sa_handler != SIG_IGN)
        sigaction(signal, &noted, NULL);
}

/* Ignored are the signals of an output that nobody reads and of a full disk: the writing fails, and says so. */
void heed_interrupts(void)
{
    for (int i = 0; i < HEEDED; i++)
        heed(heeded[i]);
    signal(SIGPIPE, SIG_IGN);
    signal(SIGXFSZ, SIG_IGN);
}

int interrupt(void)
{
    return came;
}

/* Between the look at what came and the waiting an interrupt is held back, or it would be noted and yet waited on. */
void wait_for_input(int from)
{
    struct pollfd input = {from, POLLIN, 0};
    sigset_t held, before;
    sigemptyset(&held);
    for (int i = 0; i < HEEDED; i++)
        sigaddset(&held, heeded[i]);
    sigprocmask(SIG_BLOCK, &held, &before);
    if (came == 0)
        ppoll(&input, 1, NULL, &before);
    sigprocmask(SIG_SETMASK, &before, NULL);
}
