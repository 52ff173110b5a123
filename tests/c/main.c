/* Every call over the archive, group by group, and then the groups by eight threads at once. */
#define _DEFAULT_SOURCE
#include <pthread.h>
#include <stdio.h>
#include <stdlib.h>
#include <time.h>

#include "sections.h"

enum { THREADS = 8, ROUNDS = 4 };

static const struct section {
    const char *name;
    void (*run)(struct tally *t);
    int in_threads; /* not where it forks, nor where it is long */
} sections[] = {
    {"the unreachable pages", lending, 0},
    {"files that every call refuses", refusing, 1},
    {"the header's words and sets", words, 1},
    {"judge", judging, 1},
    {"follow", following, 1},
    {"write", writing, 1},
    {"check", checking, 1},
    {"prompt", prompting, 1},
    {"every code", every_code, 1},
    {"chains of 512 nodes", chains, 1},
    {"records of 8 MB", full_size, 0},
};
enum { SECTIONS = sizeof sections / sizeof sections[0] };

static double now(void)
{
    struct timespec time;
    clock_gettime(CLOCK_MONOTONIC, &time);
    return (double)time.tv_sec + 1e-9 * (double)time.tv_nsec;
}

static void report(const char *name, unsigned passed, unsigned failed, double began)
{
    printf("%-32s %5u passed, %u failed, %.1f s\n", name, passed, failed, now() - began);
    fflush(stdout);
}

static pthread_barrier_t together;

static void *run_in_thread(void *tally)
{
    pthread_barrier_wait(&together);
    for (int round = 0; round < ROUNDS; round++)
        for (int i = 0; i < SECTIONS; i++)
            if (sections[i].in_threads)
                sections[i].run(tally);
    return NULL;
}

static void run_threads(struct tally *sum)
{
    static struct tally tallies[THREADS];
    pthread_t threads[THREADS];
    begin_case(sum, "one of eight threads");
    pthread_barrier_init(&together, NULL, THREADS);
    for (int i = 0; i < THREADS; i++)
        if (pthread_create(&threads[i], NULL, run_in_thread, &tallies[i]) != 0) {
            perror("pthread_create");
            exit(2);
        }
    for (int i = 0; i < THREADS; i++) {
        pthread_join(threads[i], NULL);
        begin_case(sum, "thread %d of eight at once", i);
        expect_number(sum, "the number of failed cases", tallies[i].failed, 0);
        end_case(sum);
    }
    pthread_barrier_destroy(&together);
}

static void run_and_report(const char *name, void (*run)(struct tally *), struct tally *t)
{
    const unsigned passed = t->passed, failed = t->failed;
    const double began = now();
    run(t);
    report(name, t->passed - passed, t->failed - failed, began);
}

int main(void)
{
    static struct tally all;
    watch(&all);
    for (int i = 0; i < SECTIONS; i++)
        run_and_report(sections[i].name, sections[i].run, &all);
    run_and_report("eight threads at once", run_threads, &all);
    printf("%u passed, %u failed\n", all.passed, all.failed);
    return all.failed == 0 && all.passed > 0 ? 0 : 1;
}
