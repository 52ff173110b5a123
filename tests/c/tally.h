/* Counting cases. A case begins with its name, compares, and ends; it passes if nothing differed. */
#ifndef TALLY_H
#define TALLY_H

#include <stddef.h>
#include <stdint.h>

struct tally {
    unsigned passed, failed;
    int differs;
    char name[200];
};

void begin_case(struct tally *t, const char *format, ...);
void end_case(struct tally *t);

/* Tells what differs and where; the case then fails. */
void expect_number(struct tally *t, const char *what, uint64_t given, uint64_t wanted);
void expect_bytes(struct tally *t, const char *what, const uint8_t *given, const uint8_t *wanted, size_t length);

/* From now on a touch outside lent memory ends the program with the name of this tally's case. */
void watch(const struct tally *t);

#endif
