/* The lines that are typed, or stand in a script. */
#ifndef LINES_H
#define LINES_H

#include <stddef.h>

enum { MOST_LINE = 1000 };

/* Where lines are read from: bytes that were read and not yet taken. Begins with the descriptor and zeros. */
struct lines {
    int from;
    int error; /* errno, where the input failed */
    size_t at, length;
    char bytes[4096];
};

/* A line without its end. Of one that is too long the beginning is kept; a zero byte would hide what follows it. */
struct line {
    char text[MOST_LINE + 1];
    size_t length;
    int is_too_long, has_zero;
};

enum input { LINE, INPUT_ENDED, INPUT_FAILED, INTERRUPTED };

/* After an interrupt there is no further line, also where one was read already. */
enum input read_line(struct lines *lines, struct line *line);

#endif
