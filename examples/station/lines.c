#define _POSIX_C_SOURCE 200809L

#include "lines.h"

#include <errno.h>
#include <unistd.h>

#include "interrupt.h"

/* Sees to it that there is a byte to take; gives LINE, or why there is none. */
static enum input fill(struct lines *lines)
{
    ssize_t got;
    if (lines->at < lines->length)
        return LINE;
    do {
        wait_for_input(lines->from);
        if (interrupt() != 0)
            return INTERRUPTED;
        got = read(lines->from, lines->bytes, sizeof lines->bytes);
    } while (got < 0 && (errno == EINTR || errno == EAGAIN));
    lines->error = errno;
    lines->at = 0;
    lines->length = got > 0 ? (size_t)got : 0;
    return got > 0 ? LINE : got == 0 ? INPUT_ENDED : INPUT_FAILED;
}

static void add(struct line *line, char byte)
{
    if (byte == '\0')
        line->has_zero = 1;
    if (line->length == MOST_LINE)
        line->is_too_long = 1;
    else
        line->text[line->length++] = byte;
}

/* The last line may lack its end. */
enum input read_line(struct lines *lines, struct line *line)
{
    char byte;
    enum input input = interrupt() != 0 ? INTERRUPTED : fill(lines);
    line->length = 0;
    line->is_too_long = line->has_zero = 0;
    while (input == LINE && (byte = lines->bytes[lines->at++]) != '\n') {
        add(line, byte);
        input = fill(lines);
    }
    if (input == INPUT_ENDED && line->length > 0)
        input = LINE;
    if (line->length > 0 && !line->is_too_long && line->text[line->length - 1] == '\r')
        line->length--;
    line->text[line->length] = '\0';
    return input;
}
