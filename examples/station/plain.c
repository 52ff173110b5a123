#include "plain.h"

#include <string.h>

/* Whether a byte is in plain ASCII and shows without a number. */
static int is_sign(unsigned char byte)
{
    return byte >= ' ' && byte <= '~';
}

void print_plain(FILE *to, const void *bytes, size_t length)
{
    const unsigned char *at = bytes;
    for (const unsigned char *end = at + length; at < end; at++)
        if (*at == '\\')
            fputs("\\\\", to);
        else if (is_sign(*at))
            putc(*at, to);
        else
            fprintf(to, "\\x%02X", *at);
}

size_t plain_width(const void *bytes, size_t length)
{
    const unsigned char *at = bytes;
    size_t width = 0;
    for (const unsigned char *end = at + length; at < end; at++)
        width += !is_sign(*at) ? strlen("\\xC3") : *at == '\\' ? 2 : 1;
    return width;
}

void say_of(FILE *to, const char *before, const char *outside, const char *behind)
{
    fputs(before, to);
    print_plain(to, outside, strlen(outside));
    fputs(behind, to);
}

void say_why(FILE *to, const char *before, const char *outside, const char *why)
{
    say_of(to, before, outside, ": ");
    fprintf(to, "%s\n", why);
}
