#include "keys.h"

#include <stdio.h>
#include <string.h>

#include "plain.h"

enum { LINE_WIDTH = 79, INDENT = 2 };

/* A line of the free text, without its end. */
struct text_line {
    const uint8_t *bytes;
    size_t length;
};

static struct text_line line_at(const struct procedure *p, size_t at)
{
    struct text_line line = {p->bytes + at, 0};
    while (at + line.length < text_length(p) && line.bytes[line.length] != '\n')
        line.length++;
    return line;
}

static int is_digit(uint8_t byte)
{
    return byte >= '0' && byte <= '9';
}

/* The code that a line names, with where the name begins, or -1. */
static int named_code(struct text_line line, size_t *name)
{
    int code = 0;
    size_t at = 1;
    if (line.length < 2 || line.bytes[0] != 'e' || !is_digit(line.bytes[1]))
        return -1;
    for (; at < line.length && is_digit(line.bytes[at]) && code <= SEQ_MOST_CODE; at++)
        code = 10 * code + (line.bytes[at] - '0');
    *name = at + 1;
    return code <= SEQ_MOST_CODE && at < line.length && line.bytes[at] == ' ' ? code : -1;
}

void read_keys(const struct procedure *p, struct keys *keys)
{
    struct text_line line;
    memset(keys, 0, sizeof *keys);
    for (size_t at = 0; at < text_length(p); at += line.length + 1) {
        size_t name;
        line = line_at(p, at);
        const int code = named_code(line, &name);
        if (code < 0)
            continue;
        keys->names[code].bytes = line.bytes + name;
        keys->names[code].length = line.length - name < MOST_NAME ? line.length - name : MOST_NAME;
    }
}

static int is_named(const struct keys *keys, unsigned code)
{
    return code < KEYS && keys->names[code].length > 0;
}

void print_key(const struct keys *keys, unsigned code)
{
    printf("e%u", code);
    if (is_named(keys, code)) {
        printf(" ");
        print_plain(stdout, keys->names[code].bytes, keys->names[code].length);
    }
}

void print_keys(const struct keys *keys, struct key_set set)
{
    const char *before = "";
    if (set.low == 0 && set.high == 0)
        printf("none");
    for (unsigned code = 0; code < KEYS; code++)
        if (seq_has_code(set.low, set.high, code)) {
            printf("%s", before);
            print_key(keys, code);
            before = ", ";
        }
}

/* How many signs print_key prints. */
static size_t key_width(const struct keys *keys, unsigned code)
{
    const size_t width = (size_t)snprintf(NULL, 0, "e%u", code);
    if (!is_named(keys, code))
        return width;
    return width + 1 + plain_width(keys->names[code].bytes, keys->names[code].length);
}

/*
 * Goes to the place of a key of this width and gives the column behind it. The place is on the same line if the key and
 * a comma still fit there. Column 0 is before the first key.
 */
static size_t place_key(size_t column, size_t width)
{
    const size_t behind = column + strlen(", ") + width;
    if (column > 0 && behind < LINE_WIDTH) {
        printf(", ");
        return behind;
    }
    printf("%s%*s", column > 0 ? ",\n" : "", INDENT, "");
    return INDENT + width;
}

void print_key_lines(const struct keys *keys, struct key_set set)
{
    size_t column = 0;
    for (unsigned code = 0; code < KEYS; code++)
        if (seq_has_code(set.low, set.high, code)) {
            column = place_key(column, key_width(keys, code));
            print_key(keys, code);
        }
    printf("\n");
}

void print_text(const struct procedure *p)
{
    struct text_line line;
    for (size_t at = 0; at < text_length(p); at += line.length + 1) {
        line = line_at(p, at);
        printf("|%s", line.length == 0 ? "" : " ");
        print_plain(stdout, line.bytes, line.length);
        printf("\n");
    }
}
