#include "procedure.h"

#include <stdio.h>

#include "opened.h"
#include "plain.h"

int load_procedure(const char *path, struct procedure *p)
{
    const char *why;
    const int loaded = read_file(path, p->bytes, sizeof p->bytes, &p->length, &why);
    if (!loaded)
        say_why(stderr, "station: cannot read ", path, why);
    return loaded;
}

unsigned two_bytes(const uint8_t *at)
{
    return at[0] + 256U * at[1];
}

struct trailer trailer_of(const struct procedure *p)
{
    const uint8_t *at = p->bytes + p->length - TRAILER_BYTES;
    return (struct trailer){at, two_bytes(at + 4), two_bytes(at + 6), two_bytes(at + 8) + 65536U * two_bytes(at + 10)};
}

unsigned node_count(const struct procedure *p)
{
    return trailer_of(p).nodes;
}

size_t text_length(const struct procedure *p)
{
    return p->length - TRAILER_BYTES - NODE_BYTES * (size_t)node_count(p);
}

struct node node_at(const struct procedure *p, unsigned number)
{
    const uint8_t *at = p->bytes + text_length(p) + NODE_BYTES * (size_t)number;
    return (struct node){at[0], at[1], {two_bytes(at + 2), two_bytes(at + 4), two_bytes(at + 6)}};
}
