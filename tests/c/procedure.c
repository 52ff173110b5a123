#include "procedure.h"

#include <stdio.h>
#include <stdlib.h>
#include <string.h>

enum kind { EMPTY, EVENT, CHOICE, SEQUENCE, REPEAT };

struct reader {
    const char *at;
    struct procedure *made;
};

void put_number(uint8_t *at, unsigned number)
{
    at[0] = (uint8_t)(number % 256);
    at[1] = (uint8_t)(number / 256);
}

/* Appends a node and gives its number. */
static unsigned add(struct reader *r, enum kind kind, unsigned code, unsigned x, unsigned y, unsigned z)
{
    uint8_t *record = r->made->bytes + r->made->length;
    if (r->made->length + NODE_BYTES + TRAILER_BYTES > sizeof r->made->bytes) {
        fprintf(stderr, "a procedure of the tests has too many nodes\n");
        exit(2);
    }
    put_number(record, (unsigned)kind + 256 * code);
    put_number(record + 2, x);
    put_number(record + 4, y);
    put_number(record + 6, z);
    r->made->length += NODE_BYTES;
    return (unsigned)(r->made->length / NODE_BYTES) - 1;
}

static unsigned number(struct reader *r)
{
    char *behind;
    unsigned long value = strtoul(r->at, &behind, 10);
    r->at = behind;
    return (unsigned)value;
}

/* The code of an event whose sign is taken. One that is no byte would show as another code. */
static uint8_t code_of(struct reader *r, char sign)
{
    const unsigned code = sign == '#' ? number(r) : (unsigned)(sign - 'a');
    if (code > (sign == '#' ? UINT8_MAX : 'z' - 'a')) {
        fprintf(stderr, "a procedure or a run of the tests has what is no event before \"%s\"\n", r->at);
        exit(2);
    }
    return (uint8_t)code;
}

static void take(struct reader *r, char sign)
{
    if (*r->at != sign) {
        fprintf(stderr, "a procedure of the tests lacks %c before \"%s\"\n", sign, r->at);
        exit(2);
    }
    r->at++;
}

static unsigned choice(struct reader *r);

static unsigned single(struct reader *r)
{
    char sign = *r->at++;
    if (sign == '(') {
        unsigned root = choice(r);
        take(r, ')');
        return root;
    }
    if (sign == 'e')
        return add(r, EMPTY, 0, 0, 0, 0);
    return add(r, EVENT, code_of(r, sign), 0, 0, 0);
}

static unsigned repeated(struct reader *r)
{
    unsigned root = single(r);
    while (*r->at == '{') {
        r->at++;
        unsigned lower = number(r);
        take(r, ',');
        unsigned upper = *r->at == '}' ? NO_BOUND : number(r);
        take(r, '}');
        root = add(r, REPEAT, 0, root, lower, upper);
    }
    return root;
}

static unsigned sequence(struct reader *r)
{
    unsigned left = repeated(r);
    while (*r->at != '\0' && *r->at != '+' && *r->at != ')') {
        unsigned right = repeated(r);
        left = add(r, SEQUENCE, 0, left, right, 0);
    }
    return left;
}

static unsigned choice(struct reader *r)
{
    unsigned left = sequence(r);
    while (*r->at == '+') {
        r->at++;
        unsigned right = sequence(r);
        left = add(r, CHOICE, 0, left, right, 0);
    }
    return left;
}

static void add_trailer(struct procedure *p)
{
    uint8_t *trailer = p->bytes + p->length;
    memcpy(trailer, "SEQP", 4);
    put_number(trailer + 4, (unsigned)p->length / NODE_BYTES);
    put_number(trailer + 6, 1);
    put_number(trailer + 8, (unsigned)p->length + TRAILER_BYTES);
    put_number(trailer + 10, 0);
    p->length += TRAILER_BYTES;
}

struct procedure procedure_of(const char *notation)
{
    struct procedure made = {{0}, 0};
    struct reader r = {notation, &made};
    choice(&r);
    take(&r, '\0');
    add_trailer(&made);
    return made;
}

char *put_choice(char *at, struct series codes)
{
    for (int i = 0; i < codes.count; i++)
        at += sprintf(at, "%c#%d", i == 0 ? '(' : '+', codes.first + codes.step * i);
    strcpy(at, ")");
    return at + 1;
}

struct procedure nested_of(const char *bounds, int repeats)
{
    char notation[400] = "a";
    for (int i = 0; i < repeats; i++)
        strcat(notation, bounds);
    return procedure_of(notation);
}

struct procedure with_text(const struct procedure *from, size_t text_length)
{
    struct procedure made = {{0}, from->length + text_length};
    memset(made.bytes, 'T', text_length);
    memcpy(made.bytes + text_length, from->bytes, from->length);
    return made;
}

uint8_t *field_of(struct procedure *p, unsigned node, unsigned field)
{
    return p->bytes + NODE_BYTES * node + 2 * field;
}

uint8_t *trailer_of(struct procedure *p, unsigned at)
{
    return p->bytes + p->length - TRAILER_BYTES + at;
}

size_t run_of(const char *notation, uint8_t *codes)
{
    struct reader r = {notation, NULL};
    size_t length = 0;
    while (*r.at != '\0') {
        char sign = *r.at++;
        codes[length++] = code_of(&r, sign);
    }
    return length;
}
