#define _DEFAULT_SOURCE
#include "lent.h"

#include <stdio.h>
#include <stdlib.h>
#include <string.h>
#include <sys/mman.h>

enum {
    PAGE = 1 << 16,            /* a multiple of every page size in use, an emulator's host included */
    UNREACHABLE = 3 * PAGE     /* on either side */
};

static void fail(const char *what)
{
    perror(what);
    exit(2);
}

static size_t whole_pages(size_t length)
{
    return length == 0 ? PAGE : (length + PAGE - 1) / PAGE * PAGE;
}

static struct lent reachable(size_t length, enum side side)
{
    size_t inner = whole_pages(length);
    struct lent made = {NULL, length, NULL, inner + 2 * UNREACHABLE};
    if (length == 0 && side == AT_END_OR_NULL)
        return made;
    made.mapping = mmap(NULL, made.mapped, PROT_NONE, MAP_PRIVATE | MAP_ANONYMOUS, -1, 0);
    if (made.mapping == MAP_FAILED)
        fail("mmap");
    if (mprotect(made.mapping + UNREACHABLE, inner, PROT_READ | PROT_WRITE) != 0)
        fail("mprotect");
    made.bytes = made.mapping + UNREACHABLE + (side == AT_BEGINNING ? 0 : inner - length);
    return made;
}

struct lent lend_writable(const uint8_t *bytes, size_t length, enum side side)
{
    struct lent made = reachable(length, side);
    if (length > 0)
        memcpy(made.bytes, bytes, length);
    return made;
}

struct lent lend(const uint8_t *bytes, size_t length, enum side side)
{
    struct lent made = lend_writable(bytes, length, side);
    if (made.bytes != NULL && mprotect(made.mapping + UNREACHABLE, whole_pages(length), PROT_READ) != 0)
        fail("mprotect");
    return made;
}

uint8_t junk_at(size_t i)
{
    return (uint8_t)(0xa5 + 7 * i);
}

struct lent lend_junk(size_t length, enum side side)
{
    struct lent made = reachable(length, side);
    for (size_t i = 0; i < length; i++)
        made.bytes[i] = junk_at(i);
    return made;
}

void take_back(struct lent *lent)
{
    if (lent->mapping != NULL)
        munmap(lent->mapping, lent->mapped);
    lent->bytes = NULL;
}
