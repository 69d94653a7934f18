#define _GNU_SOURCE
#include "memory.h"

#include <stdio.h>
#include <stdlib.h>
#include <string.h>
#include <sys/mman.h>

enum { PAGE = 4096, NEAR = 64 };

static size_t pages(size_t bytes)
{
    return (bytes + PAGE - 1) / PAGE * PAGE;
}

static unsigned char *between_unreadable(size_t bytes)
{
    unsigned char *all = mmap(NULL, bytes + 2 * PAGE, PROT_NONE, MAP_PRIVATE | MAP_ANONYMOUS | MAP_NORESERVE, -1, 0);
    if (all == MAP_FAILED || (bytes > 0 && mprotect(all + PAGE, bytes, PROT_READ | PROT_WRITE) != 0)) {
        perror("no memory to lend");
        exit(2);
    }
    return all + PAGE;
}

void reserve(struct lent *lent, size_t bytes)
{
    lent->from = between_unreadable(pages(bytes));
    lent->to = lent->from + pages(bytes);
    lent->before = between_unreadable(pages(bytes));
}

static unsigned char *near_from(const struct lent *lent)
{
    return (size_t)(lent->at - lent->from) < NEAR ? lent->from : lent->at - NEAR;
}

static unsigned char *near_to(const struct lent *lent)
{
    unsigned char *end = lent->at + lent->bytes;
    return (size_t)(lent->to - end) < NEAR ? lent->to : end + NEAR;
}

/* What a byte was when it was lent. */
static unsigned char *before(const struct lent *lent, const unsigned char *byte)
{
    return lent->before + (byte - lent->from);
}

static void place(struct lent *lent, size_t bytes, int at_end, unsigned char fill)
{
    lent->bytes = bytes;
    lent->at = at_end ? lent->to - bytes : lent->from;
    memset(near_from(lent), fill, near_to(lent) - near_from(lent));
}

/* Keeps what the bytes are now. */
static void note(const struct lent *lent)
{
    memcpy(before(lent, near_from(lent)), near_from(lent), near_to(lent) - near_from(lent));
}

void lend(struct lent *lent, size_t bytes, int at_end, unsigned char fill, uint64_t (*drawn)(void))
{
    place(lent, bytes, at_end, fill);
    for (size_t k = 0; drawn && k + sizeof(uint64_t) <= bytes; k += sizeof(uint64_t)) {
        uint64_t eight = drawn();
        memcpy(lent->at + k, &eight, sizeof eight);
    }
    note(lent);
}

void lend_copy(struct lent *lent, const void *bytes, size_t count, int at_end, unsigned char fill)
{
    place(lent, count, at_end, fill);
    memcpy(lent->at, bytes, count);
    note(lent);
}

/* Whether the bytes from one place to another are as they were lent. */
static int same(const struct lent *lent, const unsigned char *from, const unsigned char *to)
{
    return memcmp(from, before(lent, from), to - from) == 0;
}

int untouched(const struct lent *lent, size_t used)
{
    return same(lent, near_from(lent), lent->at) && same(lent, lent->at + used, near_to(lent));
}

const void *read_only(const void *bytes, size_t count)
{
    unsigned char *from = between_unreadable(pages(count));
    unsigned char *at = from + pages(count) - count;
    memcpy(at, bytes, count);
    if (count > 0 && mprotect(from, pages(count), PROT_READ) != 0) {
        perror("mprotect");
        exit(2);
    }
    return at;
}

const void *zeros(size_t count)
{
    unsigned char *from = between_unreadable(pages(count));
    mprotect(from, pages(count), PROT_READ);
    return from + pages(count) - count;
}
