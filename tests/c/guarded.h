/*
 * Memory to be lent: it lies between two pages that can be neither read nor written, close up to the second one or to
 * the first. The archive is not instrumented, so that this is how a touch past what was lent is seen. What is left of
 * its own pages is filled with a byte that must stand.
 */
#ifndef GUARDED_H
#define GUARDED_H

#include <stdbool.h>
#include <stdint.h>
#include <stdio.h>
#include <stdlib.h>
#include <string.h>
#include <sys/mman.h>
#include <unistd.h>

enum placement { AT_THE_END, AT_THE_START };

struct guarded {
    unsigned char *pages; /* behind the first guard page */
    size_t size;          /* of the pages up to the second one */
    unsigned char *bytes; /* what is lent */
    size_t length;
};

enum { FILLING = 0xa5 };

static inline void system_failed(const char *what)
{
    perror(what);
    exit(2);
}

/* At least one page, so that there is a pointer to lend where the length is 0. */
static inline size_t whole_pages(size_t length)
{
    size_t page = (size_t)sysconf(_SC_PAGESIZE);

    return length == 0 ? page : (length + page - 1) / page * page;
}

static inline void map_pages(struct guarded *memory, size_t size)
{
    size_t page = (size_t)sysconf(_SC_PAGESIZE);
    unsigned char *whole;

    if (memory->pages != NULL && munmap(memory->pages - page, memory->size + 2 * page) != 0)
        system_failed("munmap");
    whole = mmap(NULL, size + 2 * page, PROT_NONE, MAP_PRIVATE | MAP_ANONYMOUS, -1, 0);
    if (whole == MAP_FAILED)
        system_failed("mmap");
    memory->pages = whole + page;
    memory->size = size;
    if (mprotect(memory->pages, size, PROT_READ | PROT_WRITE) != 0)
        system_failed("mprotect");
}

/* So many bytes, whose contents are the filling; what was there is gone. */
static inline void place(struct guarded *memory, enum placement placement, size_t length)
{
    size_t size = whole_pages(length);

    if (memory->size != size)
        map_pages(memory, size);
    memory->length = length;
    memory->bytes = placement == AT_THE_END ? memory->pages + size - length : memory->pages;
    memset(memory->pages, FILLING, size);
}

static inline bool all_filling(const unsigned char *bytes, size_t length)
{
    return length == 0 || (bytes[0] == FILLING && memcmp(bytes, bytes + 1, length - 1) == 0);
}

/* Nothing was written beside what was lent. */
static inline bool filling_stands(const struct guarded *memory)
{
    size_t before = (size_t)(memory->bytes - memory->pages);
    size_t behind = memory->size - before - memory->length;

    return all_filling(memory->pages, before) && all_filling(memory->bytes + memory->length, behind);
}

static inline void allow_writing(struct guarded *memory, bool allowed)
{
    if (mprotect(memory->pages, memory->size, allowed ? PROT_READ | PROT_WRITE : PROT_READ) != 0)
        system_failed("mprotect");
}

/* Words are aligned at either placement: pages begin and end at even addresses, and words take an even length. */
static inline uint16_t *words_of(const struct guarded *memory)
{
    return (uint16_t *)(void *)memory->bytes;
}

static inline size_t word_count(const struct guarded *memory)
{
    return memory->length / sizeof(uint16_t);
}

#endif
