#define _GNU_SOURCE
#include "pages.h"

#include <stdio.h>
#include <stdlib.h>
#include <string.h>
#include <sys/mman.h>
#include <unistd.h>

enum { PATTERN = 0xA5 };

static void none(void)
{
    perror("pages: no memory for guarded buffers (memfd_create, mmap)");
    exit(2);
}

static uint8_t *view(int file, size_t page, size_t size, int protection)
{
    uint8_t *all = mmap(NULL, size + 2 * page, PROT_NONE, MAP_PRIVATE | MAP_ANONYMOUS, -1, 0);
    if (all == MAP_FAILED || mmap(all + page, size, protection, MAP_SHARED | MAP_FIXED, file, 0) == MAP_FAILED)
        none();
    return all + page;
}

struct pages pages_for(size_t most, int written)
{
    size_t page = (size_t)sysconf(_SC_PAGESIZE);
    int file = memfd_create("pages", 0);
    struct pages p;
    p.size = (most + page - 1) / page * page;
    if (file < 0 || ftruncate(file, (off_t)p.size) != 0)
        none();
    p.fill = view(file, page, p.size, PROT_READ | PROT_WRITE);
    p.given = view(file, page, p.size, written ? PROT_READ | PROT_WRITE : PROT_READ);
    close(file);
    p.pattern = malloc(p.size);
    if (p.pattern == NULL)
        none();
    memset(p.pattern, PATTERN, p.size);
    return p;
}

static size_t start_of(const struct pages *p, enum place place, size_t length)
{
    if (length > p->size) {
        fprintf(stderr, "pages: %zu bytes do not fit into %zu\n", length, p->size);
        exit(2);
    }
    return place == AT_END ? p->size - length : 0;
}

void *pages_lend(const struct pages *p, enum place place, const void *bytes, size_t length)
{
    size_t at = start_of(p, place, length);
    memcpy(p->fill, p->pattern, p->size);
    if (length == 0)
        return NULL;
    memcpy(p->fill + at, bytes, length);
    return p->given + at;
}

int pages_whole(const struct pages *p, enum place place, size_t length)
{
    size_t at = start_of(p, place, length), after = at + length;
    return memcmp(p->fill, p->pattern, at) == 0 && memcmp(p->fill + after, p->pattern, p->size - after) == 0;
}

const uint8_t *pages_bytes(const struct pages *p, enum place place, size_t length)
{
    return p->fill + start_of(p, place, length);
}
