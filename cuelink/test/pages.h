/*
 * Buffers between pages that nobody may touch. A buffer is seen twice: to fill it and look at it, and as it is lent to a call, where what a call
 * only reads cannot be written. It lies at the end of its pages or at their start, so that one byte past either side stops the program.
 */
#ifndef PAGES_H
#define PAGES_H

#include <stddef.h>
#include <stdint.h>

enum place { PLAIN, AT_END, AT_START };

struct pages {
    size_t size;      /* the bytes of its pages */
    uint8_t *fill;    /* the view of the test */
    uint8_t *given;   /* the view of the call */
    uint8_t *pattern; /* what stands in the bytes that are not the buffer's */
};

/* Pages for so many bytes; `written` where a call may write them. Ends the program where there are none. */
struct pages pages_for(size_t most, int written);

/* Puts the bytes at their place and fills all others with a pattern; gives what to lend. Of no bytes it gives NULL. */
void *pages_lend(const struct pages *p, enum place place, const void *bytes, size_t length);

/* Whether all bytes of the pages but those of the buffer still have the pattern. */
int pages_whole(const struct pages *p, enum place place, size_t length);

/* The bytes as the call left them. */
const uint8_t *pages_bytes(const struct pages *p, enum place place, size_t length);

#endif
