/*
 * The memory that is lent to a call, a place for each of its buffers. Two ways:
 *   plain     each buffer is a piece of its own of just its length, NULL where it has none: for the sanitizers;
 *   guarded   each buffer lies in pages between two that nobody may touch, in turn at their end, at their start and, those of bytes, at an odd
 *             address; what a call may only read lies in pages that cannot be written, and the bytes beside the buffer are looked at afterwards.
 */
#ifndef PLAY_MEMORY_H
#define PLAY_MEMORY_H

#include <stddef.h>
#include <stdint.h>

enum lent { LENT_STATE, LENT_OUT, LENT_DRAWS, LENT_BYTES, LENT_NUMBERS, LENT_LOST, LENT_PLACES };

void memory_open(int guarded);

/* Lends a copy of these bytes: to be written, or to be read alone. */
void *lend(enum lent place, const void *bytes, size_t length);
const void *lend_read(enum lent place, const void *bytes, size_t length);

/* After a call: takes the written bytes back into what was lent. */
void take_back(enum lent place, void *bytes);

/* After a call: fails where a byte is another that it was only to read, or one beside what was lent. The next call's buffers lie otherwise. */
void memory_after(void);

#endif
