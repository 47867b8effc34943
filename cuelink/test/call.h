/*
 * A call of the library as a value, and `made`, by which every test makes its calls. `made` lends the buffers as they are, or between guarded
 * pages, and holds after every call, whatever the test is about:
 *   - the answer is one of the header's, with a source below 8 and a length that there can be;
 *   - a refusal, a look and a question for a reason change no byte of any buffer;
 *   - of the output nothing is written but the message of OUT and the 24 bytes of GOT and LATE;
 *   - bytes that were a state are one afterwards, by the tests' own reading of the form; bytes that were none are refused as 1, 2 or 3.
 */
#ifndef CALL_H
#define CALL_H

#include "../cuelink.h"
#include "pages.h"

enum what {
    OPEN, REOPEN, DISPLAY_OPEN,
    JOIN, JOINED, LEAVE, LEFT, CRASH, FIRE, REPORT, ANNOUNCE, SEND, ARRIVAL, FETCH,
    REASON, DUE, HOST, CLOCK, STATUS, NEXT, FIRST, LAST, MISSED, ORIGIN, DISTANCE,
    HEAR, STEP, SHOWN_OWN, SHOWN_SENDER, SHOWN_CLOCK, SHOWN_TRAIL, SHOWN_LEAD,
    FIND, ROLL, SIZE, DISPLAY_SIZE, CALLS
};

/* The buffers and numbers of a call; those that it has not are left out. */
struct call {
    enum what what;
    uint8_t *state; /* or the display */
    size_t state_len;
    uint64_t clock;
    uint64_t number[4]; /* the others, in their order */
    const uint16_t *draws;
    size_t draws_len;
    const uint64_t *params; /* or the windows */
    size_t params_len;
    const uint8_t *bytes; /* or the cue */
    size_t bytes_len;
    uint64_t *lost;
    size_t lost_len;
    uint8_t *out;
    size_t out_len;
};

extern const char *const call_names[CALLS];

/* How the buffers are lent from now on. */
void lend_at(enum place place);

/* Makes the call. Ends the program with words where something of the above does not hold. */
uint64_t made(const struct call *c);

/* How many calls were made, in all and of each. */
extern unsigned long calls_made[CALLS];

/* An answer in words, in a buffer that the next call of it writes. */
const char *words(uint64_t answer);

#endif
