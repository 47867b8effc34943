/* The library's calls on states that the caller keeps, each with its buffers lent as play_memory.h says, and their answers in words. */
#ifndef PLAY_CALLS_H
#define PLAY_CALLS_H

#include "play_layout.h"
#include "play_text.h"

/* The events, by cuelink_reason's numbers. */
enum event { JOIN, JOINED, LEAVE, LEFT, CRASH, SEND, ARRIVAL, FIRE, REPORT, FETCH, ANNOUNCE, EVENTS };

/* The kinds of answers. */
enum kind { REFUSED, OUT, GOT, DONE, IGNORED, NOTHING, CLASH, LATER, EXHAUSTED, REASON, NO_EVENT, AT };

extern const uint64_t nothing_to_tell;      /* NONE, 2^64-1 */

/* An event with its arguments: the cue of a Send, the message of an Arrival, the name of a Fetch. */
struct action {
    enum event event;
    uint64_t clock, source, number;
    const uint8_t *bytes;
    size_t length;
};

/* What surrounds a call. */
struct around {
    const uint16_t *draws;
    size_t draw_count;
    uint8_t *out;
    size_t room;
};

uint64_t answer_of(enum kind kind, uint64_t source, uint64_t number);

/* Each call leaves what the library left in the state and the output. */
uint64_t call_open(uint64_t host, const uint64_t *params, size_t count, uint8_t *state, size_t length);
uint64_t call_reopen(uint64_t host, const uint64_t *params, size_t count, uint64_t clock, uint64_t next, uint8_t *state, size_t length);
uint64_t call_event(uint8_t *state, size_t length, const struct action *action, const struct around *around);
uint64_t call_reason(const uint8_t *state, size_t length, uint64_t event, const struct action *action);
uint64_t call_due(const uint8_t *state, size_t length);

uint64_t call_display_open(uint64_t own, uint64_t sender, uint8_t *display, size_t length);
uint64_t call_display_hear(uint8_t *display, size_t length, uint64_t clock, const uint8_t *bytes, size_t count, uint64_t *lost, size_t lost_count,
                           uint8_t *out, size_t room);
uint64_t call_display_step(uint8_t *display, size_t length, uint64_t clock, uint8_t *out, size_t room);

uint64_t call_find(const uint64_t *windows, size_t count, uint64_t year, uint64_t month, uint64_t day, uint64_t minute);

/* An event's answer as a trace has it; `out` is the output. A number that is none of the answers is told as `strange`. */
void text_answer(struct text *text, uint64_t answer, const uint8_t *out);
void text_reason(struct text *text, uint64_t reason);

/* How many bytes of the output an answer accounts for. */
size_t accounted(uint64_t answer);

/* Fails unless the looks at these bytes tell what the layout has there, and nothing where they are no state's; `source` may be any number. Whether
   they are a state's. */
int check_looks(const uint8_t *state, size_t length, uint64_t source);
void check_display_looks(const uint8_t *display, size_t length);

#endif
