/* The ten ends of a trace, and what surrounds a call: docs/TRACES.md. An end is the 31,136 bytes that the library's calls are lent. */
#ifndef PLAY_BENCH_H
#define PLAY_BENCH_H

#include "play_calls.h"
#include "play_message.h"

enum { ENDS = 10, SPARE_END = 8, MOST_DRAWS = 66, BUFFER_BYTES = 200, MESSAGES = 64 };

struct bench {
    uint8_t end[ENDS][STATE_BYTES];
    uint16_t draws[MOST_DRAWS];
    size_t draw_count;
    uint8_t buffer[BUFFER_BYTES];
    size_t room, accounted;
    uint8_t fill;
    uint8_t message[MESSAGES][LONGEST_WRITTEN];     /* message n stands at place n mod 64 */
    size_t length[MESSAGES];
    uint64_t put_out;
    int checks;                                     /* whether each state that an event left is looked at, see play_check.h */
    unsigned long restarts;                         /* how many ends were opened again */
};

/* What a line did. */
enum outcome { BAD, QUIET, SHOWN, ASKED, ALONE, OPENED, EVENT };

struct told {
    enum outcome outcome;
    int end;                /* of SHOWN, OPENED, EVENT */
    struct text answer;
    const char *fault;      /* " CHANGED", " OTHER BYTES" or "" */
    uint64_t number;        /* of EVENT: the answer as the library gives it, and the reason asked before it */
    uint64_t reason;
    struct action action;
    struct text kept;       /* its line in a run's record */
};

/* All as at the beginning of a trace. */
void bench_start(struct bench *bench);

/* Plays a line without its expectation and its remark. With `restart` a `left` throws the end away and opens it again with its clock and its next
   number, which has to give what Left gives. */
void bench_play(struct bench *bench, const char *line, size_t length, int restart, struct told *told);

/* The bytes of a message that was put out; NULL where it is not kept. */
const uint8_t *bench_message(const struct bench *bench, uint64_t number, size_t *length);

/* What `ask record` answers. */
void text_record(struct text *text, const uint8_t *record);

extern const char *const status_words[];
extern const char *const event_words[];

#endif
