/*
 * The bytes of an end and of a display, taken apart and put together by the words of the layout. Written for the tests, from these words alone:
 *
 *   end (31,136)    0 CE 01 | 2 host 1 | 3 C1 C2 C3 D1 D2 D3 E, 8 each | 59 clock 8 | 67 status 1, 0 to 4 | 68 next 4 | 72 eight sources
 *   source (3,883)  0 span: 0, or 1 first 2 last 2 (5) | 5 missed 4 | 9 pair: 0, or 1 requester 1 sender 1 number 2 (5) | 14 distance 8
 *                   | 22 heard: 0, or 1 stamp 8 when 8 sources 1 (18) | 40 origin: 0, or 1 number 2 (3)
 *                   | 43 64 attempts: tried 1, late 0 or 1 | 171 64 records
 *   record (58)     tag 1, small 1, a 8, b 8, c 8, cue 24, hush 8. Tag 0 empty; 1 held; 2 held, small is who asked, a the reply's due time;
 *                   3 waiting, small is the round, a the due time, b quiet-until; 4 the same, and c the express wait's due time
 *   display (25)    0 CD 01 | 2 own 1 | 3 sender 1 | 4 clock 8 | 12 tag: 0 unstarted, 1 started | 13 trail 2 | 15 lead 2 | 17 set 8
 *
 * Numbers are big-endian; what a tag has not is 0.
 */
#ifndef PLAY_LAYOUT_H
#define PLAY_LAYOUT_H

#include <stddef.h>
#include <stdint.h>

enum { STATE_BYTES = 31136, SOURCE_BYTES = 3883, RECORD_BYTES = 58, CUE_BYTES = 24, DISPLAY_BYTES = 25, HOSTS = 8, PLACES = 64, PARAMS = 7 };

/* Where the fields of an end stand. */
enum { AT_HOST = 2, AT_PARAMS = 3, AT_CLOCK = 59, AT_STATUS = 67, AT_NEXT = 68, AT_SOURCES = 72 };

/* Where those of a source stand in it. */
enum { AT_SPAN = 0, AT_MISSED = 5, AT_PAIR = 9, AT_DISTANCE = 14, AT_HEARD = 22, AT_ORIGIN = 40, AT_ATTEMPTS = 43, AT_RECORDS = 171 };

enum status { IDLE, JOINING, MEMBER, LEAVING, CRASHED };

struct span {
    int open;
    uint16_t first, last;
};

struct pair {
    int kept;
    uint8_t requester, sender;
    uint16_t number;
};

struct heard {
    int heard;
    uint64_t stamp, when;
    uint8_t sources;
};

struct origin {
    int known;
    uint16_t number;
};

struct attempt {
    uint8_t tried;
    int late;
};

enum body { EMPTY, HELD, WAITING };

struct record {
    enum body body;
    uint8_t round;                  /* of a waiting request */
    uint64_t due, quiet;
    int has_express;
    uint64_t express;
    int has_reply;                  /* beside a held cue */
    uint8_t requester;
    uint64_t reply_due;
    uint8_t cue[CUE_BYTES];
    uint64_t hush;
};

static inline uint64_t number_at(const uint8_t *bytes, int width)
{
    uint64_t number = 0;
    int i;
    for (i = 0; i < width; i++)
        number = number << 8 | bytes[i];
    return number;
}

void put_number(uint8_t *bytes, int width, uint64_t number);

/* A source of a state, a record and an attempt of a source. */
uint8_t *source_of(uint8_t *state, int source);
const uint8_t *source_in(const uint8_t *state, int source);
uint8_t *record_of(uint8_t *source, int place);
const uint8_t *record_in(const uint8_t *source, int place);

/* Each reads one part; 0 where a tag or a mark is none of the layout's. The rest is read as it stands: that it is 0 is shown by writing it again. */
int read_span(const uint8_t *source, struct span *span);
int read_pair(const uint8_t *source, struct pair *pair);
int read_heard(const uint8_t *source, struct heard *heard);
int read_origin(const uint8_t *source, struct origin *origin);
int read_attempt(const uint8_t *source, int place, struct attempt *attempt);
int read_record(const uint8_t *record, struct record *read);

/* Each writes one part. */
void put_span(uint8_t *source, struct span span);
void put_pair(uint8_t *source, struct pair pair);
void put_heard(uint8_t *source, struct heard heard);
void put_origin(uint8_t *source, struct origin origin);
void put_attempt(uint8_t *source, int place, struct attempt attempt);
void put_record(uint8_t *record, const struct record *written);

/* Whether the bytes are a state's: there are 31,136 of them, and read and written again they are the same. */
int is_state(const uint8_t *bytes, size_t length);

/* The bytes of an end that is opened, at this clock and with this next number: idle, distances to others at 40, all else 0. */
void put_opened(uint8_t *state, uint8_t host, const uint64_t *params, uint64_t clock, uint64_t next);

/* The least due time of the waits of first..last of all sources; 2^64-1 where nothing waits. The bytes are a state's. */
uint64_t least_due(const uint8_t *state);

/* The digest of docs/TRACES.md. The bytes are a state's. */
uint64_t digest_of(const uint8_t *state);

struct display {
    uint8_t own, sender;
    uint64_t clock;
    int started;
    uint16_t trail, lead;
    uint64_t set;
};

/* 0 where the bytes are not a display's. */
int read_display(const uint8_t *bytes, size_t length, struct display *display);
void put_display(uint8_t *bytes, struct display display);

#endif
