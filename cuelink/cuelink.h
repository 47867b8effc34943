/*
 * The cue link for hosts in C: an end of the link, a foyer display, lens windows.
 *
 * The library, libcuelink.a or libcuelink.so, is built from the proved crate crates/cuelink. For every argument that keeps to the rules of
 * this header, each call answers what its definition says, ends, and changes no byte but those named here. docs/INTEGRATION.md says when to
 * make which call and what to do with its answer; cuelink/example.c is a whole host.
 *
 * States. An end is CUELINK_SIZE bytes of the caller's, a display CUELINK_DISPLAY_SIZE, lent to each call. They are a value in bytes: no
 * pointer, no alignment, no byte order of the machine. So a state may be stored, moved to another process or machine and used again there,
 * with one rule: ONLY THE BYTES THAT THE LAST CALL LEFT MAY BE LENT AGAIN. A call on older bytes forgets what was done since; after a send
 * this puts two cues under one name. Bytes that are not the one form of a sound
 * state are refused as CUELINK_NOT_SOUND.
 *
 * Buffers. Every buffer is the caller's, before, during and after the call. A call keeps no pointer, and allocates and frees nothing.
 *   - A length counts elements: bytes, draws (uint16_t) or numbers (uint64_t). The buffer must have at least so many; nothing past them is
 *     touched.
 *   - A pointer may be NULL only where its length is 0.
 *   - draws, params, lost and windows are aligned for their type, as every array of it is. Bytes need no alignment.
 *   - The buffers of one call must not overlap.
 *   - What is `const` is only read, and may lie in read-only memory. Nobody else may write it, or read or write the others, until the call
 *     has returned.
 *
 * Numbers. Hosts, cue numbers, clocks, dates are 64 bits wide, so that what is too large, a negative int too, is refused and never cut.
 *
 * Refusals. A call's questions are asked in the order of their numbers, and the first that is answered no is the answer (cuelink_reopen and
 * the display's calls say their order). A refused call changes no byte of any buffer.
 *
 * Threads. The library has no variable, no heap, no lock, no file, no errno. Any number of threads may call it at the same time, one call on
 * a state at a time. Looks at a state may be made side by side. Of the C library only memcpy and its like are used.
 *
 * Stack. A call needs at most CUELINK_STACK bytes of stack below its caller. That is more than some threads have: musl's have 128 KiB unless
 * told otherwise, glibc's 8 MiB. Too small a stack ends in the guard page, never beside it.
 */
#ifndef CUELINK_H
#define CUELINK_H

#include <stddef.h>
#include <stdint.h>

#ifdef __cplusplus
extern "C" {
#endif

#define CUELINK_SIZE 31136       /* the bytes of an end's state; cuelink_size() says the same of the library that is linked */
#define CUELINK_DISPLAY_SIZE 25  /* the bytes of a display */
#define CUELINK_ROOM 128         /* the least bytes of an output; the longest message has 127 */
#define CUELINK_RECEIVE 128      /* the least bytes of a receive buffer: one more than the longest message, so that a longer one shows */
#define CUELINK_DRAWS 64         /* so many draws for each event: random numbers 0..65535, new ones for each call */
#define CUELINK_PARAMS 7         /* so many parameters: C1 C2 C3 D1 D2 D3, each 0..32, and E, 0..1000 */
#define CUELINK_CUE 24           /* the bytes of a cue */
#define CUELINK_LOST 4           /* so many numbers say what a display lost */
#define CUELINK_WINDOW 8         /* so many numbers are a window: first year, month, day, last year, month, day, start, end */
#define CUELINK_WINDOWS 32       /* a list has at most so many windows */
#define CUELINK_HOSTS 8          /* hosts are 0..7 */
#define CUELINK_TICK 250         /* the microseconds of a tick */
#define CUELINK_CLOCK_MAX UINT64_C(0xFFFFFFFFFFFF) /* 2^48-1, the highest clock */
#define CUELINK_STACK 589824     /* 576 KiB */
#define CUELINK_NONE UINT64_MAX  /* of looks and cuelink_due: there is no such value, or the bytes are no state */

/* ---- answers: kind * 2^32 + source * 2^16 + number */

enum cuelink_kinds {
    CUELINK_REFUSED = 0,   /* number: the refusal's, below. No byte was changed */
    CUELINK_OUT = 1,       /* number: a length. The message is in the first so many output bytes, to be sent to the whole group as one datagram */
    CUELINK_GOT = 2,       /* source and cue number: the cue is in the first 24 output bytes, handed out once since joining */
    CUELINK_DONE = 3,      /* the event did what it does, and there is nothing to hand out */
    CUELINK_IGNORED = 4,   /* nothing but the clock was changed (on a crashed end not even that); cuelink_reason says why */
    CUELINK_NOTHING = 5,   /* fire: nothing is due. announce: nothing was sent since joining. step: nothing is missing. find: no such minute */
    CUELINK_CLASH = 6,     /* source and cue number: a held cue came with other bytes. The held one stays; tell the staff */
    CUELINK_LATE = 7,      /* source and cue number: a fetched cue is in the first 24 output bytes, handed out once since joining */
    CUELINK_EXHAUSTED = 8, /* fetch: nobody is left to ask for this number now */
    CUELINK_REASON = 9,    /* number: enum cuelink_reasons */
    CUELINK_NO_EVENT = 10, /* cuelink_reason: there is no such event */
    CUELINK_AT = 11        /* a minute of a day, taken apart by cuelink_year to cuelink_minute */
};

/* Why a call was refused. */
enum cuelink_refusals {
    CUELINK_OK = 0,          /* opening and reopening: not refused. No event answers it */
    CUELINK_NO_ROOM = 1,     /* the output has fewer than 128 bytes; of a display's hear also: lost has fewer than 4 numbers */
    CUELINK_BAD_DRAWS = 2,   /* there are not 64 draws */
    CUELINK_NOT_SOUND = 3,   /* the bytes are not those of a sound state; at opening: the length is not that of a state */
    CUELINK_CLOCK_HIGH = 4,  /* the clock is above 2^48-1 */
    CUELINK_CLOCK_BACK = 5,  /* the clock is below the state's */
    CUELINK_BAD_CUE = 6,     /* an offset is not in -2000..2000, the lamp is above 1000, or the cue has not 24 bytes */
    CUELINK_NO_NUMBERS = 7,  /* send: this host has sent its 65,536 cues. reopen: the next own number is above 65,536 */
    CUELINK_BAD_LENGTH = 8,  /* a datagram of 1 to 11 bytes, or with counts that do not account for its length */
    CUELINK_BAD_KIND = 9,    /* no kind of message, or not with the counts of its kind */
    CUELINK_BAD_RANGE = 10,  /* a host, cue number, cue field, stamp or held ticks out of range */
    CUELINK_BAD_HOSTS = 11,  /* hosts that the kind does not allow, reports or echoes that do not rise, or a lead not from trail to trail+63 */
    CUELINK_BAD_HOST = 12,   /* opening: the host is above 7; of a display either is, or the two are the same */
    CUELINK_BAD_PARAMS = 13, /* opening: not 7 parameters, one of the six above 32, or not C3 < C1, D1+D2+8 < 2*C1, D1+D2+D3 < 2*C1 */
    CUELINK_BAD_EXPRESS = 14, /* opening: E is above 1000 */
    CUELINK_BAD_DATE = 15    /* a list of windows too long, or a date, minute or window that does not exist */
};

/* Why an event would be ignored. */
enum cuelink_reasons {
    CUELINK_NO_REASON = 0,      /* it would be neither refused nor ignored */
    CUELINK_CRASHED = 1,
    CUELINK_WRONG_STATUS = 2,
    CUELINK_OWN_MESSAGE = 3,    /* an arrival whose sender is oneself */
    CUELINK_NOT_OPEN = 4,       /* the source has no first yet */
    CUELINK_BELOW_FIRST = 5,
    CUELINK_OWN_ABOVE_LAST = 6,
    CUELINK_ALREADY_HELD = 7,
    CUELINK_REPLY_WAITING = 8,
    CUELINK_REPLY_QUIET = 9,
    CUELINK_REQUEST_QUIET = 10,
    CUELINK_NO_FETCH = 11       /* a fetch that may not be made, or an answer to none */
};

enum cuelink_statuses {
    CUELINK_STATUS_IDLE = 0,
    CUELINK_STATUS_JOINING = 1,
    CUELINK_STATUS_MEMBER = 2,
    CUELINK_STATUS_LEAVING = 3,
    CUELINK_STATUS_CRASHED = 4 /* for good: never reopen it */
};

/* The events, for cuelink_reason. */
enum cuelink_events {
    CUELINK_EVENT_JOIN = 0,
    CUELINK_EVENT_JOINED = 1,
    CUELINK_EVENT_LEAVE = 2,
    CUELINK_EVENT_LEFT = 3,
    CUELINK_EVENT_CRASH = 4,
    CUELINK_EVENT_SEND = 5,    /* bytes: the cue */
    CUELINK_EVENT_ARRIVAL = 6, /* bytes: the datagram */
    CUELINK_EVENT_FIRE = 7,
    CUELINK_EVENT_REPORT = 8,
    CUELINK_EVENT_FETCH = 9,   /* source, number: the cue's name */
    CUELINK_EVENT_ANNOUNCE = 10
};

/* ---- an end */

/* CUELINK_SIZE, of the library that is linked. */
uint64_t cuelink_size(void);

/*
 * Opens the end of a host into `state`: idle, at clock 0, its next own number 0. Once, when a controller starts for the first time.
 * Answers 0, or 3 (state_len is not CUELINK_SIZE), 12, 13, 14.
 */
uint64_t cuelink_open(uint64_t host, const uint64_t *params, size_t params_len, uint8_t *state, size_t state_len);

/*
 * Opens the end of a controller that was switched off: idle, as cuelink_leave and cuelink_left would have left it at that clock. `next` is the
 * next own number (cuelink_next) that was stored before the last DATA left; `clock` is not below that of the end's last call: a clock that
 * goes on while the controller is off, or the stored one (cuelink_clock) and more than the time since it was stored. Never of a crashed end.
 * Answers 0, or, asked in this order, 3 (state_len is not CUELINK_SIZE), 12, 13, 14, 4 (clock above 2^48-1), 7 (next above 65,536).
 */
uint64_t cuelink_reopen(uint64_t host, const uint64_t *params, size_t params_len, uint64_t clock, uint64_t next, uint8_t *state,
                        size_t state_len);

/*
 * The events. Each takes the state, the clock in ticks, 64 draws and an output of at least 128 bytes. Unless it is refused it sets the
 * state's clock (not on a crashed end). Of the output it writes the bytes of the message (OUT) or 24 of the cue (GOT, LATE), and no other.
 * Each may be refused as 1, 2, 3, 4, 5.
 */

/* The moves of the membership: DONE, or IGNORED from another status. Leave and crash forget all but the parameters and the next number. */
uint64_t cuelink_join(uint8_t *state, size_t state_len, uint64_t clock, const uint16_t *draws, size_t draws_len, uint8_t *out,
                      size_t out_len); /* idle to joining */
uint64_t cuelink_joined(uint8_t *state, size_t state_len, uint64_t clock, const uint16_t *draws, size_t draws_len, uint8_t *out,
                        size_t out_len); /* joining to member */
uint64_t cuelink_leave(uint8_t *state, size_t state_len, uint64_t clock, const uint16_t *draws, size_t draws_len, uint8_t *out,
                       size_t out_len); /* joining or member to leaving */
uint64_t cuelink_left(uint8_t *state, size_t state_len, uint64_t clock, const uint16_t *draws, size_t draws_len, uint8_t *out,
                      size_t out_len); /* leaving to idle */
uint64_t cuelink_crash(uint8_t *state, size_t state_len, uint64_t clock, const uint16_t *draws, size_t draws_len, uint8_t *out,
                       size_t out_len); /* to crashed, for good */

/* A wait that is due goes out: OUT, or NOTHING; IGNORED outside membership. Call it again at the same clock until it is not OUT. */
uint64_t cuelink_fire(uint8_t *state, size_t state_len, uint64_t clock, const uint16_t *draws, size_t draws_len, uint8_t *out,
                      size_t out_len);

/* The session message: OUT; IGNORED outside membership. */
uint64_t cuelink_report(uint8_t *state, size_t state_len, uint64_t clock, const uint16_t *draws, size_t draws_len, uint8_t *out,
                        size_t out_len);

/* Tells displays which own cues can still be had: OUT, or NOTHING before the first send since joining; IGNORED outside membership. */
uint64_t cuelink_announce(uint8_t *state, size_t state_len, uint64_t clock, const uint16_t *draws, size_t draws_len, uint8_t *out,
                          size_t out_len);

/*
 * A cue goes out under the next own number: OUT, 40 bytes; outside membership IGNORED, and the cue was not taken. Refused also as 6, and
 * for a member as 7. STORE cuelink_clock AND cuelink_next OF THE STATE BEFORE THE MESSAGE LEAVES, where the controller is to be reopened.
 */
uint64_t cuelink_send(uint8_t *state, size_t state_len, uint64_t clock, const uint16_t *draws, size_t draws_len, const uint8_t *cue,
                      size_t cue_len, uint8_t *out, size_t out_len);

/*
 * A datagram of bytes_len bytes came, an empty one too (a probe). Receive into at least CUELINK_RECEIVE bytes, so that a datagram that is too
 * long is refused and not taken for its first part: where more bytes came than the buffer has, hand over all that it has.
 * GOT, DONE, IGNORED, CLASH, LATE, or OUT: the message is to be sent, as a fire's. Refused also as 8, 9, 10, 11.
 */
uint64_t cuelink_arrival(uint8_t *state, size_t state_len, uint64_t clock, const uint16_t *draws, size_t draws_len, const uint8_t *bytes,
                         size_t bytes_len, uint8_t *out, size_t out_len);

/*
 * Asks another controller for a cue from before one joined: one of the 64 numbers below cuelink_origin of that source. OUT, or EXHAUSTED, or
 * IGNORED where it may not be fetched, is had, or does not exist (a source above 7, a number above 65,535).
 */
uint64_t cuelink_fetch(uint8_t *state, size_t state_len, uint64_t clock, const uint16_t *draws, size_t draws_len, uint64_t source,
                       uint64_t number, uint8_t *out, size_t out_len);

/*
 * Why an event, made now, would be ignored: REASON with its number, or 0 where it would be neither refused nor ignored. It changes nothing, so
 * ask with the bytes from before the call. NO_EVENT where `event` is above 10, which is asked first; then refused as 3 to 11 where the event
 * would be (1 and 2 are not asked). `source` and `number` count for a fetch alone, `bytes` for send and arrival alone.
 */
uint64_t cuelink_reason(const uint8_t *state, size_t state_len, uint64_t clock, uint64_t event, uint64_t source, uint64_t number,
                        const uint8_t *bytes, size_t bytes_len);

/*
 * When the next fire has something to send: the least due time of all waits. Before that clock a member's fire answers NOTHING, from it on OUT.
 * CUELINK_NONE where nothing waits, or where the bytes are no sound state. A host sleeps until then, or until a datagram comes.
 */
uint64_t cuelink_due(const uint8_t *state, size_t state_len);

/*
 * Looks at a state. Each answers CUELINK_NONE where the bytes have not the form of a state, where the source or host asked for is above 7,
 * and where there is no such value.
 */
uint64_t cuelink_host(const uint8_t *state, size_t state_len);
uint64_t cuelink_clock(const uint8_t *state, size_t state_len);
uint64_t cuelink_status(const uint8_t *state, size_t state_len);                    /* enum cuelink_statuses */
uint64_t cuelink_next(const uint8_t *state, size_t state_len);                      /* the next own cue number, 0..65,536 */
uint64_t cuelink_first(const uint8_t *state, size_t state_len, uint64_t source);    /* the oldest number that is kept of a source */
uint64_t cuelink_last(const uint8_t *state, size_t state_len, uint64_t source);     /* the highest number known of a source */
uint64_t cuelink_missed(const uint8_t *state, size_t state_len, uint64_t source);   /* numbers given up without their cue since joining */
uint64_t cuelink_origin(const uint8_t *state, size_t state_len, uint64_t source);   /* the first original had; the 64 below may be fetched */
uint64_t cuelink_distance(const uint8_t *state, size_t state_len, uint64_t host);   /* milliseconds, half a round trip */

/* ---- a foyer display */

/* CUELINK_DISPLAY_SIZE, of the library that is linked. */
uint64_t cuelink_display_size(void);

/*
 * Opens a display of host `own` that follows the controller `sender`: two different hosts.
 * Answers 0, or 3 (display_len is not CUELINK_DISPLAY_SIZE), 12.
 */
uint64_t cuelink_display_open(uint64_t own, uint64_t sender, uint8_t *display, size_t display_len);

/*
 * A datagram came, as of cuelink_arrival: GOT, DONE or IGNORED. Refused as 1, 3, 4, 5, 8 to 11, in this order. Unless refused it writes lost:
 *   lost[0]  the number from which the set counts
 *   lost[1]  the set: bit i says that number lost[0] + i is lost
 *   lost[2]  the first and
 *   lost[3]  the last of the lost numbers above those, both lost; CUELINK_NONE twice where there is none
 * A lost number is not handed out any more. Each is told once, by this call.
 */
uint64_t cuelink_display_hear(uint8_t *display, size_t display_len, uint64_t clock, const uint8_t *bytes, size_t bytes_len, uint64_t *lost,
                              size_t lost_len, uint8_t *out, size_t out_len);

/* Asks for the lowest number that is missing: OUT, or NOTHING. Refused as 1, 3, 4, 5. It loses nothing. Not at every tick: see the page. */
uint64_t cuelink_display_step(uint8_t *display, size_t display_len, uint64_t clock, uint8_t *out, size_t out_len);

/* Looks at a display. Each answers CUELINK_NONE where the bytes are no display; trail and lead also before the first cue. */
uint64_t cuelink_display_own(const uint8_t *display, size_t display_len);
uint64_t cuelink_display_sender(const uint8_t *display, size_t display_len);
uint64_t cuelink_display_clock(const uint8_t *display, size_t display_len);
uint64_t cuelink_display_trail(const uint8_t *display, size_t display_len);
uint64_t cuelink_display_lead(const uint8_t *display, size_t display_len);

/* ---- lens windows */

/*
 * The earliest minute, not before the given one, that lies in a window. windows_len counts numbers: CUELINK_WINDOW for each window, at most
 * CUELINK_WINDOWS of them. Dates are of 2000-01-01 to 2099-12-31, both of a window included; minutes are of the day, 0..1439, the start
 * included, the end, at most 1440, excluded.
 * AT, or NOTHING where there is none up to the end of 2099. Refused as 15, also where windows_len is no multiple of CUELINK_WINDOW.
 */
uint64_t cuelink_windows_find(const uint64_t *windows, size_t windows_len, uint64_t year, uint64_t month, uint64_t day, uint64_t minute);

/* The day after a date: AT with minute 0; the last day stays. Refused as 15. */
uint64_t cuelink_date_roll(uint64_t year, uint64_t month, uint64_t day);

/* ---- an answer taken apart */

/* enum cuelink_kinds. */
static inline unsigned cuelink_kind(uint64_t answer)
{
    return (unsigned)(answer >> 32);
}

/* The length (OUT), the refusal (REFUSED) or the reason (REASON). */
static inline unsigned cuelink_number(uint64_t answer)
{
    return (unsigned)(answer & 0xFFFF);
}

/* The source of the cue's name (GOT, CLASH, LATE). */
static inline unsigned cuelink_source(uint64_t answer)
{
    return (unsigned)(answer >> 16 & 0xFFFF);
}

/* The cue number of the cue's name (GOT, CLASH, LATE). */
static inline unsigned cuelink_cue_number(uint64_t answer)
{
    return (unsigned)(answer & 0xFFFF);
}

/* The date and the minute (AT). */
static inline unsigned cuelink_year(uint64_t answer)
{
    return (unsigned)(answer >> 20 & 0xFFF);
}

static inline unsigned cuelink_month(uint64_t answer)
{
    return (unsigned)(answer >> 16 & 0xF);
}

static inline unsigned cuelink_day(uint64_t answer)
{
    return (unsigned)(answer >> 11 & 0x1F);
}

static inline unsigned cuelink_minute(uint64_t answer)
{
    return (unsigned)(answer & 0x7FF);
}

/* The ticks in so many microseconds. */
static inline uint64_t cuelink_ticks(uint64_t microseconds)
{
    return microseconds / CUELINK_TICK;
}

#ifdef __cplusplus
}
#endif

#endif
