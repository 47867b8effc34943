/*
 * What the tests share: a host with its state, its draws and its output; the calls on it, each one line; messages put together byte by byte; and
 * the tests by name.
 */
#ifndef STAGE_H
#define STAGE_H

#include <stdio.h>
#include <stdlib.h>
#include <string.h>

#include "call.h"
#include "form.h"

struct host {
    uint8_t state[CUELINK_SIZE];
    uint8_t out[CUELINK_ROOM];
    uint16_t draws[CUELINK_DRAWS];
};

struct message {
    uint8_t bytes[CUELINK_ROOM];
    size_t length;
};

/* ---- what is expected */

#define FAILED(...) (fprintf(stderr, "%s:%d: ", __FILE__, __LINE__), fprintf(stderr, __VA_ARGS__), fputc('\n', stderr), exit(1))
#define HOLDS(what) ((what) ? (void)0 : FAILED("not so: %s", #what))
#define IS(call, wanted) is(__FILE__, __LINE__, #call, (call), (wanted))
void is(const char *file, int line, const char *call, uint64_t answer, uint64_t wanted);

static inline uint64_t answer_of(unsigned kind, unsigned source, unsigned number)
{
    return (uint64_t)kind << 32 | (uint64_t)source << 16 | number;
}

#define OUT_OF(length) answer_of(CUELINK_OUT, 0, length)
#define GOT_OF(source, number) answer_of(CUELINK_GOT, source, number)
#define CLASH_OF(source, number) answer_of(CUELINK_CLASH, source, number)
#define LATE_OF(source, number) answer_of(CUELINK_LATE, source, number)
#define REASON_OF(number) answer_of(CUELINK_REASON, 0, number)
#define DONE_IS answer_of(CUELINK_DONE, 0, 0)
#define IGNORED_IS answer_of(CUELINK_IGNORED, 0, 0)
#define NOTHING_IS answer_of(CUELINK_NOTHING, 0, 0)
#define EXHAUSTED_IS answer_of(CUELINK_EXHAUSTED, 0, 0)

/* ---- calls on a host */

extern const uint64_t house_params[CUELINK_PARAMS]; /* 9,8,4,4,4,8 and E = 0 */

/* The host's state, clock, draws and output, for a call of it. */
struct call call_on(struct host *h, enum what what, uint64_t clock);
uint64_t opens(struct host *h, uint64_t number, const uint64_t *params);
uint64_t acts(struct host *h, enum what what, uint64_t clock);
uint64_t sends(struct host *h, uint64_t clock, int focus);
uint64_t sends_bytes(struct host *h, uint64_t clock, const uint8_t *cue, size_t length);
uint64_t hears(struct host *h, uint64_t clock, const struct message *m);
uint64_t hears_bytes(struct host *h, uint64_t clock, const uint8_t *bytes, size_t length);
uint64_t fetches(struct host *h, uint64_t clock, uint64_t source, uint64_t number);
uint64_t looks(struct host *h, enum what what, uint64_t number);
uint64_t asks(struct host *h, uint64_t clock, uint64_t event, uint64_t source, uint64_t number, const struct message *m);

/* A member from clock 0 on, opened with house's parameters, or these. */
void member(struct host *h, unsigned number);
void member_with(struct host *h, unsigned number, const uint64_t *params);

/* A member, host 1, whose state has every form that there is: see the definition. Its clock is RICH_CLOCK. */
enum { RICH_CLOCK = 200 };
void rich(struct host *h);

/* What the host put out, taken as a message. */
struct message put_out(const struct host *h, uint64_t answer);

/* ---- messages, all of stamp 5 */

void cue_of(uint8_t cue[CUELINK_CUE], int focus, int zoom, int sideways, int upright, unsigned lamp);
struct message data_of(unsigned sender, unsigned number, int focus);
struct message rqst_of(unsigned sender, unsigned source, unsigned number);
struct message repl_of(unsigned sender, unsigned source, unsigned number, unsigned requester, int focus);
struct message xprs_of(unsigned sender, unsigned source, unsigned number, unsigned asked);
struct message ftch_of(unsigned sender, unsigned source, unsigned number, unsigned asked);
struct message late_of(unsigned sender, unsigned source, unsigned number, unsigned requester, int focus);
struct message annc_of(unsigned sender, unsigned trail, unsigned lead);
/* A session message with one report, and an echo of the host unless it is 8. */
struct message sess_of(unsigned sender, unsigned source, unsigned last, unsigned echoed, uint64_t stamp, uint64_t held);
/* The same without a report. */
struct message echo_of(unsigned sender, unsigned echoed, uint64_t stamp, uint64_t held);

/* ---- the tests */

struct test {
    const char *name;
    void (*run)(void);
};
extern const struct test listing_tests[], case_tests[], refusal_tests[], form_tests[], display_tests[], lens_tests[], reason_tests[], walk_tests[];

/* Whether the tests are to be short: under the sanitizers, and between guarded pages. */
extern int brief;

#endif
