#include "stage.h"

#include <inttypes.h>

const uint64_t house_params[CUELINK_PARAMS] = {9, 8, 4, 4, 4, 8, 0};
int brief;

void is(const char *file, int line, const char *call, uint64_t answer, uint64_t wanted)
{
    if (answer == wanted)
        return;
    fprintf(stderr, "%s:%d: %s\n    is %s, ", file, line, call, words(answer));
    fprintf(stderr, "and not %s\n", words(wanted));
    exit(1);
}

/* ---- calls on a host */

struct call call_on(struct host *h, enum what what, uint64_t clock)
{
    struct call c = {0};
    c.what = what;
    c.state = h->state;
    c.state_len = sizeof h->state;
    c.clock = clock;
    c.draws = h->draws;
    c.draws_len = CUELINK_DRAWS;
    c.out = h->out;
    c.out_len = sizeof h->out;
    return c;
}

uint64_t opens(struct host *h, uint64_t number, const uint64_t *params)
{
    struct call c = call_on(h, OPEN, 0);
    c.number[0] = number;
    c.params = params;
    c.params_len = CUELINK_PARAMS;
    return made(&c);
}

uint64_t acts(struct host *h, enum what what, uint64_t clock)
{
    struct call c = call_on(h, what, clock);
    return made(&c);
}

uint64_t sends_bytes(struct host *h, uint64_t clock, const uint8_t *cue, size_t length)
{
    struct call c = call_on(h, SEND, clock);
    c.bytes = cue;
    c.bytes_len = length;
    return made(&c);
}

uint64_t sends(struct host *h, uint64_t clock, int focus)
{
    uint8_t cue[CUELINK_CUE];
    cue_of(cue, focus, 0, 0, 0, 0);
    return sends_bytes(h, clock, cue, sizeof cue);
}

uint64_t hears_bytes(struct host *h, uint64_t clock, const uint8_t *bytes, size_t length)
{
    struct call c = call_on(h, ARRIVAL, clock);
    c.bytes = bytes;
    c.bytes_len = length;
    return made(&c);
}

uint64_t hears(struct host *h, uint64_t clock, const struct message *m)
{
    return hears_bytes(h, clock, m->bytes, m->length);
}

uint64_t fetches(struct host *h, uint64_t clock, uint64_t source, uint64_t number)
{
    struct call c = call_on(h, FETCH, clock);
    c.number[0] = source;
    c.number[1] = number;
    return made(&c);
}

uint64_t looks(struct host *h, enum what what, uint64_t number)
{
    struct call c = call_on(h, what, 0);
    c.number[0] = number;
    return made(&c);
}

uint64_t asks(struct host *h, uint64_t clock, uint64_t event, uint64_t source, uint64_t number, const struct message *m)
{
    struct call c = call_on(h, REASON, clock);
    c.number[0] = event;
    c.number[1] = source;
    c.number[2] = number;
    c.bytes = m == NULL ? NULL : m->bytes;
    c.bytes_len = m == NULL ? 0 : m->length;
    return made(&c);
}

void member_with(struct host *h, unsigned number, const uint64_t *params)
{
    memset(h, 0, sizeof *h);
    IS(opens(h, number, params), CUELINK_OK);
    IS(acts(h, JOIN, 0), DONE_IS);
    IS(acts(h, JOINED, 0), DONE_IS);
}

void member(struct host *h, unsigned number)
{
    member_with(h, number, house_params);
}

struct message put_out(const struct host *h, uint64_t answer)
{
    struct message m;
    if (cuelink_kind(answer) != CUELINK_OUT)
        FAILED("nothing was put out: %s", words(answer));
    m.length = cuelink_number(answer);
    memcpy(m.bytes, h->out, m.length);
    return m;
}

/* ---- messages */

static uint8_t *put(uint8_t *at, int width, uint64_t value)
{
    int i;
    for (i = width - 1; i >= 0; i--, value >>= 8)
        at[i] = (uint8_t)value;
    return at + width;
}

void cue_of(uint8_t cue[CUELINK_CUE], int focus, int zoom, int sideways, int upright, unsigned lamp)
{
    uint8_t *at = cue;
    memset(cue, 0, CUELINK_CUE);
    at = put(at, 2, (uint16_t)focus);
    at = put(at, 2, (uint16_t)zoom);
    at = put(at, 2, (uint16_t)sideways);
    at = put(at, 2, (uint16_t)upright);
    put(at, 2, lamp);
}

static uint8_t *begin(struct message *m, unsigned kind, unsigned sender)
{
    uint8_t *at = m->bytes;
    memset(m, 0, sizeof *m);
    at = put(at, 1, kind);
    at = put(at, 1, sender);
    return put(at, 6, 5);
}

static uint8_t *name(uint8_t *at, unsigned source, unsigned number, unsigned host)
{
    at = put(at, 1, source);
    at = put(at, 2, number);
    return put(at, 1, host);
}

/* A message of one name, with a cue of this focus or without one. */
static struct message named(unsigned kind, unsigned sender, unsigned source, unsigned number, unsigned host, const int *focus)
{
    struct message m;
    uint8_t *at = put(begin(&m, kind, sender), 1, 1);
    at = name(at, source, number, host);
    at = put(at, 1, focus != NULL);
    if (focus != NULL) {
        cue_of(at, *focus, 0, 0, 0, 0);
        at += CUELINK_CUE;
    }
    m.length = (size_t)(put(at, 2, 0) - m.bytes);
    return m;
}

struct message data_of(unsigned sender, unsigned number, int focus)
{
    return named(17, sender, sender, number, sender, &focus);
}

struct message rqst_of(unsigned sender, unsigned source, unsigned number)
{
    return named(18, sender, source, number, sender, NULL);
}

struct message repl_of(unsigned sender, unsigned source, unsigned number, unsigned requester, int focus)
{
    return named(19, sender, source, number, requester, &focus);
}

struct message xprs_of(unsigned sender, unsigned source, unsigned number, unsigned asked)
{
    return named(21, sender, source, number, asked, NULL);
}

struct message ftch_of(unsigned sender, unsigned source, unsigned number, unsigned asked)
{
    return named(22, sender, source, number, asked, NULL);
}

struct message late_of(unsigned sender, unsigned source, unsigned number, unsigned requester, int focus)
{
    return named(23, sender, source, number, requester, &focus);
}

struct message annc_of(unsigned sender, unsigned trail, unsigned lead)
{
    struct message m;
    uint8_t *at = put(begin(&m, 24, sender), 1, 2);
    at = name(at, sender, trail, sender);
    at = name(at, sender, lead, sender);
    m.length = (size_t)(put(at, 3, 0) - m.bytes);
    return m;
}

static struct message session(unsigned sender, int reports, unsigned source, unsigned last, unsigned echoed, uint64_t stamp, uint64_t held)
{
    struct message m;
    uint8_t *at = put(put(begin(&m, 20, sender), 2, 0), 1, (unsigned)reports);
    if (reports)
        at = put(put(at, 1, source), 2, last);
    at = put(at, 1, echoed < 8);
    if (echoed < 8)
        at = put(put(put(at, 1, echoed), 6, stamp), 6, held);
    m.length = (size_t)(at - m.bytes);
    return m;
}

struct message sess_of(unsigned sender, unsigned source, unsigned last, unsigned echoed, uint64_t stamp, uint64_t held)
{
    return session(sender, 1, source, last, echoed, stamp, held);
}

struct message echo_of(unsigned sender, unsigned echoed, uint64_t stamp, uint64_t held)
{
    return session(sender, 0, 0, 0, echoed, stamp, held);
}

/* ---- a state with everything in it */

static void heard(struct host *h, uint64_t clock, struct message m, uint64_t wanted)
{
    IS(hears(h, clock, &m), wanted);
}

/*
 * Source 0: an origin, 70, numbers retired unheard, held cues, one with a waiting reply, requests with and without an express wait, the pair that
 * they rest on, tries and a Late mark. Source 1, its own: held cues. Source 2: heard, with an echo. Source 4: the highest number.
 */
void rich(struct host *h)
{
    static const uint64_t params[CUELINK_PARAMS] = {9, 8, 4, 4, 4, 8, 1000};
    int i;
    member_with(h, 1, params);
    for (i = 0; i < CUELINK_DRAWS; i++)
        h->draws[i] = (uint16_t)(i * 1009);
    heard(h, 10, data_of(0, 70, -2), GOT_OF(0, 70));
    heard(h, 20, data_of(0, 140, 3), GOT_OF(0, 140));
    heard(h, 30, repl_of(2, 0, 139, 1, 4), GOT_OF(0, 139));
    heard(h, 40, data_of(0, 144, 5), GOT_OF(0, 144));
    heard(h, 50, rqst_of(3, 0, 140), DONE_IS);
    heard(h, 60, sess_of(2, 0, 145, 1, 8, 12), DONE_IS);
    IS(fetches(h, 70, 0, 69), OUT_OF(16));
    heard(h, 80, late_of(2, 0, 69, 1, 9), LATE_OF(0, 69));
    IS(fetches(h, 90, 0, 6), OUT_OF(16));
    IS(sends(h, 100, 2000), OUT_OF(40));
    IS(sends(h, 110, -2000), OUT_OF(40));
    heard(h, 120, data_of(4, 65535, 1), GOT_OF(4, 65535));
    heard(h, RICH_CLOCK, repl_of(3, 0, 139, 2, 4), DONE_IS);
}
