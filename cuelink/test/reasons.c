/* Why an event would be ignored: each reason, each number that would refuse it, and that the call agrees with the event itself. */
#include "stage.h"

static struct host h, copy;

/* An event by the number of the reason call, made on a copy. */
static uint64_t made_on_copy(uint64_t clock, uint64_t event, uint64_t source, uint64_t number, const struct message *m)
{
    static const enum what whats[] = {JOIN, JOINED, LEAVE, LEFT, CRASH, SEND, ARRIVAL, FIRE, REPORT, FETCH, ANNOUNCE};
    copy = h;
    if (event == CUELINK_EVENT_SEND)
        return sends_bytes(&copy, clock, m == NULL ? NULL : m->bytes, m == NULL ? 0 : m->length);
    if (event == CUELINK_EVENT_ARRIVAL)
        return hears_bytes(&copy, clock, m == NULL ? NULL : m->bytes, m == NULL ? 0 : m->length);
    if (event == CUELINK_EVENT_FETCH)
        return fetches(&copy, clock, source, number);
    return acts(&copy, whats[event], clock);
}

/* The reason, where it agrees with the event: refused alike, a reason exactly where the event is ignored. */
static uint64_t agreed(uint64_t clock, uint64_t event, uint64_t source, uint64_t number, const struct message *m)
{
    uint64_t why = asks(&h, clock, event, source, number, m), answer = made_on_copy(clock, event, source, number, m);
    if (cuelink_kind(answer) == CUELINK_REFUSED || cuelink_kind(why) == CUELINK_REFUSED)
        HOLDS(why == answer);
    else
        HOLDS((why == REASON_OF(CUELINK_NO_REASON)) == (answer != IGNORED_IS));
    return why;
}

static uint64_t of_arrival(uint64_t clock, struct message m)
{
    return agreed(clock, CUELINK_EVENT_ARRIVAL, 0, 0, &m);
}

/* Each event in each status. */
static void statuses(void)
{
    static const int right[5][5] = {{1, 0, 0, 0, 0}, {0, 1, 0, 0, 0}, {0, 1, 1, 0, 0}, {0, 0, 0, 1, 0}, {1, 1, 1, 1, 0}};
    static const enum what moves[] = {JOIN, JOINED, LEAVE, LEFT, CRASH};
    struct message cue = {{0}, CUELINK_CUE};
    unsigned status, turn, event;
    memset(&h, 0, sizeof h);
    IS(opens(&h, 3, house_params), CUELINK_OK);
    for (turn = 0; turn < 6; turn++) {
        status = (unsigned)looks(&h, STATUS, 0);
        for (event = 0; event <= 10; event++) {
            int fits = event < 5 ? right[event][status] : status == CUELINK_STATUS_MEMBER;
            uint64_t why = agreed(50, event, 0, 0, event == CUELINK_EVENT_SEND ? &cue : NULL);
            if (event == CUELINK_EVENT_FETCH && status == CUELINK_STATUS_MEMBER)
                IS(why, REASON_OF(CUELINK_NO_FETCH));
            else if (status == CUELINK_STATUS_CRASHED)
                IS(why, REASON_OF(CUELINK_CRASHED));
            else
                IS(why, REASON_OF(fits ? CUELINK_NO_REASON : CUELINK_WRONG_STATUS));
        }
        if (turn < 5)
            IS(acts(&h, moves[turn], 50), DONE_IS);
    }
}

/* Each reason of an arrival and of a fetch. */
static void arrivals(void)
{
    rich(&h);
    IS(of_arrival(300, data_of(1, 9, 1)), REASON_OF(CUELINK_OWN_MESSAGE));
    IS(of_arrival(300, rqst_of(3, 5, 0)), REASON_OF(CUELINK_NOT_OPEN));
    IS(of_arrival(300, repl_of(3, 5, 0, 2, 1)), REASON_OF(CUELINK_NOT_OPEN));
    IS(of_arrival(300, data_of(0, 81, 1)), REASON_OF(CUELINK_BELOW_FIRST));
    IS(of_arrival(300, rqst_of(3, 0, 81)), REASON_OF(CUELINK_BELOW_FIRST));
    IS(of_arrival(300, rqst_of(3, 1, 2)), REASON_OF(CUELINK_OWN_ABOVE_LAST));
    IS(of_arrival(300, data_of(0, 140, 3)), REASON_OF(CUELINK_ALREADY_HELD));
    IS(of_arrival(300, data_of(0, 140, 4)), REASON_OF(CUELINK_NO_REASON));
    IS(of_arrival(300, rqst_of(2, 0, 140)), REASON_OF(CUELINK_REPLY_WAITING));
    IS(of_arrival(239, rqst_of(2, 0, 139)), REASON_OF(CUELINK_REPLY_QUIET));
    IS(of_arrival(240, rqst_of(2, 0, 139)), REASON_OF(CUELINK_NO_REASON));
    IS(of_arrival(220, rqst_of(2, 0, 145)), REASON_OF(CUELINK_REQUEST_QUIET));
    IS(of_arrival(221, rqst_of(2, 0, 145)), REASON_OF(CUELINK_NO_REASON));
    IS(of_arrival(300, rqst_of(2, 0, 141)), REASON_OF(CUELINK_NO_REASON));
    IS(of_arrival(300, ftch_of(2, 0, 141, 1)), REASON_OF(CUELINK_NO_FETCH));
    IS(of_arrival(300, ftch_of(2, 0, 140, 1)), REASON_OF(CUELINK_NO_REASON));
    IS(of_arrival(300, late_of(2, 0, 69, 1, 9)), REASON_OF(CUELINK_NO_FETCH));
    IS(of_arrival(300, late_of(2, 0, 6, 1, 9)), REASON_OF(CUELINK_NO_REASON));
    IS(of_arrival(300, xprs_of(3, 0, 140, 1)), REASON_OF(CUELINK_NO_REASON));
    IS(of_arrival(300, annc_of(0, 3, 9)), REASON_OF(CUELINK_NO_REASON));
    IS(agreed(300, CUELINK_EVENT_FETCH, 0, 69, NULL), REASON_OF(CUELINK_NO_FETCH));
    IS(agreed(300, CUELINK_EVENT_FETCH, 0, 7, NULL), REASON_OF(CUELINK_NO_REASON));
    IS(agreed(300, CUELINK_EVENT_FETCH, 0, 6, NULL), REASON_OF(CUELINK_NO_REASON));
}

/* "request quiet": a request heard before quiet-until is over. */
static void request_quiet(void)
{
    struct message first = data_of(0, 0, 1), third = data_of(0, 2, 1);
    member(&h, 1);
    IS(hears(&h, 10, &first), GOT_OF(0, 0));
    IS(hears(&h, 20, &third), GOT_OF(0, 2));
    IS(of_arrival(20 + 4 * 40, rqst_of(2, 0, 1)), REASON_OF(CUELINK_REQUEST_QUIET));
    IS(of_arrival(20 + 4 * 40 + 1, rqst_of(2, 0, 1)), REASON_OF(CUELINK_NO_REASON));
}

/* 3 to 11, in their order; 1 and 2 are not asked. */
static void refused(void)
{
    struct message none = {{0}, 0}, bad = {{0x7F, 0xFF}, CUELINK_CUE}, short_cue = {{0}, CUELINK_CUE - 1}, nine = {{25}, 12};
    struct message ten = data_of(2, 0, 2001), eleven = annc_of(2, 9, 8), eight = {{20}, 5};
    struct call c = call_on(&h, REASON, UINT64_MAX);
    rich(&h);
    c.state_len--;
    c.number[0] = CUELINK_EVENT_ARRIVAL;
    IS(made(&c), CUELINK_NOT_SOUND);
    IS(agreed(CUELINK_CLOCK_MAX + 1, CUELINK_EVENT_ARRIVAL, 0, 0, &eight), CUELINK_CLOCK_HIGH);
    IS(agreed(RICH_CLOCK - 1, CUELINK_EVENT_ARRIVAL, 0, 0, &eight), CUELINK_CLOCK_BACK);
    IS(agreed(300, CUELINK_EVENT_SEND, 0, 0, &bad), CUELINK_BAD_CUE);
    IS(agreed(300, CUELINK_EVENT_SEND, 0, 0, &short_cue), CUELINK_BAD_CUE);
    IS(agreed(300, CUELINK_EVENT_SEND, 0, 0, &none), CUELINK_BAD_CUE);
    IS(agreed(300, CUELINK_EVENT_ARRIVAL, 0, 0, &eight), CUELINK_BAD_LENGTH);
    IS(agreed(300, CUELINK_EVENT_ARRIVAL, 0, 0, &nine), CUELINK_BAD_KIND);
    IS(agreed(300, CUELINK_EVENT_ARRIVAL, 0, 0, &ten), CUELINK_BAD_RANGE);
    IS(agreed(300, CUELINK_EVENT_ARRIVAL, 0, 0, &eleven), CUELINK_BAD_HOSTS);
}

/* A number that is no event's, wide ones too. It is asked first, so of bytes that are no state too. */
static void no_event(void)
{
    static const uint64_t events[] = {11, 12, 255, 256, 256 + 7, UINT64_C(1) << 32, (UINT64_C(1) << 32) + 7, UINT64_MAX};
    size_t i;
    rich(&h);
    for (i = 0; i < sizeof events / sizeof *events; i++)
        IS(asks(&h, 300, events[i], 0, 0, NULL), answer_of(CUELINK_NO_EVENT, 0, 0));
    memset(h.state, 0, sizeof h.state);
    IS(asks(&h, 300, 11, 0, 0, NULL), answer_of(CUELINK_NO_EVENT, 0, 0));
    IS(asks(&h, 300, 10, 0, 0, NULL), CUELINK_NOT_SOUND);
}

const struct test reason_tests[] = {{"reason-statuses", statuses}, {"reason-arrivals", arrivals}, {"reason-request-quiet", request_quiet},
                                    {"reason-refused", refused},   {"reason-no-event", no_event}, {NULL, NULL}};
