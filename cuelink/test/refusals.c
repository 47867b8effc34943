/*
 * Every refusal of an event and of a reopening: that it comes, in its place among the questions, whatever else is wrong. That no byte changes is
 * held by `made` for each of them.
 */
#include "stage.h"

static struct host h, copy;

/* Events of any status with the least faults: a good cue, an empty datagram. */
static uint64_t call_with(enum what what, uint64_t clock, size_t draws, size_t room, size_t length)
{
    static uint16_t many[CUELINK_DRAWS + 1];
    static uint8_t out[CUELINK_ROOM + 1], cue[CUELINK_CUE], long_one[CUELINK_SIZE + 1];
    struct call c = call_on(&h, what, clock);
    memcpy(long_one, h.state, sizeof h.state);
    c.state = long_one;
    c.state_len = length;
    c.draws = many;
    c.draws_len = draws;
    c.out = out;
    c.out_len = room;
    if (what == SEND) {
        c.bytes = cue;
        c.bytes_len = sizeof cue;
    }
    return made(&c);
}

/* 1 to 5 of each event, in each status, each with all faults of later questions too. */
static void any_event(void)
{
    static const enum what moves[] = {JOIN, JOINED, LEAVE, LEFT, CRASH};
    unsigned status, what;
    memset(&h, 0, sizeof h);
    IS(opens(&h, 3, house_params), CUELINK_OK);
    for (status = 0; status < 5; status++) {
        for (what = JOIN; what <= FETCH; what++) {
            enum what w = (enum what)what;
            IS(call_with(w, UINT64_MAX, 63, 127, CUELINK_SIZE - 1), CUELINK_NO_ROOM);
            IS(call_with(w, 50, 64, 0, CUELINK_SIZE), CUELINK_NO_ROOM);
            IS(call_with(w, UINT64_MAX, 63, 128, CUELINK_SIZE - 1), CUELINK_BAD_DRAWS);
            IS(call_with(w, 50, 65, 129, CUELINK_SIZE), CUELINK_BAD_DRAWS);
            IS(call_with(w, UINT64_MAX, 65, 128, CUELINK_SIZE - 1), CUELINK_BAD_DRAWS);
            IS(call_with(w, 50, 0, 128, CUELINK_SIZE), CUELINK_BAD_DRAWS);
            IS(call_with(w, UINT64_MAX, 64, 128, CUELINK_SIZE - 1), CUELINK_NOT_SOUND);
            IS(call_with(w, UINT64_MAX, 64, 128, CUELINK_SIZE + 1), CUELINK_NOT_SOUND);
            IS(call_with(w, 50, 64, 128, 0), CUELINK_NOT_SOUND);
            IS(call_with(w, CUELINK_CLOCK_MAX + 1, 64, 128, CUELINK_SIZE), CUELINK_CLOCK_HIGH);
            if (status > 0)
                IS(call_with(w, 49, 64, 128, CUELINK_SIZE), CUELINK_CLOCK_BACK);
        }
        IS(acts(&h, moves[status], 50), DONE_IS);
    }
    IS(looks(&h, STATUS, 0), CUELINK_STATUS_CRASHED);
}

/* Sends and arrivals: 5 before their own; 6 before 7; both in every status, 7 for a member alone. */
static void sends_and_arrivals(void)
{
    static const struct {
        uint8_t bytes[16];
        size_t length;
        uint64_t wanted;
    } rows[] = {
        {{20}, 1, 8},
        {{20, 0, 0, 0, 0, 0, 0, 1, 0, 0, 0}, 11, 8},
        {{20, 0, 0, 0, 0, 0, 0, 1, 0, 0, 0, 1}, 12, 8},
        {{20, 0, 0, 0, 0, 0, 0, 1, 0, 0, 0, 0, 0}, 13, 8},
        {{0, 0, 0, 0, 0, 0, 0, 1, 0, 0, 0, 0}, 12, 9},
        {{25, 0, 0, 0, 0, 0, 0, 1, 0, 0, 0, 0}, 12, 9},
        {{17, 0, 0, 0, 0, 0, 0, 1, 0, 0, 0, 0}, 12, 9},
        {{20, 8, 0, 0, 0, 0, 0, 1, 0, 0, 0, 0}, 12, 10},
        {{18, 1, 0, 0, 0, 0, 0, 1, 1, 8, 0, 1, 1, 0, 0, 0}, 16, 10},
        {{18, 1, 0, 0, 0, 0, 0, 1, 1, 1, 0, 1, 1, 0, 0, 0}, 16, 11},
        {{18, 1, 0, 0, 0, 0, 0, 1, 1, 0, 0, 1, 2, 0, 0, 0}, 16, 11},
    };
    static const enum what moves[] = {JOIN, JOINED, LEAVE, LEFT, CRASH};
    unsigned status;
    size_t i;
    memset(&h, 0, sizeof h);
    IS(opens(&h, 3, house_params), CUELINK_OK);
    for (status = 0; status < 6; status++) {
        for (i = 0; i < sizeof rows / sizeof *rows; i++) {
            if (status > 0)
                IS(hears_bytes(&h, 49, rows[i].bytes, rows[i].length), CUELINK_CLOCK_BACK);
            IS(hears_bytes(&h, 60, rows[i].bytes, rows[i].length), rows[i].wanted);
        }
        if (status > 0)
            IS(sends(&h, 49, 2001), CUELINK_CLOCK_BACK);
        IS(sends(&h, 60, 2001), CUELINK_BAD_CUE);
        if (status < 5)
            IS(acts(&h, moves[status], 50), DONE_IS);
    }
}

/* A datagram of any length of zeros, and any that is longer than a message, is refused. */
static void lengths(void)
{
    static uint8_t bytes[2048];
    size_t i;
    member(&h, 0);
    for (i = 1; i <= sizeof bytes; i = i < 300 ? i + 1 : i * 2)
        IS(hears_bytes(&h, 1, bytes, i), i == 12 ? CUELINK_BAD_KIND : CUELINK_BAD_LENGTH);
}

/* ---- reopening */

static uint64_t reopens(uint64_t host, size_t params_len, uint64_t express, uint64_t c3, uint64_t clock, uint64_t next, size_t length)
{
    static uint8_t state[CUELINK_SIZE + 1];
    uint64_t params[8] = {9, 8, 4, 4, 4, 8, 0, 0};
    struct call c = {0};
    params[2] = c3;
    params[6] = express;
    c.what = REOPEN;
    c.number[0] = host;
    c.number[1] = next;
    c.clock = clock;
    c.params = params;
    c.params_len = params_len;
    c.state = state;
    c.state_len = length;
    return made(&c);
}

/* 3, 12, 13, 14, 4, 7, in this order. */
static void reopenings_refused(void)
{
    const uint64_t high = CUELINK_CLOCK_MAX + 1, past = 65537;
    IS(reopens(8, 6, 1001, 9, high, past, CUELINK_SIZE - 1), CUELINK_NOT_SOUND);
    IS(reopens(8, 6, 1001, 9, high, past, CUELINK_SIZE + 1), CUELINK_NOT_SOUND);
    IS(reopens(8, 6, 1001, 9, high, past, CUELINK_SIZE), CUELINK_BAD_HOST);
    IS(reopens(7, 6, 1001, 4, high, past, CUELINK_SIZE), CUELINK_BAD_PARAMS);
    IS(reopens(7, 8, 1001, 4, high, past, CUELINK_SIZE), CUELINK_BAD_PARAMS);
    IS(reopens(7, 7, 1001, 9, high, past, CUELINK_SIZE), CUELINK_BAD_PARAMS);
    IS(reopens(7, 7, 1001, 4, high, past, CUELINK_SIZE), CUELINK_BAD_EXPRESS);
    IS(reopens(7, 7, 1000, 4, high, past, CUELINK_SIZE), CUELINK_CLOCK_HIGH);
    IS(reopens(7, 7, 1000, 4, UINT64_MAX, 0, CUELINK_SIZE), CUELINK_CLOCK_HIGH);
    IS(reopens(7, 7, 1000, 4, high - 1, past, CUELINK_SIZE), CUELINK_NO_NUMBERS);
    IS(reopens(7, 7, 1000, 4, 0, UINT64_C(1) << 32, CUELINK_SIZE), CUELINK_NO_NUMBERS);
    IS(reopens(7, 7, 1000, 4, 0, UINT64_MAX, CUELINK_SIZE), CUELINK_NO_NUMBERS);
    IS(reopens(7, 7, 1000, 4, high - 1, 65536, CUELINK_SIZE), CUELINK_OK);
}

static uint64_t reopens_into(struct host *to, uint64_t clock, uint64_t next)
{
    struct call c = call_on(to, REOPEN, clock);
    c.params = house_params;
    c.params_len = CUELINK_PARAMS;
    c.number[0] = 5;
    c.number[1] = next;
    return made(&c);
}

/* A reopened end is, byte for byte, the one that Leave and Left would have left: of a joining end, of a member, and of one with cues. */
static void reopening(void)
{
    static struct host again;
    struct message m = data_of(2, 9, 1);
    int sent, from;
    for (from = 0; from < 2; from++)
        for (sent = 0; sent < (from ? 70 : 1); sent += 23) {
            int i;
            memset(&h, 0, sizeof h);
            memset(&again, 0, sizeof again);
            IS(opens(&h, 5, house_params), CUELINK_OK);
            IS(acts(&h, JOIN, 3), DONE_IS);
            if (from) {
                IS(acts(&h, JOINED, 4), DONE_IS);
                IS(hears(&h, 5, &m), GOT_OF(2, 9));
                for (i = 0; i < sent; i++)
                    IS(sends(&h, (uint64_t)(10 + i), i), OUT_OF(40));
            }
            IS(reopens_into(&again, 1000, looks(&h, NEXT, 0)), CUELINK_OK);
            IS(acts(&h, LEAVE, 500), DONE_IS);
            IS(acts(&h, LEFT, 1000), DONE_IS);
            HOLDS(memcmp(h.state, again.state, sizeof h.state) == 0);
            HOLDS(looks(&again, NEXT, 0) == (uint64_t)sent && looks(&again, CLOCK, 0) == 1000 && looks(&again, STATUS, 0) == CUELINK_STATUS_IDLE);
        }
    IS(reopens_into(&again, 0, 0), CUELINK_OK);
    memset(&copy, 0, sizeof copy);
    IS(opens(&copy, 5, house_params), CUELINK_OK);
    HOLDS(memcmp(copy.state, again.state, sizeof copy.state) == 0);
}

/* The next number after a restart is the stored one, so that no name has two cues. */
static void reopened_goes_on(void)
{
    static struct host again;
    uint64_t clock, next;
    member(&h, 5);
    IS(sends(&h, 10, 1), OUT_OF(40));
    IS(sends(&h, 20, 2), OUT_OF(40));
    clock = looks(&h, CLOCK, 0);
    next = looks(&h, NEXT, 0);
    memset(&again, 0, sizeof again);
    IS(reopens_into(&again, clock, next), CUELINK_OK);
    IS(acts(&again, JOIN, 19), CUELINK_CLOCK_BACK);
    IS(acts(&again, JOIN, 20), DONE_IS);
    IS(acts(&again, JOINED, 20), DONE_IS);
    IS(sends(&again, 20, 3), OUT_OF(40));
    HOLDS(again.out[10] == 0 && again.out[11] == 2);
}

const struct test refusal_tests[] = {{"any-event", any_event},
                                     {"sends-and-arrivals", sends_and_arrivals},
                                     {"lengths", lengths},
                                     {"reopenings-refused", reopenings_refused},
                                     {"reopening", reopening},
                                     {"reopened-goes-on", reopened_goes_on},
                                     {NULL, NULL}};
