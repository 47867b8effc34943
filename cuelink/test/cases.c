/* The cases of document 01 that concern calls, with document 02's changes to them, and numbers that are wider than their field. */
#include "stage.h"

static struct host h, other;

/* "Parameters 8,8,4,4,4,7: 13; 9,8,4,4,4,8 open; the last as 10: 13." E above 1000: 14, after 13. */
static void parameters(void)
{
    static const struct {
        uint64_t params[CUELINK_PARAMS], wanted;
    } rows[] = {
        {{8, 8, 4, 4, 4, 7, 0}, 13},     {{9, 8, 4, 4, 4, 8, 0}, 0},      {{9, 8, 4, 4, 4, 10, 0}, 13},
        {{32, 32, 31, 0, 0, 32, 0}, 0},  {{33, 0, 0, 0, 0, 0, 0}, 13},    {{9, 33, 4, 4, 4, 8, 0}, 13},
        {{9, 8, 9, 4, 4, 8, 0}, 13},     {{9, 8, 8, 4, 4, 8, 0}, 0},      {{9, 8, 4, 4, 5, 8, 0}, 0},
        {{9, 8, 4, 5, 5, 7, 0}, 13},     {{9, 8, 4, 4, 4, 9, 0}, 0},      {{9, 8, 4, 4, 4, 8, 1000}, 0},
        {{9, 8, 4, 4, 4, 8, 1001}, 14},  {{9, 8, 4, 4, 4, 10, 1001}, 13}, {{0, 0, 0, 0, 0, 0, 0}, 13},
        {{5, 0, 4, 0, 0, 0, 0}, 0},      {{5, 0, 4, 1, 1, 0, 0}, 13},     {{9, 8, 4, 4, 4, 8, UINT64_MAX}, 14},
        {{(UINT64_C(1) << 32) + 9, 8, 4, 4, 4, 8, 0}, 13}, {{9, 8, 4, 4, 4, (UINT64_C(1) << 8) + 8, 0}, 13},
        {{9, 8, 4, 4, 4, 8, UINT64_C(1) << 32}, 14},       {{9, UINT64_MAX, 4, 4, 4, 8, 0}, 13},
    };
    size_t i;
    for (i = 0; i < sizeof rows / sizeof *rows; i++)
        if (opens(&h, 3, rows[i].params) != rows[i].wanted)
            FAILED("row %zu of the parameters is not %u", i, (unsigned)rows[i].wanted);
}

static uint64_t opens_with(size_t params_len, size_t state_len, uint64_t host)
{
    static const uint64_t params[] = {9, 8, 4, 4, 4, 8, 0, 0};
    static uint8_t state[CUELINK_SIZE + 8];
    struct call c = {0};
    c.what = OPEN;
    c.number[0] = host;
    c.params = params;
    c.params_len = params_len;
    c.state = state;
    c.state_len = state_len;
    return made(&c);
}

/* The order at opening: 3, 12, 13. A host is never cut. */
static void openings(void)
{
    static const uint64_t hosts[] = {8, 255, 256, 65536, UINT64_C(1) << 32, UINT64_MAX};
    size_t i;
    for (i = 0; i < 8; i++)
        IS(opens_with(7, CUELINK_SIZE, i), CUELINK_OK);
    for (i = 0; i < sizeof hosts / sizeof *hosts; i++) {
        IS(opens_with(7, CUELINK_SIZE, hosts[i]), CUELINK_BAD_HOST);
        IS(opens_with(6, CUELINK_SIZE, hosts[i]), CUELINK_BAD_HOST);
        IS(opens_with(6, CUELINK_SIZE + 1, hosts[i]), CUELINK_NOT_SOUND);
    }
    for (i = 0; i < 9; i++)
        if (i != 7)
            IS(opens_with(i, CUELINK_SIZE, 7), CUELINK_BAD_PARAMS);
    IS(opens_with(7, CUELINK_SIZE - 1, 0), CUELINK_NOT_SOUND);
    IS(opens_with(7, CUELINK_SIZE + 1, 0), CUELINK_NOT_SOUND);
    IS(opens_with(7, 0, 0), CUELINK_NOT_SOUND);
}

/* "Focus -2 is FF FE; -2001: 6 at Send, 10 on the wire." "Lamp 1000 is sent; 1001: 6." A cue of another length than 24: 6. */
static void cues(void)
{
    static const int offsets[] = {-2000, -1, 0, 2000};
    static const int wrong[] = {-2001, 2001, -32768, 32767};
    uint8_t cue[40] = {0};
    struct message m = data_of(1, 0, -2001);
    size_t i, field;
    member(&h, 0);
    IS(sends(&h, 1, -2), OUT_OF(40));
    HOLDS(h.out[0] == 17 && h.out[14] == 0xFF && h.out[15] == 0xFE);
    IS(hears(&h, 1, &m), CUELINK_BAD_RANGE);
    for (field = 0; field < 4; field++)
        for (i = 0; i < 4; i++) {
            int all[4] = {0};
            all[field] = offsets[i];
            cue_of(cue, all[0], all[1], all[2], all[3], 0);
            IS(sends_bytes(&h, 1, cue, CUELINK_CUE), OUT_OF(40));
            HOLDS(memcmp(h.out + 14, cue, CUELINK_CUE) == 0);
            all[field] = wrong[i];
            cue_of(cue, all[0], all[1], all[2], all[3], 0);
            IS(sends_bytes(&h, 1, cue, CUELINK_CUE), CUELINK_BAD_CUE);
        }
    cue_of(cue, 0, 0, 0, 0, 1000);
    IS(sends_bytes(&h, 1, cue, CUELINK_CUE), OUT_OF(40));
    for (i = 0; i < sizeof cue; i++)
        if (i != CUELINK_CUE)
            IS(sends_bytes(&h, 1, cue, i), CUELINK_BAD_CUE);
    IS(sends_bytes(&h, 1, NULL, 0), CUELINK_BAD_CUE);
    cue_of(cue, 0, 0, 0, 0, 1001);
    IS(sends_bytes(&h, 1, cue, CUELINK_CUE), CUELINK_BAD_CUE);
}

/* "Cue 63 is sent; a next send: 7", by P7 number 65,535, and 7 at 65,536; for a member alone. */
static void last_number(void)
{
    struct call c = call_on(&h, REOPEN, 77);
    memset(&h, 0, sizeof h);
    c.params = house_params;
    c.params_len = CUELINK_PARAMS;
    c.number[0] = 2;
    c.number[1] = 65535;
    IS(made(&c), CUELINK_OK);
    IS(acts(&h, JOIN, 77), DONE_IS);
    IS(acts(&h, JOINED, 77), DONE_IS);
    IS(sends(&h, 78, 1), OUT_OF(40));
    HOLDS(h.out[10] == 0xFF && h.out[11] == 0xFF);
    IS(looks(&h, NEXT, 0), 65536);
    IS(looks(&h, LAST, 2), 65535);
    IS(sends(&h, 79, 1), CUELINK_NO_NUMBERS);
    IS(sends(&h, 79, 2001), CUELINK_BAD_CUE);
    IS(acts(&h, LEAVE, 80), DONE_IS);
    IS(sends(&h, 80, 1), IGNORED_IS);
    IS(looks(&h, NEXT, 0), 65536);
}

/* "Empty message: probe": a member's session message, else Ignored. "Fresh member's Report: 12 bytes." */
static void probes(void)
{
    static const uint8_t fresh[] = {20, 0, 0, 0, 0, 0, 0, 9, 0, 0, 0, 0};
    memset(&h, 0, sizeof h);
    IS(opens(&h, 0, house_params), CUELINK_OK);
    IS(hears_bytes(&h, 1, NULL, 0), IGNORED_IS);
    IS(looks(&h, CLOCK, 0), 1);
    member(&h, 0);
    IS(hears_bytes(&h, 9, NULL, 0), OUT_OF(12));
    HOLDS(memcmp(h.out, fresh, sizeof fresh) == 0);
    IS(acts(&h, REPORT, 9), OUT_OF(12));
    HOLDS(memcmp(h.out, fresh, sizeof fresh) == 0);
    IS(acts(&h, ANNOUNCE, 9), NOTHING_IS);
}

/* "RQST of end 1 at clock 392 for name 0,1", of the old kind, is read. */
static void old_request(void)
{
    static const uint8_t old[] = {0x02, 0x01, 0, 0, 0, 0, 0x01, 0x88, 0x01, 0x00, 0x01, 0x01, 0, 0, 0};
    member(&h, 0);
    IS(sends(&h, 10, -2), OUT_OF(40));
    IS(sends(&h, 20, -2), OUT_OF(40));
    IS(hears_bytes(&h, 400, old, sizeof old), DONE_IS);
    IS(looks(&h, DUE, 0), 560);
}

/* "e = 80 gives 10 ms; e = 0 gives 1"; by P2 e = 87 gives 11. */
static void distances(void)
{
    static const struct {
        uint64_t e, distance;
    } rows[] = {{0, 1}, {1, 1}, {8, 1}, {9, 2}, {80, 10}, {81, 11}, {87, 11}, {88, 11}, {8000, 1000}, {8001, 1000}, {90000, 1000}};
    size_t i;
    member(&h, 0);
    IS(looks(&h, DISTANCE, 1), 40);
    IS(looks(&h, DISTANCE, 0), 0);
    for (i = 0; i < sizeof rows / sizeof *rows; i++) {
        uint64_t clock = 100000 * (i + 1);
        struct message m = echo_of(1, 0, clock - rows[i].e - 5, 5);
        IS(hears(&h, clock, &m), DONE_IS);
        IS(looks(&h, DISTANCE, 1), rows[i].distance);
    }
}

/* "Clock 2^48-1 is taken; 2^48: 4; one below the state's: 5." */
static void clocks(void)
{
    member(&h, 0);
    IS(acts(&h, FIRE, 100), NOTHING_IS);
    IS(acts(&h, FIRE, 99), CUELINK_CLOCK_BACK);
    IS(acts(&h, FIRE, 100), NOTHING_IS);
    IS(acts(&h, FIRE, CUELINK_CLOCK_MAX + 1), CUELINK_CLOCK_HIGH);
    IS(acts(&h, FIRE, UINT64_C(1) << 63), CUELINK_CLOCK_HIGH);
    IS(acts(&h, FIRE, UINT64_MAX), CUELINK_CLOCK_HIGH);
    IS(acts(&h, FIRE, CUELINK_CLOCK_MAX), NOTHING_IS);
    IS(looks(&h, CLOCK, 0), CUELINK_CLOCK_MAX);
    IS(acts(&h, FIRE, 100), CUELINK_CLOCK_BACK);
}

/* A fetch of a name that is wider than its field is Ignored, and never cut to one that may be fetched. */
static void wide_fetches(void)
{
    static const uint64_t sources[] = {8, 255, 256 + 2, 65536 + 2, (UINT64_C(1) << 32) + 2, UINT64_MAX - 5, UINT64_MAX};
    static const uint64_t numbers[] = {65536, 65536 + 69, (UINT64_C(1) << 32) + 69, UINT64_MAX - 65466, UINT64_MAX};
    struct message first = data_of(2, 70, 1), report = sess_of(2, 2, 70, 8, 0, 0);
    size_t i;
    member(&h, 0);
    IS(hears(&h, 10, &first), GOT_OF(2, 70));
    IS(hears(&h, 11, &report), DONE_IS);
    for (i = 0; i < sizeof sources / sizeof *sources; i++) {
        IS(fetches(&h, 12, sources[i], 69), IGNORED_IS);
        IS(asks(&h, 12, CUELINK_EVENT_FETCH, sources[i], 69, NULL), REASON_OF(CUELINK_NO_FETCH));
    }
    for (i = 0; i < sizeof numbers / sizeof *numbers; i++) {
        IS(fetches(&h, 12, 2, numbers[i]), IGNORED_IS);
        IS(asks(&h, 12, CUELINK_EVENT_FETCH, 2, numbers[i], NULL), REASON_OF(CUELINK_NO_FETCH));
    }
    IS(fetches(&h, 12, 2, 5), IGNORED_IS);
    IS(fetches(&h, 12, 2, 70), IGNORED_IS);
    IS(fetches(&h, 12, 0, 69), IGNORED_IS);
    IS(fetches(&h, 12, 2, 6), OUT_OF(16));
    IS(fetches(&h, 12, 2, 6), EXHAUSTED_IS);
    IS(fetches(&h, 12, 2, 69), OUT_OF(16));
    HOLDS(h.out[0] == 22 && h.out[9] == 2 && h.out[11] == 69 && h.out[12] == 2);
}

/* Faults of earlier links: a number that restarts after Leave, a first kept through it, a repair of another cue. */
static void earlier_faults(void)
{
    struct message m, request;
    member(&h, 0);
    member(&other, 1);
    IS(sends(&h, 10, 1), OUT_OF(40));
    m = put_out(&h, OUT_OF(40));
    IS(hears(&other, 11, &m), GOT_OF(0, 0));
    IS(acts(&other, LEAVE, 12), DONE_IS);
    IS(looks(&other, FIRST, 0), CUELINK_NONE);
    IS(acts(&h, LEAVE, 12), DONE_IS);
    IS(acts(&h, LEFT, 12), DONE_IS);
    IS(acts(&h, JOIN, 12), DONE_IS);
    IS(acts(&h, JOINED, 12), DONE_IS);
    IS(sends(&h, 13, 2), OUT_OF(40));
    HOLDS(h.out[11] == 1);
    IS(sends(&h, 14, 3), OUT_OF(40));
    request = rqst_of(1, 0, 1);
    IS(hears(&h, 15, &request), DONE_IS);
    IS(acts(&h, FIRE, looks(&h, DUE, 0)), OUT_OF(40));
    HOLDS(h.out[0] == 19 && h.out[11] == 1 && h.out[15] == 2);
}

const struct test case_tests[] = {
    {"parameters", parameters}, {"openings", openings},     {"cues", cues},         {"last-number", last_number},     {"probes", probes},
    {"old-request", old_request}, {"distances", distances}, {"clocks", clocks},     {"wide-fetches", wide_fetches},   {"earlier-faults", earlier_faults},
    {NULL, NULL}};
