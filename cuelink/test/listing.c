/* Document 01's listing, through the calls from C, line by line: what house prints, and when the next wait is due. */
#include <inttypes.h>

#include "stage.h"

/* The line, what is printed, and cuelink_due of that end afterwards. */
static const struct {
    const char *line, *prints;
    uint64_t due;
} listing[] = {
    {"0 join 0", "0 0 done", CUELINK_NONE},
    {"0 joined 0", "0 0 done", CUELINK_NONE},
    {"1 join 0", "1 0 done", CUELINK_NONE},
    {"1 joined 0", "1 0 done", CUELINK_NONE},
    {"0 send 10 -2", "0 10 out 0", CUELINK_NONE},
    {"1 hear 12 0", "1 12 got 0 0 -2", CUELINK_NONE},
    {"0 send 20 -2", "0 20 out 1", CUELINK_NONE},
    {"0 send 30 -2", "0 30 out 2", CUELINK_NONE},
    {"1 hear 32 2", "1 32 got 0 2 -2", 392},
    {"1 fire 391", "1 391 nothing", 392},
    {"1 fire 392", "1 392 out 3", 1112}, /* round 2: 392 + 2 x 9 x 40 */
    {"0 hear 400 3", "0 400 done", 560},
    {"0 fire 560", "0 560 out 4", CUELINK_NONE},
    {"1 hear 570 4", "1 570 got 0 1 -2", CUELINK_NONE},
};

static struct host hosts[2];
static struct message messages[8];
static int count;

static uint64_t played(struct host *h, const char *verb, uint64_t clock, int value)
{
    static const char *const verbs[] = {"join", "joined", "leave", "left", "crash", "fire", "report"};
    int i;
    if (strcmp(verb, "send") == 0)
        return sends(h, clock, value);
    if (strcmp(verb, "hear") == 0)
        return hears(h, clock, &messages[value]);
    for (i = 0; i < 7; i++)
        if (strcmp(verb, verbs[i]) == 0)
            return acts(h, (enum what)(JOIN + i), clock);
    FAILED("no verb: %s", verb);
    return 0;
}

static int focus_of(const uint8_t *cue)
{
    return (int16_t)(uint16_t)(cue[0] << 8 | cue[1]);
}

/* A line as house prints it. */
static void say(char *to, size_t room, int end, uint64_t clock, uint64_t answer)
{
    static const char *const said[] = {"", "", "", "done", "ignored", "nothing"};
    unsigned kind = cuelink_kind(answer);
    int at = snprintf(to, room, "%d %" PRIu64 " ", end, clock);
    if (kind == CUELINK_OUT) {
        messages[count] = put_out(&hosts[end], answer);
        snprintf(to + at, room - (size_t)at, "out %d", count++);
    } else if (kind == CUELINK_GOT) {
        snprintf(to + at, room - (size_t)at, "got %u %u %d", cuelink_source(answer), cuelink_cue_number(answer), focus_of(hosts[end].out));
    } else if (kind >= CUELINK_DONE && kind <= CUELINK_NOTHING) {
        snprintf(to + at, room - (size_t)at, "%s", said[kind]);
    } else {
        snprintf(to + at, room - (size_t)at, "%s", words(answer));
    }
}

static void play(const char *line, const char *prints, uint64_t due)
{
    char verb[16], printed[64];
    int end, value = 0;
    uint64_t clock;
    HOLDS(sscanf(line, "%d %15s %" SCNu64 " %d", &end, verb, &clock, &value) >= 3);
    say(printed, sizeof printed, end, clock, played(&hosts[end], verb, clock, value));
    if (strcmp(printed, prints) != 0)
        FAILED("%s: prints \"%s\" and not \"%s\"", line, printed, prints);
    IS(looks(&hosts[end], DUE, 0), due);
}

static void listed(void)
{
    static const uint8_t request[] = {0x12, 0x01, 0, 0, 0, 0, 0x01, 0x88, 0x01, 0, 0, 0x01, 0x01, 0, 0, 0};
    size_t i;
    count = 0;
    for (i = 0; i < 2; i++) {
        memset(&hosts[i], 0, sizeof hosts[i]);
        IS(opens(&hosts[i], i, house_params), CUELINK_OK);
    }
    for (i = 0; i < sizeof listing / sizeof *listing; i++)
        play(listing[i].line, listing[i].prints, listing[i].due);
    HOLDS(messages[3].length == sizeof request && memcmp(messages[3].bytes, request, sizeof request) == 0);
}

/* A refusal in the midst of it, of any number, leaves no trace: the same bytes as without it. */
static void listed_with_refusals(void)
{
    static struct host clean[2];
    size_t i;
    listed();
    memcpy(clean, hosts, sizeof clean);
    count = 0;
    for (i = 0; i < 2; i++) {
        memset(&hosts[i], 0, sizeof hosts[i]);
        IS(opens(&hosts[i], i, house_params), CUELINK_OK);
        IS(opens(&hosts[i], 8, house_params), CUELINK_BAD_HOST);
    }
    for (i = 0; i < sizeof listing / sizeof *listing; i++) {
        struct host *h = &hosts[listing[i].line[0] - '0'];
        struct message wrong = data_of(3, 7, 2001);
        IS(acts(h, FIRE, CUELINK_CLOCK_MAX + 1), CUELINK_CLOCK_HIGH);
        IS(sends(h, 5000, 2001), CUELINK_BAD_CUE);
        IS(hears(h, 5000, &wrong), CUELINK_BAD_RANGE);
        play(listing[i].line, listing[i].prints, listing[i].due);
    }
    HOLDS(memcmp(clean, hosts, sizeof clean) == 0);
}

const struct test listing_tests[] = {{"listing", listed}, {"listing-with-refusals", listed_with_refusals}, {NULL, NULL}};
