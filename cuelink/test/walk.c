/*
 * A long walk: three hosts and a display with losses, repetitions and reorderings, fetches, joins and leaves. After each call what cuelink_due says
 * is held against the tests' own reading of the state, and against fire itself: before it NOTHING, at it OUT.
 */
#include "stage.h"

enum { HOSTS = 3, NET = 64 };
static struct host hosts[HOSTS], copy;
static struct message net[NET];
static int under_way;
static uint64_t clock_now;
static uint32_t x;
static unsigned long kinds[CUELINK_EXHAUSTED + 1];

static uint32_t below(uint32_t n)
{
    x ^= x << 13, x ^= x >> 17, x ^= x << 5;
    return (uint32_t)((uint64_t)x * n >> 32);
}

static void keep(struct host *h, uint64_t answer)
{
    if (cuelink_kind(answer) == CUELINK_OUT && below(5) > 0)
        net[under_way < NET ? under_way++ : (int)below(NET)] = put_out(h, answer);
}

static uint64_t arrives(struct host *h)
{
    int i = (int)below((uint32_t)under_way);
    uint64_t answer = hears(h, clock_now, &net[i]);
    if (below(4) == 0)
        net[i] = net[--under_way];
    return answer;
}

static uint64_t turn(struct host *h)
{
    static const enum what moves[] = {LEAVE, LEFT, JOIN, JOINED};
    uint32_t die = below(100), source = below(HOSTS);
    int i;
    for (i = 0; i < CUELINK_DRAWS; i++)
        h->draws[i] = (uint16_t)below(65536);
    if (die < 14)
        return sends(h, clock_now, (int)below(4001) - 2000);
    if (die < 60 && under_way > 0)
        return arrives(h);
    if (die < 80)
        return acts(h, FIRE, clock_now);
    if (die < 90)
        return acts(h, below(4) ? REPORT : ANNOUNCE, clock_now);
    if (die < 98)
        return fetches(h, clock_now, source, looks(h, ORIGIN, source) - 1 - below(3));
    for (i = 0; i < 4 && below(3) > 0; i++)
        acts(h, moves[i], clock_now);
    return acts(h, looks(h, STATUS, 0) == CUELINK_STATUS_JOINING ? JOINED : JOIN, clock_now);
}

/* What due says: a fire before it has nothing, a fire at it puts something out. */
static void hold_due(struct host *h)
{
    uint64_t due = looks(h, DUE, 0);
    if (looks(h, STATUS, 0) != CUELINK_STATUS_MEMBER) {
        IS(due, CUELINK_NONE);
        return;
    }
    copy = *h;
    if (due == CUELINK_NONE || due > clock_now)
        IS(acts(&copy, FIRE, due == CUELINK_NONE ? CUELINK_CLOCK_MAX : due - 1), NOTHING_IS);
    if (due != CUELINK_NONE)
        HOLDS(cuelink_kind(acts(&copy, FIRE, due > clock_now ? due : clock_now)) == CUELINK_OUT);
}

static void walked(void)
{
    static const uint64_t params[CUELINK_PARAMS] = {9, 8, 4, 4, 4, 8, 20};
    int i, turns = brief ? 3000 : 20000;
    x = 88172645;
    clock_now = 0;
    under_way = 0;
    for (i = 0; i < HOSTS; i++)
        member_with(&hosts[i], (unsigned)i, params);
    for (i = 0; i < turns; i++) {
        struct host *h = &hosts[below(HOSTS)];
        uint64_t answer;
        clock_now += below(60);
        answer = turn(h);
        kinds[cuelink_kind(answer)]++;
        HOLDS(cuelink_kind(answer) != CUELINK_REFUSED);
        keep(h, answer);
        if (i % 4 == 0)
            hold_due(h);
    }
    for (i = CUELINK_OUT; i <= CUELINK_EXHAUSTED; i++)
        if ((kinds[i] > 0) == (i == CUELINK_CLASH))
            FAILED("answer %d came %lu times", i, kinds[i]);
}

const struct test walk_tests[] = {{"walk", walked}, {NULL, NULL}};
