#include "play_check.h"
#include "play_memory.h"

#include <inttypes.h>
#include <string.h>

#include "cuelink.h"

static const uint64_t last_clock = ((uint64_t)1 << 48) - 1;

/* ---- dice */

static uint64_t dice;

void dice_seed(uint64_t seed)
{
    dice = seed;
}

uint64_t dice_below(uint64_t n)
{
    uint64_t x, y;
    dice += 0x9E3779B97F4A7C15u;
    x = (dice ^ (dice >> 30)) * 0xBF58476D1CE4E5B9u;
    y = (x ^ (x >> 27)) * 0x94D049BB133111EBu;
    return (y ^ (y >> 31)) % n;
}

int dice_one_in(uint64_t n)
{
    return dice_below(n) == 0;
}

/* ---- openings */

void check_sizes(void)
{
    if (cuelink_size() != STATE_BYTES || cuelink_display_size() != DISPLAY_BYTES)
        fail("a state has %" PRIu64 " bytes and a display %" PRIu64, cuelink_size(), cuelink_display_size());
}

/* One opening into `length` bytes; `again` with a clock and a next number. It has to answer this, and to leave the bytes of the layout or none. */
static void check_opening(uint64_t host, const uint64_t *params, size_t count, int again, uint64_t clock, uint64_t next, size_t length, uint64_t answer)
{
    static uint8_t state[STATE_BYTES + 2], wanted[STATE_BYTES + 2];
    uint64_t told;
    memset(state, 0xA5, sizeof state);
    memset(wanted, 0xA5, sizeof wanted);
    if (answer == 0)
        put_opened(wanted, (uint8_t)host, params, again ? clock : 0, again ? next : 0);
    told = again ? call_reopen(host, params, count, clock, next, state, length) : call_open(host, params, count, state, length);
    if (told != answer)
        fail("%s of host %" PRIu64 " with %lu parameters, clock %" PRIu64 ", next %" PRIu64 ", into %lu bytes answers %" PRIu64 " and not %" PRIu64,
             again ? "cuelink_reopen" : "cuelink_open", host, (unsigned long)count, clock, next, (unsigned long)length, told, answer);
    if (memcmp(state, wanted, sizeof state) != 0)
        fail("%s of host %" PRIu64 " answers %" PRIu64 " and leaves other bytes", again ? "cuelink_reopen" : "cuelink_open", host, answer);
}

void check_openings(uint64_t host, const uint64_t *params, uint64_t answer)
{
    static const uint64_t clocks[] = {0, 1, ((uint64_t)1 << 48) - 1, (uint64_t)1 << 48, UINT64_MAX};
    static const uint64_t nexts[] = {0, 1, 65535, 65536, 65537, (uint64_t)1 << 32, UINT64_MAX};
    static const uint64_t wider[] = {256, 65536, (uint64_t)1 << 32, (uint64_t)1 << 63};
    uint64_t clock = clocks[dice_below(5)], next = nexts[dice_below(7)], more = wider[dice_below(4)], wide[PARAMS + 1] = {0};
    uint64_t reopened = answer != 0 ? answer : clock > last_clock ? 4 : next > 65536 ? 7 : 0;
    size_t place = dice_below(PARAMS), count = dice_one_in(2) ? dice_below(PARAMS) : PARAMS + 1, length = STATE_BYTES - 1 + 2 * dice_below(2);
    int again = (int)dice_below(2);
    check_opening(host, params, PARAMS, 0, clock, next, STATE_BYTES, answer);
    check_opening(host, params, PARAMS, 1, clock, next, STATE_BYTES, reopened);
    check_opening(host, params, PARAMS, again, clock, next, dice_one_in(4) ? 0 : length, 3);
    check_opening(host + more, params, PARAMS, again, clock, next, STATE_BYTES, 12);
    memcpy(wide, params, PARAMS * sizeof *wide);
    wide[PARAMS - 1] = 0;
    check_opening(host, wide, count, again, clock, next, STATE_BYTES, answer == 12 ? 12 : 13);
    memcpy(wide, params, PARAMS * sizeof *wide);
    wide[place] += place == PARAMS - 1 && more == 256 ? 65536 : more;
    check_opening(host, wide, PARAMS, again, clock, next, STATE_BYTES, answer == 12 ? 12 : place < PARAMS - 1 || answer == 13 ? 13 : 14);
}

/* ---- checks */

/* A clock above the last is refused as 4, but for a state that is not sound, which is refused as 3 before. */
int is_sound(const uint8_t *state)
{
    struct action action = {FIRE, UINT64_MAX, 0, 0, NULL, 0};
    uint64_t reason = call_reason(state, STATE_BYTES, FIRE, &action);
    if (reason != 3 && reason != 4)
        fail("cuelink_reason answers %" PRIu64 " to a Fire at 2^64-1, not 3 or 4", reason);
    return reason == 4;
}

/* A number above 10 is no event's, whatever the state. */
static void check_no_event(const uint8_t *state)
{
    static const uint64_t events[] = {11, 12, 255, 256, 267, 65536, (uint64_t)1 << 32, UINT64_MAX};
    struct action action = {FIRE, number_at(state + AT_CLOCK, 8), 0, 0, NULL, 0};
    uint64_t event = events[dice_below(8)], reason = call_reason(state, STATE_BYTES, event, &action);
    if (reason != answer_of(NO_EVENT, 0, 0))
        fail("cuelink_reason answers %" PRIX64 " to event %" PRIu64 ", which is none", reason, event);
}

void check_state(const uint8_t *state)
{
    uint64_t due, wanted;
    if (!check_looks(state, STATE_BYTES, dice_below(10)))
        fail("a call has left bytes that are no state's");
    due = call_due(state, STATE_BYTES);
    wanted = is_sound(state) ? least_due(state) : nothing_to_tell;
    if (due != wanted)
        fail("cuelink_due tells %" PRIu64 " and not %" PRIu64, due, wanted);
    if (dice_one_in(8))
        check_no_event(state);
}

/* What a Fire at a clock answers, as a kind; it is made on a copy. */
static uint64_t fired(const uint8_t *state, uint64_t clock)
{
    static uint8_t copy[STATE_BYTES], out[128];
    static const uint16_t draws[64];
    struct action action = {FIRE, clock, 0, 0, NULL, 0};
    struct around around = {draws, 64, out, sizeof out};
    memcpy(copy, state, STATE_BYTES);
    return call_event(copy, STATE_BYTES, &action, &around) >> 32;
}

void check_fires(const uint8_t *state)
{
    uint64_t due = call_due(state, STATE_BYTES), clock = number_at(state + AT_CLOCK, 8), from = due < clock ? clock : due;
    uint64_t before = due > last_clock ? last_clock : due - 1;
    if (state[AT_STATUS] != MEMBER || !is_sound(state))
        return;
    if (due > clock && fired(state, before) != NOTHING)
        fail("something is put out at %" PRIu64 ", before cuelink_due, %" PRIu64, before, due);
    if (from <= last_clock && fired(state, from) != OUT)
        fail("nothing is put out at %" PRIu64 ", with cuelink_due at %" PRIu64, from, due);
}

/* Both actions, each on a copy of the state and the output, leave the same. */
static void check_alike(const uint8_t *state, const struct action *one, const struct action *other, const struct around *around)
{
    static uint8_t states[2][STATE_BYTES], outs[2][200];
    const struct action *actions[2];
    uint64_t answers[2], reasons[2];
    int i;
    actions[0] = one;
    actions[1] = other;
    for (i = 0; i < 2; i++) {
        struct around mine = *around;
        mine.out = outs[i];
        memcpy(states[i], state, STATE_BYTES);
        memset(outs[i], 0xA5, sizeof outs[i]);
        reasons[i] = call_reason(states[i], STATE_BYTES, one->event, actions[i]);
        answers[i] = call_event(states[i], STATE_BYTES, actions[i], &mine);
    }
    if (answers[0] != answers[1] || reasons[0] != reasons[1] || memcmp(states[0], states[1], STATE_BYTES) != 0 || memcmp(outs[0], outs[1], 200) != 0)
        fail("event %d with source %" PRIu64 ", number %" PRIu64 ", %lu bytes answers %" PRIX64 " (reason %" PRIX64 "), and %" PRIX64 " (%" PRIX64 ")",
             one->event, one->source, one->number, (unsigned long)one->length, answers[0], reasons[0], answers[1], reasons[1]);
}

void check_wide(const uint8_t *state, const struct action *action, const struct around *around)
{
    static const uint64_t wider[] = {8, 255, 256, 65536, (uint64_t)1 << 32, (uint64_t)1 << 63, UINT64_MAX - 7};
    static const uint64_t further[] = {65536, 131072, (uint64_t)1 << 32, (uint64_t)1 << 48, (uint64_t)1 << 63, UINT64_MAX - 65535};
    static uint8_t outside[CUE_BYTES], bytes[CUE_BYTES + 8];
    struct action wide = *action, nearest = *action;
    if (action->event == FETCH) {
        nearest.source = 255;
        if (dice_one_in(2))
            wide.source = wider[dice_below(7)] + action->source % HOSTS;
        else
            wide.number = further[dice_below(6)] + action->number;
        check_alike(state, &wide, &nearest, around);
    } else if (action->event == SEND) {
        memset(outside, 255, sizeof outside);
        memcpy(bytes, action->bytes, CUE_BYTES);
        nearest.bytes = outside;
        wide.bytes = bytes;
        wide.length = dice_one_in(2) ? dice_below(CUE_BYTES) : CUE_BYTES + 1 + dice_below(8);
        check_alike(state, &wide, &nearest, around);
    }
}

void run_past(const char *way)
{
    static uint8_t state[STATE_BYTES], out[128];
    static const uint64_t params[PARAMS] = {9, 8, 4, 4, 4, 8, 0};
    static const uint16_t draws[64];
    static const uint8_t cue[CUE_BYTES];
    cuelink_open(0, params, PARAMS, state, STATE_BYTES);
    state[AT_STATUS] = MEMBER;
    if (strcmp(way, "read-past") == 0)
        cuelink_clock(lend_read(LENT_STATE, state, STATE_BYTES - RECORD_BYTES), STATE_BYTES);
    if (strcmp(way, "write-past") == 0)
        cuelink_send(state, STATE_BYTES, 0, draws, 64, cue, CUE_BYTES, lend(LENT_OUT, out, 39), 128);
}
