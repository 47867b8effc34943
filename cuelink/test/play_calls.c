#include "play_calls.h"
#include "play_memory.h"
#include "play_message.h"

#include <inttypes.h>
#include <string.h>

#include "cuelink.h"

const uint64_t nothing_to_tell = UINT64_MAX;

uint64_t answer_of(enum kind kind, uint64_t source, uint64_t number)
{
    return (uint64_t)kind << 32 | source << 16 | number;
}

/* ---- openings */

uint64_t call_open(uint64_t host, const uint64_t *params, size_t count, uint8_t *state, size_t length)
{
    const uint64_t *numbers = lend_read(LENT_NUMBERS, params, count * sizeof *params);
    uint64_t answer = cuelink_open(host, numbers, count, lend(LENT_STATE, state, length), length);
    take_back(LENT_STATE, state);
    memory_after();
    return answer;
}

uint64_t call_reopen(uint64_t host, const uint64_t *params, size_t count, uint64_t clock, uint64_t next, uint8_t *state, size_t length)
{
    const uint64_t *numbers = lend_read(LENT_NUMBERS, params, count * sizeof *params);
    uint64_t answer = cuelink_reopen(host, numbers, count, clock, next, lend(LENT_STATE, state, length), length);
    take_back(LENT_STATE, state);
    memory_after();
    return answer;
}

/* ---- events */

typedef uint64_t plain_call(uint8_t *state, size_t state_len, uint64_t clock, const uint16_t *draws, size_t draws_len, uint8_t *out, size_t out_len);

/* The calls of events that bring nothing. */
static plain_call *const plain_calls[EVENTS] = {
    [JOIN] = cuelink_join, [JOINED] = cuelink_joined, [LEAVE] = cuelink_leave,   [LEFT] = cuelink_left,
    [CRASH] = cuelink_crash, [FIRE] = cuelink_fire,   [REPORT] = cuelink_report, [ANNOUNCE] = cuelink_announce,
};

uint64_t call_event(uint8_t *state, size_t length, const struct action *a, const struct around *around)
{
    uint8_t *s = lend(LENT_STATE, state, length), *out = lend(LENT_OUT, around->out, around->room);
    const uint16_t *draws = lend_read(LENT_DRAWS, around->draws, around->draw_count * sizeof *draws);
    size_t count = around->draw_count, room = around->room;
    uint64_t answer;
    if (a->event == SEND)
        answer = cuelink_send(s, length, a->clock, draws, count, lend_read(LENT_BYTES, a->bytes, a->length), a->length, out, room);
    else if (a->event == ARRIVAL)
        answer = cuelink_arrival(s, length, a->clock, draws, count, lend_read(LENT_BYTES, a->bytes, a->length), a->length, out, room);
    else if (a->event == FETCH)
        answer = cuelink_fetch(s, length, a->clock, draws, count, a->source, a->number, out, room);
    else
        answer = plain_calls[a->event](s, length, a->clock, draws, count, out, room);
    take_back(LENT_STATE, state);
    take_back(LENT_OUT, around->out);
    memory_after();
    return answer;
}

uint64_t call_reason(const uint8_t *state, size_t length, uint64_t event, const struct action *a)
{
    const uint8_t *s = lend_read(LENT_STATE, state, length), *bytes = lend_read(LENT_BYTES, a->bytes, a->length);
    uint64_t answer = cuelink_reason(s, length, a->clock, event, a->source, a->number, bytes, a->length);
    memory_after();
    return answer;
}

uint64_t call_due(const uint8_t *state, size_t length)
{
    uint64_t answer = cuelink_due(lend_read(LENT_STATE, state, length), length);
    memory_after();
    return answer;
}

/* ---- displays and windows */

uint64_t call_display_open(uint64_t own, uint64_t sender, uint8_t *display, size_t length)
{
    uint64_t answer = cuelink_display_open(own, sender, lend(LENT_STATE, display, length), length);
    take_back(LENT_STATE, display);
    memory_after();
    return answer;
}

uint64_t call_display_hear(uint8_t *display, size_t length, uint64_t clock, const uint8_t *bytes, size_t count, uint64_t *lost, size_t lost_count,
                           uint8_t *out, size_t room)
{
    uint8_t *d = lend(LENT_STATE, display, length), *o = lend(LENT_OUT, out, room);
    uint64_t *l = lend(LENT_LOST, lost, lost_count * sizeof *lost);
    uint64_t answer = cuelink_display_hear(d, length, clock, lend_read(LENT_BYTES, bytes, count), count, l, lost_count, o, room);
    take_back(LENT_STATE, display);
    take_back(LENT_LOST, lost);
    take_back(LENT_OUT, out);
    memory_after();
    return answer;
}

uint64_t call_display_step(uint8_t *display, size_t length, uint64_t clock, uint8_t *out, size_t room)
{
    uint8_t *d = lend(LENT_STATE, display, length);
    uint64_t answer = cuelink_display_step(d, length, clock, lend(LENT_OUT, out, room), room);
    take_back(LENT_STATE, display);
    take_back(LENT_OUT, out);
    memory_after();
    return answer;
}

uint64_t call_find(const uint64_t *windows, size_t count, uint64_t year, uint64_t month, uint64_t day, uint64_t minute)
{
    uint64_t answer = cuelink_windows_find(lend_read(LENT_NUMBERS, windows, count * sizeof *windows), count, year, month, day, minute);
    memory_after();
    return answer;
}

/* ---- answers */

/* What a message in the output is about: source and number; of a SESS how many reports and echoes; of kind 24 source, trail and lead. */
static void text_put_out(struct text *text, const uint8_t *out)
{
    text_kind(text, out[0]);
    if (out[0] == SESS)
        text_add(text, " %d %d", out[10], out[11 + 3 * out[10]]);
    else
        text_add(text, " %d %d", out[9], (int)number_at(out + 10, 2));
    if (out[0] == ANNC)
        text_add(text, " %d", (int)number_at(out + 14, 2));
}

void text_answer(struct text *text, uint64_t answer, const uint8_t *out)
{
    static const char *const words[] = {"refused", "out", "got", "done", "ignored", "nothing", "clash", "late", "exhausted"};
    uint64_t kind = answer >> 32, source = answer >> 16 & 65535, number = answer & 65535;
    int named = kind == GOT || kind == CLASH || kind == LATER, numbered = kind == REFUSED || kind == OUT;
    if (kind > EXHAUSTED || (!named && source != 0) || (!named && !numbered && number != 0) || (kind == OUT && number > LONGEST_WRITTEN)) {
        text_add(text, "strange %016" PRIX64, answer);
        return;
    }
    text_add(text, "%s", words[kind]);
    if (named)
        text_add(text, " %d", (int)source);
    if (named || numbered)
        text_add(text, " %d", (int)number);
    if (kind == OUT) {
        text_add(text, " ");
        text_put_out(text, out);
    }
}

void text_reason(struct text *text, uint64_t reason)
{
    static const char *const reasons[] = {"none", "crashed", "wrong status", "own message", "source not open", "below first", "own number above last",
                                          "already held", "reply waiting", "reply-quiet", "request quiet", "no fetch"};
    if (reason >= answer_of(REASON, 0, 0) && reason <= answer_of(REASON, 0, 11))
        text_add(text, "%s", reasons[reason & 65535]);
    else if (reason <= 65535)
        text_add(text, "refused %d", (int)reason);
    else
        text_add(text, "strange %016" PRIX64, reason);
}

size_t accounted(uint64_t answer)
{
    switch (answer >> 32) {
    case OUT:
        return answer & 65535;
    case GOT:
    case LATER:
        return CUE_BYTES;
    default:
        return 0;
    }
}

/* ---- looks */

static void same(const char *which, uint64_t told, uint64_t is)
{
    if (told != is)
        fail("cuelink_%s tells %" PRIu64 " where the bytes have %" PRIu64, which, told, is);
}

int check_looks(const uint8_t *state, size_t length, uint64_t source)
{
    int there = is_state(state, length), at = there && source < HOSTS;
    const uint8_t *from = at ? source_in(state, (int)source) : NULL, *lent = lend_read(LENT_STATE, state, length);
    struct span span = {0, 0, 0};
    struct origin origin = {0, 0};
    if (at) {
        read_span(from, &span);
        read_origin(from, &origin);
    }
    same("host", cuelink_host(lent, length), there ? state[AT_HOST] : nothing_to_tell);
    same("clock", cuelink_clock(lent, length), there ? number_at(state + AT_CLOCK, 8) : nothing_to_tell);
    same("status", cuelink_status(lent, length), there ? state[AT_STATUS] : nothing_to_tell);
    same("next", cuelink_next(lent, length), there ? number_at(state + AT_NEXT, 4) : nothing_to_tell);
    same("first", cuelink_first(lent, length, source), span.open ? span.first : nothing_to_tell);
    same("last", cuelink_last(lent, length, source), span.open ? span.last : nothing_to_tell);
    same("missed", cuelink_missed(lent, length, source), at ? number_at(from + AT_MISSED, 4) : nothing_to_tell);
    same("origin", cuelink_origin(lent, length, source), origin.known ? origin.number : nothing_to_tell);
    same("distance", cuelink_distance(lent, length, source), at ? number_at(from + AT_DISTANCE, 8) : nothing_to_tell);
    memory_after();
    return there;
}

void check_display_looks(const uint8_t *display, size_t length)
{
    struct display d;
    int there = read_display(display, length, &d), started = there && d.started;
    const uint8_t *lent = lend_read(LENT_STATE, display, length);
    same("display_own", cuelink_display_own(lent, length), there ? d.own : nothing_to_tell);
    same("display_sender", cuelink_display_sender(lent, length), there ? d.sender : nothing_to_tell);
    same("display_clock", cuelink_display_clock(lent, length), there ? d.clock : nothing_to_tell);
    same("display_trail", cuelink_display_trail(lent, length), started ? d.trail : nothing_to_tell);
    same("display_lead", cuelink_display_lead(lent, length), started ? d.lead : nothing_to_tell);
    memory_after();
}
