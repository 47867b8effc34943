#include "call.h"

#include <inttypes.h>
#include <stdio.h>
#include <stdlib.h>
#include <string.h>

#include "form.h"

const char *const call_names[CALLS] = {
    "open", "reopen", "display_open",
    "join", "joined", "leave", "left", "crash", "fire", "report", "announce", "send", "arrival", "fetch",
    "reason", "due", "host", "clock", "status", "next", "first", "last", "missed", "origin", "distance",
    "display_hear", "display_step", "display_own", "display_sender", "display_clock", "display_trail", "display_lead",
    "windows_find", "date_roll", "size", "display_size"};

unsigned long calls_made[CALLS];

static enum place place = PLAIN;
enum { STATE_MOST = FORM_SIZE + 4096, OUT_MOST = 4096, IN_MOST = 16384 };
static struct pages state_pages, out_pages, lost_pages, draws_pages, params_pages, bytes_pages;

void lend_at(enum place where)
{
    place = where;
    if (where == PLAIN || state_pages.size > 0)
        return;
    state_pages = pages_for(STATE_MOST, 1);
    out_pages = pages_for(OUT_MOST, 1);
    lost_pages = pages_for(OUT_MOST, 1);
    draws_pages = pages_for(OUT_MOST, 0);
    params_pages = pages_for(IN_MOST, 0);
    bytes_pages = pages_for(IN_MOST, 0);
}

const char *words(uint64_t answer)
{
    static const char *const kinds[] = {"refused", "out", "got", "done", "ignored", "nothing", "clash", "late", "exhausted", "reason", "no event", "at"};
    static char said[2][64];
    static int turn;
    char *to = said[turn ^= 1];
    unsigned kind = cuelink_kind(answer);
    if (answer == CUELINK_NONE)
        return "none";
    if (kind > CUELINK_AT)
        snprintf(to, sizeof said[0], "%" PRIu64, answer);
    else if (kind == CUELINK_GOT || kind == CUELINK_CLASH || kind == CUELINK_LATE)
        snprintf(to, sizeof said[0], "%s %u %u", kinds[kind], cuelink_source(answer), cuelink_cue_number(answer));
    else
        snprintf(to, sizeof said[0], "%s (%" PRIu64 ")", kinds[kind], answer & UINT32_MAX);
    return to;
}

static void broken(const struct call *c, uint64_t answer, const char *what)
{
    fprintf(stderr, "cuelink_%s answers %s: %s\n", call_names[c->what], words(answer), what);
    exit(1);
}

static int is_event(enum what what)
{
    return what >= JOIN && what <= FETCH;
}

/* ---- the calls themselves */

static uint64_t event(const struct call *c)
{
    typedef uint64_t plain(uint8_t *, size_t, uint64_t, const uint16_t *, size_t, uint8_t *, size_t);
    static plain *const moves[] = {cuelink_join,  cuelink_joined, cuelink_leave,  cuelink_left,
                                   cuelink_crash, cuelink_fire,   cuelink_report, cuelink_announce};
    switch (c->what) {
    case SEND:
        return cuelink_send(c->state, c->state_len, c->clock, c->draws, c->draws_len, c->bytes, c->bytes_len, c->out, c->out_len);
    case ARRIVAL:
        return cuelink_arrival(c->state, c->state_len, c->clock, c->draws, c->draws_len, c->bytes, c->bytes_len, c->out, c->out_len);
    case FETCH:
        return cuelink_fetch(c->state, c->state_len, c->clock, c->draws, c->draws_len, c->number[0], c->number[1], c->out, c->out_len);
    default:
        return moves[c->what - JOIN](c->state, c->state_len, c->clock, c->draws, c->draws_len, c->out, c->out_len);
    }
}

static uint64_t look(const struct call *c)
{
    typedef uint64_t plain(const uint8_t *, size_t);
    typedef uint64_t of_one(const uint8_t *, size_t, uint64_t);
    static plain *const looks[] = {cuelink_due, cuelink_host, cuelink_clock, cuelink_status, cuelink_next};
    static of_one *const of_ones[] = {cuelink_first, cuelink_last, cuelink_missed, cuelink_origin, cuelink_distance};
    static plain *const shown[] = {cuelink_display_own, cuelink_display_sender, cuelink_display_clock, cuelink_display_trail,
                                   cuelink_display_lead};
    if (c->what >= SHOWN_OWN)
        return shown[c->what - SHOWN_OWN](c->state, c->state_len);
    if (c->what >= FIRST)
        return of_ones[c->what - FIRST](c->state, c->state_len, c->number[0]);
    return looks[c->what - DUE](c->state, c->state_len);
}

static uint64_t direct(const struct call *c)
{
    const uint64_t *n = c->number;
    switch (c->what) {
    case OPEN:
        return cuelink_open(n[0], c->params, c->params_len, c->state, c->state_len);
    case REOPEN:
        return cuelink_reopen(n[0], c->params, c->params_len, c->clock, n[1], c->state, c->state_len);
    case DISPLAY_OPEN:
        return cuelink_display_open(n[0], n[1], c->state, c->state_len);
    case REASON:
        return cuelink_reason(c->state, c->state_len, c->clock, n[0], n[1], n[2], c->bytes, c->bytes_len);
    case HEAR:
        return cuelink_display_hear(c->state, c->state_len, c->clock, c->bytes, c->bytes_len, c->lost, c->lost_len, c->out, c->out_len);
    case STEP:
        return cuelink_display_step(c->state, c->state_len, c->clock, c->out, c->out_len);
    case FIND:
        return cuelink_windows_find(c->params, c->params_len, n[0], n[1], n[2], n[3]);
    case ROLL:
        return cuelink_date_roll(n[0], n[1], n[2]);
    case SIZE:
        return cuelink_size();
    case DISPLAY_SIZE:
        return cuelink_display_size();
    default:
        return is_event(c->what) ? event(c) : look(c);
    }
}

/* ---- between guarded pages */

/* A buffer as the call left it, brought back to the test's own; nothing beside it was written. */
static void bring_back(const struct call *c, uint64_t answer, const struct pages *p, void *to, size_t length)
{
    if (!pages_whole(p, place, length))
        broken(c, answer, "a byte beside a buffer was written");
    if (length > 0)
        memcpy(to, pages_bytes(p, place, length), length);
}

static uint64_t guarded(const struct call *c)
{
    struct call g = *c;
    uint64_t answer;
    g.state = pages_lend(&state_pages, place, c->state, c->state_len);
    g.out = pages_lend(&out_pages, place, c->out, c->out_len);
    g.lost = pages_lend(&lost_pages, place, c->lost, c->lost_len * sizeof *c->lost);
    g.draws = pages_lend(&draws_pages, place, c->draws, c->draws_len * sizeof *c->draws);
    g.params = pages_lend(&params_pages, place, c->params, c->params_len * sizeof *c->params);
    g.bytes = pages_lend(&bytes_pages, place, c->bytes, c->bytes_len);
    answer = direct(&g);
    bring_back(c, answer, &state_pages, c->state, c->state_len);
    bring_back(c, answer, &out_pages, c->out, c->out_len);
    bring_back(c, answer, &lost_pages, c->lost, c->lost_len * sizeof *c->lost);
    return answer;
}

/* ---- what holds of every call */

static void hold_answer(const struct call *c, uint64_t answer)
{
    unsigned kind = cuelink_kind(answer);
    int opens = c->what <= DISPLAY_OPEN, acts = is_event(c->what) || c->what == HEAR || c->what == STEP;
    if (opens && answer > CUELINK_BAD_EXPRESS)
        broken(c, answer, "no answer of an opening");
    if (!acts)
        return;
    if (kind > CUELINK_EXHAUSTED)
        broken(c, answer, "no answer of an event");
    if (kind == CUELINK_REFUSED && (answer == 0 || answer > CUELINK_BAD_HOSTS))
        broken(c, answer, "no refusal of an event");
    if (kind == CUELINK_OUT && (cuelink_source(answer) != 0 || answer % 65536 < 12 || answer % 65536 > 127))
        broken(c, answer, "no length of a message");
    if ((kind == CUELINK_GOT || kind == CUELINK_CLASH || kind == CUELINK_LATE) && cuelink_source(answer) > 7)
        broken(c, answer, "no source");
    if ((kind == CUELINK_DONE || kind == CUELINK_IGNORED || kind == CUELINK_NOTHING || kind == CUELINK_EXHAUSTED) && answer % 65536 != 0)
        broken(c, answer, "a value beside an answer that has none");
}

/* How many output bytes an answer accounts for. */
static size_t written(uint64_t answer)
{
    switch (cuelink_kind(answer)) {
    case CUELINK_OUT:
        return cuelink_number(answer);
    case CUELINK_GOT:
    case CUELINK_LATE:
        return CUELINK_CUE;
    default:
        return 0;
    }
}

static void same(const struct call *c, uint64_t answer, const void *before, const void *after, size_t length, const char *what)
{
    if (length > 0 && memcmp(before, after, length) != 0)
        broken(c, answer, what);
}

static void hold_form(const struct call *c, uint64_t answer, int was, int is)
{
    int refused = cuelink_kind(answer) == CUELINK_REFUSED;
    if (!is_event(c->what) && c->what != HEAR && c->what != STEP)
        return;
    if (!was && !(refused && answer <= CUELINK_NOT_SOUND))
        broken(c, answer, "bytes that are no state, and not refused as 1, 2 or 3");
    if (was && !is)
        broken(c, answer, "it left bytes that are no state");
}

static int formed(const struct call *c)
{
    return c->what >= HEAR ? form_is_display(c->state, c->state_len) : form_is(c->state, c->state_len);
}

uint64_t made(const struct call *c)
{
    static uint8_t state[STATE_MOST], out[OUT_MOST];
    uint64_t lost[8], answer;
    size_t lost_bytes = c->lost_len * sizeof *lost, keeps;
    int was, opens = c->what <= DISPLAY_OPEN, acts = is_event(c->what) || c->what == HEAR || c->what == STEP;
    if (c->state_len > sizeof state || c->out_len > sizeof out || lost_bytes > sizeof lost)
        broken(c, 0, "too long a buffer for these tests");
    if (c->state_len > 0)
        memcpy(state, c->state, c->state_len);
    if (c->out_len > 0)
        memcpy(out, c->out, c->out_len);
    if (lost_bytes > 0)
        memcpy(lost, c->lost, lost_bytes);
    was = acts && formed(c);
    answer = place == PLAIN ? direct(c) : guarded(c);
    calls_made[c->what]++;
    hold_answer(c, answer);
    if (!(opens && answer == 0) && (!acts || cuelink_kind(answer) == CUELINK_REFUSED)) {
        same(c, answer, state, c->state, c->state_len, "a byte of the state was changed");
        same(c, answer, lost, c->lost, lost_bytes, "lost was changed");
    }
    keeps = acts ? written(answer) : 0;
    if (c->out_len > keeps)
        same(c, answer, out + keeps, c->out + keeps, c->out_len - keeps, "another output byte was changed");
    hold_form(c, answer, was, acts && (cuelink_kind(answer) == CUELINK_REFUSED || formed(c)));
    return answer;
}
