#include "play_damage.h"
#include "play_check.h"

#include <inttypes.h>
#include <stdio.h>
#include <string.h>

enum { MOST_DAMAGED = 32768, TIMES = 8 };

/* ---- damaging */

/* A place of the state, mostly one that something stands at. */
static size_t some_place(const uint8_t *state)
{
    size_t source = dice_below(HOSTS);
    const uint8_t *from = source_in(state, (int)source);
    struct span span;
    size_t place = dice_below(PLACES);
    read_span(from, &span);
    if (span.open && span.first <= span.last && span.last - span.first < PLACES)
        place = (span.first + dice_below((uint64_t)(span.last - span.first) + 1)) % PLACES;
    switch (dice_below(8)) {
    case 0:
        return dice_below(AT_SOURCES);
    case 1:
    case 2:
        return AT_SOURCES + source * SOURCE_BYTES + dice_below(AT_ATTEMPTS);
    case 3:
        return AT_SOURCES + source * SOURCE_BYTES + AT_ATTEMPTS + dice_below(2 * PLACES);
    case 4:
        return dice_below(STATE_BYTES);
    case 5:
        return AT_SOURCES + source * SOURCE_BYTES + AT_RECORDS + place * RECORD_BYTES;
    default:
        return AT_SOURCES + source * SOURCE_BYTES + AT_RECORDS + place * RECORD_BYTES + dice_below(RECORD_BYTES);
    }
}

static uint8_t some_byte(uint8_t old)
{
    switch (dice_below(6)) {
    case 0:
        return (uint8_t)dice_below(256);
    case 1:
        return (uint8_t)(old ^ 1u << dice_below(8));
    case 2:
        return (uint8_t)(old + 1);
    case 3:
        return (uint8_t)(old - 1);
    case 4:
        return (uint8_t)dice_below(6);
    default:
        return dice_one_in(2) ? 0 : 255;
    }
}

/* A part of another end, at its own place. */
static void splice(uint8_t *state, const uint8_t *other)
{
    size_t source = AT_SOURCES + dice_below(HOSTS) * SOURCE_BYTES;
    size_t record = source + AT_RECORDS + dice_below(PLACES) * RECORD_BYTES;
    switch (dice_below(4)) {
    case 0:
        memcpy(state, other, AT_SOURCES);
        break;
    case 1:
        memcpy(state + source, other + source, SOURCE_BYTES);
        break;
    case 2:
        memcpy(state + source, other + source, AT_RECORDS);
        break;
    default:
        memcpy(state + record, other + record, RECORD_BYTES);
    }
}

/* Damages the state; how many bytes it has then. Those past its end are 0. */
static size_t damaged(const struct bench *b, int end, uint8_t *state)
{
    static const size_t lengths[] = {0, 1, 2, 71, 72, 3955, 31134, 31135, 31137, 31138, 32768};
    size_t i, at, times = 1;
    memset(state + STATE_BYTES, 0, MOST_DAMAGED - STATE_BYTES);
    memcpy(state, b->end[end], STATE_BYTES);
    switch (dice_below(12)) {
    case 0:
        return lengths[dice_below(sizeof lengths / sizeof *lengths)];
    case 1:
        splice(state, b->end[dice_below(ENDS)]);
        return STATE_BYTES;
    case 2:
        for (i = dice_one_in(4) ? 0 : STATE_BYTES; i < STATE_BYTES; i++)
            state[i] = (uint8_t)dice_below(256);
        break;
    case 3:
        times = 2 + dice_below(4);
        break;
    default:
        break;
    }
    for (i = 0; i < times; i++) {
        at = some_place(state);
        state[at] = some_byte(state[at]);
    }
    return STATE_BYTES;
}

/* ---- a call on it */

/* Some event of the state at some clock; what it brings stays until the next one. */
static void some_action(const struct bench *b, const uint8_t *state, struct action *a)
{
    static const uint8_t cue[CUE_BYTES] = {0, 7};
    uint64_t clock = number_at(state + AT_CLOCK, 8);
    memset(a, 0, sizeof *a);
    a->event = (enum event)dice_below(EVENTS);
    a->clock = clock + (dice_one_in(8) ? (uint64_t)0 - 1 : dice_below(3000));
    a->bytes = cue;
    if (a->event == SEND) {
        a->length = CUE_BYTES;
    } else if (a->event == ARRIVAL && b->put_out > 0) {
        uint64_t kept = b->put_out < MESSAGES ? b->put_out : MESSAGES;
        a->bytes = bench_message(b, b->put_out - 1 - dice_below(kept), &a->length);
    } else if (a->event == FETCH) {
        a->source = dice_below(9);
        a->number = dice_below(200);
    }
}

/* A refusal leaves every byte; `number` is what it has to be. */
static void check_refused(const uint8_t *state, size_t length, const struct action *a, size_t draw_count, size_t room, uint64_t number)
{
    static uint8_t copy[MOST_DAMAGED], out[200], filled[200];
    static const uint16_t draws[66];
    struct around around = {draws, draw_count, out, room};
    uint64_t answer;
    memset(out, 0xA5, sizeof out);
    memset(filled, 0xA5, sizeof filled);
    memcpy(copy, state, length);
    answer = call_event(copy, length, a, &around);
    if (answer != number)
        fail("event %d on a damaged state of %lu bytes answers %" PRIX64 " and not refused %" PRIu64, a->event, (unsigned long)length, answer, number);
    if (memcmp(copy, state, length) != 0 || memcmp(out, filled, sizeof out) != 0)
        fail("event %d on a damaged state is refused as %" PRIu64 " and has changed a byte", a->event, number);
}

static void check_no_state(const uint8_t *state, size_t length, const struct action *a)
{
    uint64_t reason = call_reason(state, length, a->event, a), due = call_due(state, length);
    uint64_t no_event = call_reason(state, length, EVENTS + dice_below(300), a);
    check_refused(state, length, a, 64, 128, 3);
    check_refused(state, length, a, dice_one_in(2) ? 63 : 65, 128, 2);
    check_refused(state, length, a, dice_one_in(2) ? 64 : 0, dice_below(128), 1);
    if (reason != 3)
        fail("cuelink_reason answers %" PRIX64 " of bytes that are no state's, not 3", reason);
    if (no_event != answer_of(NO_EVENT, 0, 0))
        fail("cuelink_reason answers %" PRIX64 " to a number above 10, which is no event's, of bytes that are no state's", no_event);
    if (due != nothing_to_tell)
        fail("cuelink_due tells %" PRIu64 " of bytes that are no state's", due);
    check_looks(state, length, dice_below(HOSTS));
}

/* ---- the state as lines of a trace, on end 9 after a start */

static uint64_t at_most(uint64_t number, uint64_t most)
{
    return number < most ? number : most;
}

static void print_source(const uint8_t *state, int source)
{
    const uint8_t *from = source_in(state, source);
    uint64_t missed = number_at(from + AT_MISSED, 4), distance = number_at(from + AT_DISTANCE, 8);
    struct span span;
    struct pair pair;
    struct heard heard;
    struct origin origin;
    read_span(from, &span);
    read_pair(from, &pair);
    read_heard(from, &heard);
    read_origin(from, &origin);
    if (span.open)
        printf("9 set span %d %d %d\n", source, span.first, span.last);
    if (missed > 0)
        printf("9 set missed %d %" PRIu64 "\n", source, missed);
    if (pair.kept)
        printf("9 set pair %d %d %d %d\n", source, pair.requester, pair.sender, pair.number);
    if (distance != (source == 0 ? 0 : 40))
        printf("9 set distance %d %" PRIu64 "\n", source, distance);
    if (heard.heard)
        printf("9 set heard %d %" PRIu64 " %" PRIu64 " %d\n", source, heard.stamp, heard.when, heard.sources);
    if (origin.known)
        printf("9 set origin %d %d\n", source, origin.number);
}

static void print_place(const uint8_t *state, int source, int place)
{
    const uint8_t *from = source_in(state, source);
    struct attempt attempt;
    struct record record;
    struct text cue;
    int i;
    read_attempt(from, place, &attempt);
    read_record(record_in(from, place), &record);
    if (attempt.tried != 0 || attempt.late)
        printf("9 set attempt %d %d %d %d\n", source, place, attempt.tried, attempt.late);
    if (record.body == HELD && !record.has_reply)
        printf("9 set held %d %d\n", source, place);
    if (record.has_reply)
        printf("9 set reply %d %d %" PRIu64 " %d\n", source, place, record.reply_due, record.requester);
    if (record.body == WAITING)
        printf("9 set waits %d %d %d %" PRIu64 " %" PRIu64, source, place, record.round, record.due, record.quiet);
    if (record.has_express)
        printf(" express %" PRIu64, record.express);
    if (record.body == WAITING)
        printf("\n");
    if (record.hush > 0)
        printf("9 set hush %d %d %" PRIu64 "\n", source, place, record.hush);
    for (i = 0; i < CUE_BYTES && record.cue[i] == 0; i++)
        ;
    if (i < CUE_BYTES) {
        text_clear(&cue);
        text_hex(&cue, record.cue, CUE_BYTES);
        printf("9 set cue %d %d bytes %s\n", source, place, cue.bytes);
    }
}

/* A parameter is printed up to 255, E up to 65,535: what is above is out of range as these are. */
static void print_state(const uint8_t *state)
{
    int i, place;
    printf("start\n9 set host %d\n9 set params", state[AT_HOST]);
    for (i = 0; i < PARAMS; i++)
        printf(" %" PRIu64, at_most(number_at(state + AT_PARAMS + 8 * i, 8), i < 6 ? 255 : 65535));
    printf("\n9 set clock %" PRIu64 "\n9 set status %s\n", number_at(state + AT_CLOCK, 8), status_words[state[AT_STATUS]]);
    printf("9 set next %" PRIu64 "\n", number_at(state + AT_NEXT, 4));
    for (i = 0; i < HOSTS; i++) {
        print_source(state, i);
        for (place = 0; place < PLACES; place++)
            print_place(state, i, place);
    }
}

static void print_action(const struct action *a)
{
    struct text bytes;
    text_clear(&bytes);
    text_hex(&bytes, a->bytes, a->length);
    printf("%s %" PRIu64, event_words[a->event], a->clock);
    if (a->event == SEND || a->event == ARRIVAL)
        printf(" bytes %s", bytes.bytes);
    else if (a->event == FETCH)
        printf(" %" PRIu64 " %" PRIu64, a->source, a->number);
}

/* The library's answers on a state, printed as what is expected. */
static void ask_twin(const uint8_t *state, const struct action *a)
{
    static uint8_t copy[STATE_BYTES], out[128];
    static const uint16_t draws[64];
    struct around around = {draws, 64, out, sizeof out};
    struct text answer, reason;
    uint64_t number;
    memcpy(copy, state, STATE_BYTES);
    text_clear(&answer);
    text_clear(&reason);
    text_reason(&reason, call_reason(copy, STATE_BYTES, a->event, a));
    number = call_event(copy, STATE_BYTES, a, &around);
    if (number >> 32 == REFUSED && memcmp(copy, state, STATE_BYTES) != 0)
        fail("event %d on a damaged state is refused as %" PRIu64 " and has changed a byte", a->event, number);
    text_answer(&answer, number, out);
    print_state(state);
    printf("9 why ");
    print_action(a);
    printf(" = %s\n9 ", reason.bytes);
    print_action(a);
    printf(" = %s\n", answer.bytes);
}

void damage_end(const struct bench *b, int end, struct damage *damage)
{
    static uint8_t state[MOST_DAMAGED];
    struct action action;
    int i;
    for (i = 0; i < TIMES; i++) {
        size_t length = damaged(b, end, state);
        some_action(b, state, &action);
        damage->all++;
        if (!is_state(state, length)) {
            check_no_state(state, length, &action);
            continue;
        }
        damage->forms++;
        damage->sound += (unsigned long)is_sound(state);
        check_state(state);
        check_fires(state);
        ask_twin(state, &action);
    }
}

void damage_every_byte(const struct bench *b, int end, struct damage *damage)
{
    static uint8_t state[STATE_BYTES];
    struct action fire = {FIRE, 0, 0, 0, NULL, 0};
    size_t at;
    memcpy(state, b->end[end], STATE_BYTES);
    fire.clock = number_at(state + AT_CLOCK, 8);
    for (at = 0; at < STATE_BYTES; at++) {
        uint8_t old = state[at], new = some_byte(old);
        state[at] = new == old ? (uint8_t)~old : new;
        damage->all++;
        if (check_looks(state, STATE_BYTES, dice_below(HOSTS)))
            damage->forms++;
        else
            check_refused(state, STATE_BYTES, &fire, 64, 128, 3);
        state[at] = old;
    }
}
