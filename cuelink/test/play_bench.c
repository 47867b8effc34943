#include "play_bench.h"
#include "play_check.h"

#include <inttypes.h>
#include <string.h>

const char *const status_words[] = {"idle", "joining", "member", "leaving", "crashed", NULL};
const char *const event_words[] = {"join", "joined", "leave", "left", "crash", "send", "hear", "fire", "report", "fetch", "announce", NULL};

static const uint64_t standard[PARAMS] = {9, 8, 4, 4, 4, 8, 0};

/* The end beside a refused opening: host 0's, crashed, otherwise fresh. */
static void open_crashed(uint8_t *state)
{
    static const uint16_t draws[64];
    static uint8_t out[128];
    struct action crash = {CRASH, 0, 0, 0, NULL, 0};
    struct around around = {draws, 64, out, sizeof out};
    if (call_open(0, standard, PARAMS, state, STATE_BYTES) != 0 || call_event(state, STATE_BYTES, &crash, &around) != answer_of(DONE, 0, 0))
        fail("host 0 is not opened or does not crash");
}

void bench_start(struct bench *b)
{
    int h;
    for (h = 0; h < SPARE_END; h++)
        if (call_open((uint64_t)h, standard, PARAMS, b->end[h], STATE_BYTES) != 0)
            fail("host %d is not opened", h);
    memcpy(b->end[8], b->end[0], STATE_BYTES);
    memcpy(b->end[9], b->end[0], STATE_BYTES);
    memset(b->draws, 0, sizeof b->draws);
    b->draw_count = 64;
    b->fill = 165;
    memset(b->buffer, b->fill, BUFFER_BYTES);
    b->room = 128;
    b->accounted = 0;
    b->put_out = 0;
}

const uint8_t *bench_message(const struct bench *b, uint64_t number, size_t *length)
{
    if (number >= b->put_out || b->put_out - number > MESSAGES)
        return NULL;
    *length = b->length[number % MESSAGES];
    return b->message[number % MESSAGES];
}

/* ---- what stands in a line */

/* The message that an Arrival brings: one word is the number of one; a kind may be a number too, but more follows it. */
static size_t words_brought(const struct bench *b, struct words *w, uint8_t *bytes)
{
    struct message message;
    size_t length = 0;
    if (words_take(w, "bytes"))
        return words_bytes(w, bytes, MOST_MESSAGE);
    if (w->count - w->next <= 1) {
        const uint8_t *kept = bench_message(b, words_number(w, UINT64_MAX), &length);
        if (kept == NULL)
            w->spoiled = 1;
        else
            memcpy(bytes, kept, length);
        return kept == NULL ? 0 : length;
    }
    words_message(w, &message);
    if (!w->spoiled)
        write_message(&message, bytes, &length);
    return length;
}

/* An event's words after END; its bytes stay until the next one. */
static void words_action(const struct bench *b, struct words *w, struct action *a)
{
    static uint8_t bytes[MOST_MESSAGE];
    memset(a, 0, sizeof *a);
    a->event = (enum event)words_one_of(w, event_words);
    if (w->spoiled)
        return;
    a->clock = words_number(w, UINT64_MAX);
    a->bytes = bytes;
    if (a->event == SEND) {
        words_cue(w, bytes);
        a->length = CUE_BYTES;
    } else if (a->event == ARRIVAL) {
        a->length = words_brought(b, w, bytes);
    } else if (a->event == FETCH) {
        a->source = words_number(w, 255);
        a->number = words_number(w, 65535);
    }
}

/* ---- calls */

/* The whole buffer is filled before each call. */
static void refill(struct bench *b)
{
    memset(b->buffer, b->fill, BUFFER_BYTES);
    b->accounted = 0;
}

static int rest_untouched(const struct bench *b)
{
    size_t i;
    for (i = b->accounted; i < BUFFER_BYTES; i++)
        if (b->buffer[i] != b->fill)
            return 0;
    return 1;
}

static void keep_message(struct bench *b)
{
    memcpy(b->message[b->put_out % MESSAGES], b->buffer, b->accounted);
    b->length[b->put_out % MESSAGES] = b->accounted;
    b->put_out++;
}

/* The line that an event leaves in a run's record, by its host before. */
static void keep_line(const struct bench *b, uint8_t host, struct told *told)
{
    const struct action *a = &told->action;
    enum kind kind = (enum kind)(told->number >> 32);
    text_clear(&told->kept);
    if (kind == DONE && a->event <= CRASH)
        text_add(&told->kept, "%s %d", event_words[a->event], host);
    else if (kind == OUT && a->event == SEND)
        text_add(&told->kept, "send %d %d ", host, (int)number_at(b->buffer + 10, 2));
    else if (kind == GOT)
        text_add(&told->kept, "got %d %d %d ", host, (int)(told->number >> 16 & 65535), (int)(told->number & 65535));
    if (kind == GOT || (kind == OUT && a->event == SEND))
        text_hex(&told->kept, kind == GOT ? b->buffer : a->bytes, CUE_BYTES);
}

/* Opens the end again by what a host stores, and fails unless that is what its Left has left. */
static void reopen(struct bench *b, const uint8_t *before, uint8_t *state)
{
    uint64_t params[PARAMS], clock = number_at(state + AT_CLOCK, 8), next = number_at(before + AT_NEXT, 4);
    static uint8_t opened[STATE_BYTES];
    int i;
    for (i = 0; i < PARAMS; i++)
        params[i] = number_at(before + AT_PARAMS + 8 * i, 8);
    memset(opened, 0xEE, sizeof opened);
    if (call_reopen(before[AT_HOST], params, PARAMS, clock, next, opened, STATE_BYTES) != 0)
        fail("an end is not opened again at clock %" PRIu64 " with next number %" PRIu64, clock, next);
    if (memcmp(opened, state, STATE_BYTES) != 0)
        fail("an end opened again is not what Left leaves, at clock %" PRIu64 " with next number %" PRIu64, clock, next);
    memcpy(state, opened, STATE_BYTES);
    b->restarts++;
}

static void check_after(const uint8_t *before, const uint8_t *state, const struct action *action, const struct around *around)
{
    check_state(state);
    if (dice_one_in(4))
        check_fires(state);
    if (dice_one_in(4))
        check_wide(before, action, around);
}

static void play_event(struct bench *b, int end, int restart, struct told *told)
{
    static uint8_t before[STATE_BYTES];
    uint8_t *state = b->end[end];
    struct around around = {b->draws, b->draw_count, b->buffer, b->room};
    enum kind kind;
    int keeps;
    refill(b);
    memcpy(before, state, STATE_BYTES);
    told->reason = call_reason(state, STATE_BYTES, told->action.event, &told->action);
    told->number = call_event(state, STATE_BYTES, &told->action, &around);
    kind = (enum kind)(told->number >> 32);
    b->accounted = accounted(told->number);
    if (b->accounted > (kind == OUT ? LONGEST_WRITTEN : CUE_BYTES))
        fail("an answer accounts for %lu bytes", (unsigned long)b->accounted);
    keeps = kind == REFUSED || (kind == IGNORED && before[AT_STATUS] == CRASHED);
    told->fault = (keeps && memcmp(before, state, STATE_BYTES) != 0) || !rest_untouched(b) ? " CHANGED" : "";
    text_answer(&told->answer, told->number, b->buffer);
    keep_line(b, before[AT_HOST], told);
    if (kind == OUT)
        keep_message(b);
    if (restart && told->action.event == LEFT && kind != REFUSED)
        reopen(b, before, state);
    if (b->checks)
        check_after(before, state, &told->action, &around);
    told->end = end;
    told->outcome = EVENT;
}

static void play_open(struct bench *b, int end, struct words *w, struct told *told)
{
    uint64_t host = words_number(w, 255), params[PARAMS] = {0}, number;
    uint8_t *state = b->end[end];
    static uint8_t before[STATE_BYTES];
    int i;
    for (i = 0; i < 6; i++)
        params[i] = words_number(w, 255);
    if (!words_over(w))
        params[6] = words_number(w, 65535);
    if (!words_whole(w))
        return;
    refill(b);
    memcpy(before, state, STATE_BYTES);
    number = call_open(host, params, PARAMS, state, STATE_BYTES);
    if (b->checks)
        check_openings(host, params, number);
    if (number == 0) {
        text_add(&told->answer, "opened");
    } else {
        text_add(&told->answer, "refused %" PRIu64, number);
        if (memcmp(before, state, STATE_BYTES) != 0)
            told->fault = " CHANGED";
        open_crashed(state);
    }
    told->end = end;
    told->outcome = OPENED;
}

static void play_why(const struct bench *b, int end, struct told *told)
{
    told->reason = call_reason(b->end[end], STATE_BYTES, told->action.event, &told->action);
    text_reason(&told->answer, told->reason);
    told->outcome = ALONE;
}

/* ---- the reader, the writer and the cue test: what the library says of them is its verdict on an event of a member */

static uint64_t member_verdict(enum event event, const uint8_t *bytes, size_t length)
{
    static uint8_t member[STATE_BYTES];
    struct action action = {event, 0, 0, 0, bytes, length};
    if (call_open(7, standard, PARAMS, member, STATE_BYTES) != 0)
        fail("host 7 is not opened");
    member[AT_STATUS] = MEMBER;
    return call_reason(member, STATE_BYTES, event, &action);
}

static void agree(const char *who, uint64_t verdict, uint64_t number)
{
    if ((verdict >> 32 == REASON ? 0 : verdict) != number)
        fail("%s: the library says %" PRIX64 " and the test's own %" PRIu64, who, verdict, number);
}

/* Whether the writer gives the very bytes back; of an old kind, whether what it gives is read and written again as the same. */
static int reads_back(const struct message *message, const uint8_t *bytes, size_t length)
{
    uint8_t again[MOST_MESSAGE], third[MOST_MESSAGE];
    size_t count, third_count;
    struct message read;
    if (write_message(message, again, &count) != 0)
        return 0;
    if (bytes[0] > 4)
        return count == length && memcmp(again, bytes, length) == 0;
    return read_message(again, count, &read) == 0 && write_message(&read, third, &third_count) == 0 && third_count == count &&
           memcmp(third, again, count) == 0;
}

static void play_read(struct bench *b, struct words *w, struct told *told)
{
    uint8_t bytes[MOST_MESSAGE];
    size_t length = words_bytes(w, bytes, MOST_MESSAGE);
    struct message message;
    int number;
    if (!words_whole(w))
        return;
    refill(b);
    told->outcome = ALONE;
    number = length == 0 ? 0 : read_message(bytes, length, &message);
    agree("reader", member_verdict(ARRIVAL, bytes, length), (uint64_t)number);
    if (length == 0) {
        text_add(&told->answer, "probe");
    } else if (number != 0) {
        text_add(&told->answer, "refused %d", number);
    } else {
        text_add(&told->answer, "accepted ");
        text_message(&told->answer, &message);
        told->fault = reads_back(&message, bytes, length) ? "" : " OTHER BYTES";
    }
}

static void play_write(struct bench *b, struct words *w, struct told *told)
{
    struct message message;
    size_t length = 0;
    int number = 0, probe = words_take(w, "probe");
    uint8_t bytes[MOST_MESSAGE];
    if (!probe)
        words_message(w, &message);
    if (!words_whole(w))
        return;
    refill(b);
    told->outcome = ALONE;
    if (b->room < 128)
        number = 1;
    else if (!probe)
        number = write_message(&message, bytes, &length);
    if (number != 0) {
        text_add(&told->answer, "refused %d", number);
        return;
    }
    agree("writer", member_verdict(ARRIVAL, bytes, length), 0);
    memcpy(b->buffer, bytes, length);
    b->accounted = length;
    text_add(&told->answer, "written %lu ", (unsigned long)length);
    text_hex(&told->answer, b->buffer, length);
}

static void play_test(struct bench *b, struct words *w, struct told *told)
{
    uint8_t cue[CUE_BYTES];
    words_cue(w, cue);
    if (!words_whole(w))
        return;
    refill(b);
    told->outcome = ALONE;
    agree("cue test", member_verdict(SEND, cue, CUE_BYTES), cue_in_range(cue) ? 0 : 6);
    text_add(&told->answer, cue_in_range(cue) ? "in range" : "out of range");
}

/* ---- changing a state, by the layout */

static const char *const fields[] = {"host", "clock", "next", "params", "status", "span", "closed", "missed", "pair", "nopair", "distance", "heard",
                                     "unheard", "origin", "noorigin", "attempt", "empty", "held", "waits", "reply", "cue", "hush", NULL};
enum field { F_HOST, F_CLOCK, F_NEXT, F_PARAMS, F_STATUS, F_SPAN, F_CLOSED, F_MISSED, F_PAIR, F_NOPAIR, F_DISTANCE, F_HEARD, F_UNHEARD, F_ORIGIN,
             F_NOORIGIN, F_ATTEMPT, F_EMPTY, F_HELD, F_WAITS, F_REPLY, F_CUE, F_HUSH };

static void set_own(uint8_t *state, enum field field, struct words *w)
{
    int i, status;
    switch (field) {
    case F_HOST:
        state[AT_HOST] = (uint8_t)words_number(w, 255);
        break;
    case F_CLOCK:
        put_number(state + AT_CLOCK, 8, words_number(w, UINT64_MAX));
        break;
    case F_NEXT:
        put_number(state + AT_NEXT, 4, words_number(w, UINT32_MAX));
        break;
    case F_PARAMS:
        for (i = 0; i < PARAMS; i++)
            put_number(state + AT_PARAMS + 8 * i, 8, words_number(w, i < 6 ? 255 : 65535));
        break;
    default:
        status = words_one_of(w, status_words);
        state[AT_STATUS] = status < 0 ? 0 : (uint8_t)status;
    }
}

static void set_of_source(uint8_t *source, enum field field, struct words *w)
{
    struct span span = {0, 0, 0};
    struct pair pair = {0, 0, 0, 0};
    struct heard heard = {0, 0, 0, 0};
    struct origin origin = {0, 0};
    switch (field) {
    case F_SPAN:
        span.open = 1;
        span.first = (uint16_t)words_number(w, 65535);
        span.last = (uint16_t)words_number(w, 65535);
        put_span(source, span);
        break;
    case F_CLOSED:
        put_span(source, span);
        break;
    case F_MISSED:
        put_number(source + AT_MISSED, 4, words_number(w, UINT32_MAX));
        break;
    case F_PAIR:
        pair.kept = 1;
        pair.requester = (uint8_t)words_number(w, 255);
        pair.sender = (uint8_t)words_number(w, 255);
        pair.number = (uint16_t)words_number(w, 65535);
        put_pair(source, pair);
        break;
    case F_NOPAIR:
        put_pair(source, pair);
        break;
    case F_DISTANCE:
        put_number(source + AT_DISTANCE, 8, words_number(w, UINT64_MAX));
        break;
    case F_HEARD:
        heard.heard = 1;
        heard.stamp = words_number(w, UINT64_MAX);
        heard.when = words_number(w, UINT64_MAX);
        heard.sources = words_over(w) ? 0 : (uint8_t)words_number(w, 255);
        put_heard(source, heard);
        break;
    case F_UNHEARD:
        put_heard(source, heard);
        break;
    case F_ORIGIN:
        origin.known = 1;
        origin.number = (uint16_t)words_number(w, 65535);
        put_origin(source, origin);
        break;
    default:
        put_origin(source, origin);
    }
}

/* The cue and the reply-quiet time of a record stay where another part of it is set. */
static void set_of_place(uint8_t *source, enum field field, struct words *w)
{
    int place = (int)words_number(w, PLACES - 1);
    struct attempt attempt;
    struct record old, new;
    read_record(record_of(source, place), &old);
    memset(&new, 0, sizeof new);
    memcpy(new.cue, old.cue, CUE_BYTES);
    new.hush = old.hush;
    switch (field) {
    case F_ATTEMPT:
        attempt.tried = (uint8_t)words_number(w, 255);
        attempt.late = (int)words_number(w, 1);
        put_attempt(source, place, attempt);
        return;
    case F_EMPTY:
        break;
    case F_HELD:
        new.body = HELD;
        break;
    case F_WAITS:
        new.body = WAITING;
        new.round = (uint8_t)words_number(w, 255);
        new.due = words_number(w, UINT64_MAX);
        new.quiet = words_number(w, UINT64_MAX);
        new.has_express = words_take(w, "express");
        if (new.has_express)
            new.express = words_number(w, UINT64_MAX);
        break;
    case F_REPLY:
        new.body = HELD;
        new.has_reply = 1;
        new.reply_due = words_number(w, UINT64_MAX);
        new.requester = (uint8_t)words_number(w, 255);
        break;
    case F_CUE:
        new = old;
        words_cue(w, new.cue);
        break;
    default:
        new = old;
        new.hush = words_number(w, UINT64_MAX);
    }
    put_record(record_of(source, place), &new);
}

static void play_set(struct bench *b, int end, struct words *w, struct told *told)
{
    static uint8_t changed[STATE_BYTES];
    enum field field = (enum field)words_one_of(w, fields);
    uint8_t *source;
    if (w->spoiled)
        return;
    memcpy(changed, b->end[end], STATE_BYTES);
    if (field <= F_STATUS) {
        set_own(changed, field, w);
    } else {
        source = source_of(changed, (int)words_number(w, HOSTS - 1));
        if (field <= F_NOORIGIN)
            set_of_source(source, field, w);
        else
            set_of_place(source, field, w);
    }
    if (!words_whole(w))
        return;
    memcpy(b->end[end], changed, STATE_BYTES);
    told->outcome = QUIET;
}

/* ---- asking a state */

void text_record(struct text *text, const uint8_t *bytes)
{
    struct record record;
    read_record(bytes, &record);
    if (record.body == EMPTY)
        text_add(text, "empty");
    else if (record.body == HELD)
        text_add(text, "held");
    else
        text_add(text, "waits %d %" PRIu64 " %" PRIu64, record.round, record.due, record.quiet);
    if (record.has_express)
        text_add(text, " express %" PRIu64, record.express);
    if (record.has_reply)
        text_add(text, " reply %" PRIu64 " %d", record.reply_due, record.requester);
    text_add(text, " hush %" PRIu64 " cue ", record.hush);
    text_hex(text, record.cue, CUE_BYTES);
}

static const char *const questions[] = {"clock", "next", "status", "host", "params", "distance", "span", "missed", "pair", "heard", "origin", "attempt",
                                        "record", "same", NULL};
enum question { Q_CLOCK, Q_NEXT, Q_STATUS, Q_HOST, Q_PARAMS, Q_DISTANCE, Q_SPAN, Q_MISSED, Q_PAIR, Q_HEARD, Q_ORIGIN, Q_ATTEMPT, Q_RECORD, Q_SAME };

static void ask_own(struct text *text, const uint8_t *state, enum question question)
{
    int i;
    if (question == Q_CLOCK)
        text_add(text, "%" PRIu64, number_at(state + AT_CLOCK, 8));
    else if (question == Q_NEXT)
        text_add(text, "%" PRIu64, number_at(state + AT_NEXT, 4));
    else if (question == Q_STATUS)
        text_add(text, "%s", status_words[state[AT_STATUS]]);
    else if (question == Q_HOST)
        text_add(text, "%d", state[AT_HOST]);
    else
        for (i = 0; i < PARAMS; i++)
            text_add(text, i == 0 ? "%" PRIu64 : " %" PRIu64, number_at(state + AT_PARAMS + 8 * i, 8));
}

static void ask_source(struct text *text, const uint8_t *source, enum question question)
{
    struct span span;
    struct pair pair;
    struct heard heard;
    struct origin origin;
    read_span(source, &span);
    read_pair(source, &pair);
    read_heard(source, &heard);
    read_origin(source, &origin);
    if (question == Q_DISTANCE)
        text_add(text, "%" PRIu64, number_at(source + AT_DISTANCE, 8));
    else if (question == Q_MISSED)
        text_add(text, "%" PRIu64, number_at(source + AT_MISSED, 4));
    else if (question == Q_SPAN && span.open)
        text_add(text, "%d %d", span.first, span.last);
    else if (question == Q_SPAN)
        text_add(text, "closed");
    else if (question == Q_HEARD && heard.heard)
        text_add(text, "%" PRIu64 " %" PRIu64 " %d", heard.stamp, heard.when, heard.sources);
    else if (question == Q_HEARD)
        text_add(text, "unheard");
    else if (question == Q_PAIR && pair.kept)
        text_add(text, "%d %d %d", pair.requester, pair.sender, pair.number);
    else if (question == Q_ORIGIN && origin.known)
        text_add(text, "%d", origin.number);
    else
        text_add(text, "none");
}

static void play_ask(const struct bench *b, int end, struct words *w, struct told *told)
{
    enum question question = (enum question)words_one_of(w, questions);
    const uint8_t *state = b->end[end];
    struct attempt attempt;
    int source = 0, place = 0, other = 0;
    if (w->spoiled)
        return;
    if (question == Q_SAME)
        other = (int)words_number(w, ENDS - 1);
    else if (question >= Q_DISTANCE)
        source = (int)words_number(w, HOSTS - 1);
    if (question == Q_ATTEMPT || question == Q_RECORD)
        place = (int)words_number(w, PLACES - 1);
    if (!words_whole(w))
        return;
    told->outcome = ASKED;
    check_looks(state, STATE_BYTES, (uint64_t)source);
    read_attempt(source_in(state, source), place, &attempt);
    if (question == Q_SAME)
        text_add(&told->answer, memcmp(state, b->end[other], STATE_BYTES) == 0 ? "same" : "different");
    else if (question == Q_RECORD)
        text_record(&told->answer, record_in(source_in(state, source), place));
    else if (question == Q_ATTEMPT)
        text_add(&told->answer, "%d %d", attempt.tried, attempt.late);
    else if (question >= Q_DISTANCE)
        ask_source(&told->answer, source_in(state, source), question);
    else
        ask_own(&told->answer, state, question);
}

/* ---- lines */

static void play_draws(struct bench *b, struct words *w, struct told *told)
{
    uint16_t draws[MOST_DRAWS];
    size_t count = (size_t)words_number(w, MOST_DRAWS), i;
    uint64_t first = words_number(w, 65535), step = words_number(w, 65535);
    for (i = 0; i < count; i++)
        draws[i] = (uint16_t)(first + i * step);
    if (!words_whole(w))
        return;
    memcpy(b->draws, draws, count * sizeof *draws);
    b->draw_count = count;
    told->outcome = QUIET;
}

static void play_each(struct bench *b, struct words *w, struct told *told)
{
    uint16_t draws[MOST_DRAWS];
    size_t count = 0;
    do
        draws[count++] = (uint16_t)words_number(w, 65535);
    while (!words_over(w) && count < MOST_DRAWS);
    if (!words_whole(w))
        return;
    memcpy(b->draws, draws, count * sizeof *draws);
    b->draw_count = count;
    told->outcome = QUIET;
}

static void play_draw(struct bench *b, struct words *w, struct told *told)
{
    uint64_t place = words_number(w, MOST_DRAWS - 1), value = words_number(w, 65535);
    if (!words_whole(w))
        return;
    b->draws[place] = (uint16_t)value;
    told->outcome = QUIET;
}

static void play_on_end(struct bench *b, int end, struct words *w, int restart, struct told *told)
{
    if (words_take(w, "open")) {
        play_open(b, end, w, told);
    } else if (words_take(w, "set")) {
        play_set(b, end, w, told);
    } else if (words_take(w, "ask")) {
        play_ask(b, end, w, told);
    } else if (words_take(w, "copy")) {
        int other = (int)words_number(w, ENDS - 1);
        if (!words_whole(w))
            return;
        memmove(b->end[end], b->end[other], STATE_BYTES);
        told->outcome = QUIET;
    } else if (words_take(w, "show")) {
        told->end = end;
        told->outcome = words_whole(w) ? SHOWN : BAD;
    } else {
        int why = words_take(w, "why");
        words_action(b, w, &told->action);
        if (!words_whole(w))
            return;
        if (why) {
            refill(b);
            play_why(b, end, told);
        } else {
            play_event(b, end, restart, told);
        }
    }
}

static void play_start(struct bench *b, struct words *w, struct told *told)
{
    if (!words_whole(w))
        return;
    bench_start(b);
    told->outcome = QUIET;
}

static void play_room(struct bench *b, struct words *w, struct told *told)
{
    uint64_t room = words_number(w, BUFFER_BYTES);
    if (!words_whole(w))
        return;
    b->room = (size_t)room;
    told->outcome = QUIET;
}

static void play_fill(struct bench *b, struct words *w, struct told *told)
{
    uint64_t fill = words_number(w, 255);
    if (!words_whole(w))
        return;
    b->fill = (uint8_t)fill;
    told->outcome = QUIET;
}

static void play_ask_output(struct bench *b, struct words *w, struct told *told)
{
    if (!words_take(w, "output") || !words_whole(w))
        return;
    text_hex(&told->answer, b->buffer, b->accounted);
    told->outcome = ASKED;
}

/* The lines that begin with no end. */
static const struct {
    const char *word;
    void (*play)(struct bench *b, struct words *w, struct told *told);
} first_words[] = {
    {"start", play_start}, {"draws", play_draws}, {"draw", play_draw},   {"each", play_each}, {"room", play_room},
    {"fill", play_fill},   {"read", play_read},   {"write", play_write}, {"test", play_test}, {"ask", play_ask_output},
};

void bench_play(struct bench *b, const char *line, size_t length, int restart, struct told *told)
{
    static struct words w;
    size_t i;
    int end;
    words_split(&w, line, length);
    told->outcome = BAD;
    told->fault = "";
    text_clear(&told->answer);
    for (i = 0; i < sizeof first_words / sizeof *first_words; i++)
        if (words_take(&w, first_words[i].word)) {
            first_words[i].play(b, &w, told);
            return;
        }
    end = (int)words_number(&w, ENDS - 1);
    if (!w.spoiled)
        play_on_end(b, end, &w, restart, told);
}
