#include "play_layout.h"

#include <string.h>

void put_number(uint8_t *bytes, int width, uint64_t number)
{
    int i;
    for (i = width - 1; i >= 0; i--) {
        bytes[i] = (uint8_t)number;
        number >>= 8;
    }
}

uint8_t *source_of(uint8_t *state, int source)
{
    return state + AT_SOURCES + source * SOURCE_BYTES;
}

const uint8_t *source_in(const uint8_t *state, int source)
{
    return state + AT_SOURCES + source * SOURCE_BYTES;
}

uint8_t *record_of(uint8_t *source, int place)
{
    return source + AT_RECORDS + place * RECORD_BYTES;
}

const uint8_t *record_in(const uint8_t *source, int place)
{
    return source + AT_RECORDS + place * RECORD_BYTES;
}

/* ---- the parts, read */

int read_span(const uint8_t *source, struct span *span)
{
    const uint8_t *at = source + AT_SPAN;
    memset(span, 0, sizeof *span);
    if (at[0] > 1)
        return 0;
    span->open = at[0];
    if (span->open) {
        span->first = (uint16_t)number_at(at + 1, 2);
        span->last = (uint16_t)number_at(at + 3, 2);
    }
    return 1;
}

int read_pair(const uint8_t *source, struct pair *pair)
{
    const uint8_t *at = source + AT_PAIR;
    memset(pair, 0, sizeof *pair);
    if (at[0] > 1)
        return 0;
    pair->kept = at[0];
    if (pair->kept) {
        pair->requester = at[1];
        pair->sender = at[2];
        pair->number = (uint16_t)number_at(at + 3, 2);
    }
    return 1;
}

int read_heard(const uint8_t *source, struct heard *heard)
{
    const uint8_t *at = source + AT_HEARD;
    memset(heard, 0, sizeof *heard);
    if (at[0] > 1)
        return 0;
    heard->heard = at[0];
    if (heard->heard) {
        heard->stamp = number_at(at + 1, 8);
        heard->when = number_at(at + 9, 8);
        heard->sources = at[17];
    }
    return 1;
}

int read_origin(const uint8_t *source, struct origin *origin)
{
    const uint8_t *at = source + AT_ORIGIN;
    memset(origin, 0, sizeof *origin);
    if (at[0] > 1)
        return 0;
    origin->known = at[0];
    if (origin->known)
        origin->number = (uint16_t)number_at(at + 1, 2);
    return 1;
}

int read_attempt(const uint8_t *source, int place, struct attempt *attempt)
{
    const uint8_t *at = source + AT_ATTEMPTS + 2 * place;
    attempt->tried = at[0];
    attempt->late = at[1];
    return at[1] <= 1;
}

int read_record(const uint8_t *record, struct record *read)
{
    uint8_t tag = record[0], small = record[1];
    const uint8_t *a = record + 2, *b = record + 10, *c = record + 18;
    memset(read, 0, sizeof *read);
    memcpy(read->cue, record + 26, CUE_BYTES);
    read->hush = number_at(record + 50, 8);
    if (tag > 4)
        return 0;
    read->body = tag == 0 ? EMPTY : tag <= 2 ? HELD : WAITING;
    if (tag == 2) {
        read->has_reply = 1;
        read->requester = small;
        read->reply_due = number_at(a, 8);
    }
    if (read->body == WAITING) {
        read->round = small;
        read->due = number_at(a, 8);
        read->quiet = number_at(b, 8);
    }
    if (tag == 4) {
        read->has_express = 1;
        read->express = number_at(c, 8);
    }
    return 1;
}

/* ---- the parts, written */

void put_span(uint8_t *source, struct span span)
{
    uint8_t *at = source + AT_SPAN;
    at[0] = span.open != 0;
    put_number(at + 1, 2, span.open ? span.first : 0);
    put_number(at + 3, 2, span.open ? span.last : 0);
}

void put_pair(uint8_t *source, struct pair pair)
{
    uint8_t *at = source + AT_PAIR;
    at[0] = pair.kept != 0;
    at[1] = pair.kept ? pair.requester : 0;
    at[2] = pair.kept ? pair.sender : 0;
    put_number(at + 3, 2, pair.kept ? pair.number : 0);
}

void put_heard(uint8_t *source, struct heard heard)
{
    uint8_t *at = source + AT_HEARD;
    at[0] = heard.heard != 0;
    put_number(at + 1, 8, heard.heard ? heard.stamp : 0);
    put_number(at + 9, 8, heard.heard ? heard.when : 0);
    at[17] = heard.heard ? heard.sources : 0;
}

void put_origin(uint8_t *source, struct origin origin)
{
    uint8_t *at = source + AT_ORIGIN;
    at[0] = origin.known != 0;
    put_number(at + 1, 2, origin.known ? origin.number : 0);
}

void put_attempt(uint8_t *source, int place, struct attempt attempt)
{
    uint8_t *at = source + AT_ATTEMPTS + 2 * place;
    at[0] = attempt.tried;
    at[1] = attempt.late != 0;
}

void put_record(uint8_t *record, const struct record *written)
{
    memset(record, 0, RECORD_BYTES);
    if (written->body == HELD) {
        record[0] = written->has_reply ? 2 : 1;
        if (written->has_reply) {
            record[1] = written->requester;
            put_number(record + 2, 8, written->reply_due);
        }
    } else if (written->body == WAITING) {
        record[0] = written->has_express ? 4 : 3;
        record[1] = written->round;
        put_number(record + 2, 8, written->due);
        put_number(record + 10, 8, written->quiet);
        if (written->has_express)
            put_number(record + 18, 8, written->express);
    }
    memcpy(record + 26, written->cue, CUE_BYTES);
    put_number(record + 50, 8, written->hush);
}

/* ---- the whole */

/* Reads a source and writes it again; 0 where it cannot be read. */
static int copy_source(const uint8_t *from, uint8_t *to)
{
    struct span span;
    struct pair pair;
    struct heard heard;
    struct origin origin;
    struct attempt attempt;
    struct record record;
    int place;
    if (!read_span(from, &span) || !read_pair(from, &pair) || !read_heard(from, &heard) || !read_origin(from, &origin))
        return 0;
    put_span(to, span);
    put_number(to + AT_MISSED, 4, number_at(from + AT_MISSED, 4));
    put_pair(to, pair);
    put_number(to + AT_DISTANCE, 8, number_at(from + AT_DISTANCE, 8));
    put_heard(to, heard);
    put_origin(to, origin);
    for (place = 0; place < PLACES; place++) {
        if (!read_attempt(from, place, &attempt) || !read_record(record_in(from, place), &record))
            return 0;
        put_attempt(to, place, attempt);
        put_record(record_of(to, place), &record);
    }
    return 1;
}

int is_state(const uint8_t *bytes, size_t length)
{
    static uint8_t again[STATE_BYTES];
    int i;
    if (length != STATE_BYTES || bytes[AT_STATUS] > CRASHED)
        return 0;
    memset(again, 0, sizeof again);
    again[0] = 0xCE;
    again[1] = 0x01;
    again[AT_HOST] = bytes[AT_HOST];
    for (i = 0; i < PARAMS; i++)
        put_number(again + AT_PARAMS + 8 * i, 8, number_at(bytes + AT_PARAMS + 8 * i, 8));
    put_number(again + AT_CLOCK, 8, number_at(bytes + AT_CLOCK, 8));
    again[AT_STATUS] = bytes[AT_STATUS];
    put_number(again + AT_NEXT, 4, number_at(bytes + AT_NEXT, 4));
    for (i = 0; i < HOSTS; i++)
        if (!copy_source(source_in(bytes, i), source_of(again, i)))
            return 0;
    return memcmp(again, bytes, STATE_BYTES) == 0;
}

void put_opened(uint8_t *state, uint8_t host, const uint64_t *params, uint64_t clock, uint64_t next)
{
    int i;
    memset(state, 0, STATE_BYTES);
    state[0] = 0xCE;
    state[1] = 0x01;
    state[AT_HOST] = host;
    for (i = 0; i < PARAMS; i++)
        put_number(state + AT_PARAMS + 8 * i, 8, params[i]);
    put_number(state + AT_CLOCK, 8, clock);
    put_number(state + AT_NEXT, 4, next);
    for (i = 0; i < HOSTS; i++)
        put_number(source_of(state, i) + AT_DISTANCE, 8, i == host ? 0 : 40);
}

static uint64_t least(uint64_t a, uint64_t b)
{
    return a < b ? a : b;
}

uint64_t least_due(const uint8_t *state)
{
    uint64_t due = UINT64_MAX;
    struct span span;
    struct record record;
    int source;
    uint32_t number;
    for (source = 0; source < HOSTS; source++) {
        const uint8_t *from = source_in(state, source);
        read_span(from, &span);
        for (number = span.first; span.open && number <= span.last; number++) {
            read_record(record_in(from, (int)(number % PLACES)), &record);
            if (record.body == WAITING)
                due = least(due, record.due);
            if (record.has_express)
                due = least(due, record.express);
            if (record.has_reply)
                due = least(due, record.reply_due);
        }
    }
    return due;
}

/* ---- the digest */

static uint64_t mixed(uint64_t digest, uint64_t number)
{
    uint64_t x = digest ^ number, a = x ^ (x << 13), b = a ^ (a >> 7);
    return b ^ (b << 17);
}

static uint64_t mixed_record(uint64_t d, const uint8_t *bytes)
{
    struct record record;
    int word;
    read_record(bytes, &record);
    d = mixed(d, (uint64_t)record.body);
    if (record.body == WAITING) {
        d = mixed(mixed(mixed(d, record.round), record.due), record.quiet);
        d = mixed(d, (uint64_t)record.has_express);
        if (record.has_express)
            d = mixed(d, record.express);
    }
    for (word = 0; word < CUE_BYTES; word += 8)
        d = mixed(d, number_at(record.cue + word, 8));
    d = mixed(d, (uint64_t)record.has_reply);
    if (record.has_reply)
        d = mixed(mixed(d, record.reply_due), record.requester);
    return mixed(d, record.hush);
}

static uint64_t mixed_source(uint64_t d, const uint8_t *source)
{
    struct span span;
    struct pair pair;
    struct heard heard;
    struct origin origin;
    struct attempt attempt;
    int place;
    read_span(source, &span);
    read_pair(source, &pair);
    read_heard(source, &heard);
    read_origin(source, &origin);
    d = mixed(d, (uint64_t)span.open);
    if (span.open)
        d = mixed(mixed(d, span.first), span.last);
    d = mixed(d, number_at(source + AT_MISSED, 4));
    d = mixed(d, (uint64_t)pair.kept);
    if (pair.kept)
        d = mixed(mixed(mixed(d, pair.requester), pair.sender), pair.number);
    d = mixed(d, number_at(source + AT_DISTANCE, 8));
    d = mixed(d, (uint64_t)heard.heard);
    if (heard.heard)
        d = mixed(mixed(mixed(d, heard.stamp), heard.when), heard.sources);
    d = mixed(d, (uint64_t)origin.known);
    if (origin.known)
        d = mixed(d, origin.number);
    for (place = 0; place < PLACES; place++)
        d = mixed_record(d, record_in(source, place));
    for (place = 0; place < PLACES; place++) {
        read_attempt(source, place, &attempt);
        d = mixed(mixed(d, attempt.tried), (uint64_t)attempt.late);
    }
    return d;
}

uint64_t digest_of(const uint8_t *state)
{
    uint64_t d = mixed(0x243F6A8885A308D3u, state[AT_HOST]);
    int i;
    for (i = 0; i < PARAMS; i++)
        d = mixed(d, number_at(state + AT_PARAMS + 8 * i, 8));
    d = mixed(d, number_at(state + AT_CLOCK, 8));
    d = mixed(d, state[AT_STATUS]);
    d = mixed(d, number_at(state + AT_NEXT, 4));
    for (i = 0; i < HOSTS; i++)
        d = mixed_source(d, source_in(state, i));
    return d;
}

/* ---- the display */

void put_display(uint8_t *bytes, struct display display)
{
    bytes[0] = 0xCD;
    bytes[1] = 0x01;
    bytes[2] = display.own;
    bytes[3] = display.sender;
    put_number(bytes + 4, 8, display.clock);
    bytes[12] = display.started != 0;
    put_number(bytes + 13, 2, display.started ? display.trail : 0);
    put_number(bytes + 15, 2, display.started ? display.lead : 0);
    put_number(bytes + 17, 8, display.started ? display.set : 0);
}

int read_display(const uint8_t *bytes, size_t length, struct display *display)
{
    uint8_t again[DISPLAY_BYTES];
    memset(display, 0, sizeof *display);
    if (length != DISPLAY_BYTES || bytes[12] > 1)
        return 0;
    display->own = bytes[2];
    display->sender = bytes[3];
    display->clock = number_at(bytes + 4, 8);
    display->started = bytes[12];
    if (display->started) {
        display->trail = (uint16_t)number_at(bytes + 13, 2);
        display->lead = (uint16_t)number_at(bytes + 15, 2);
        display->set = number_at(bytes + 17, 8);
    }
    put_display(again, *display);
    return memcmp(again, bytes, DISPLAY_BYTES) == 0;
}
