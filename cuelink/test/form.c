#include "form.h"

#include <string.h>

/* ---- reading: a place in the bytes, and whether a tag was one that there is not */

struct reader {
    const uint8_t *at;
    int wrong;
};

static uint64_t number(struct reader *r, int width)
{
    uint64_t value = 0;
    while (width-- > 0)
        value = value << 8 | *r->at++;
    return value;
}

/* A tag of 0 or 1. */
static int flag(struct reader *r)
{
    uint64_t tag = number(r, 1);
    r->wrong |= tag > 1;
    return tag == 1;
}

static void read_record(struct reader *r, struct form_record *record)
{
    uint64_t tag = number(r, 1), small = number(r, 1), a = number(r, 8), b = number(r, 8), c = number(r, 8);
    memset(record, 0, sizeof *record);
    r->wrong |= tag > EXPRESS;
    record->slot = (enum form_slot)tag;
    if (tag == REPLYING)
        record->requester = (uint8_t)small;
    if (tag == WAITING || tag == EXPRESS) {
        record->round = (uint8_t)small;
        record->quiet = b;
    }
    if (tag >= REPLYING)
        record->due = a;
    if (tag == EXPRESS)
        record->express = c;
    memcpy(record->cue, r->at, sizeof record->cue);
    r->at += sizeof record->cue;
    record->hush = number(r, 8);
}

static void read_source(struct reader *r, struct form_source *s)
{
    int i;
    s->open = flag(r);
    s->first = (uint16_t)number(r, 2);
    s->last = (uint16_t)number(r, 2);
    s->missed = (uint32_t)number(r, 4);
    s->paired = flag(r);
    s->requester = (uint8_t)number(r, 1);
    s->sender = (uint8_t)number(r, 1);
    s->pair_number = (uint16_t)number(r, 2);
    s->distance = number(r, 8);
    s->heard = flag(r);
    s->stamp = number(r, 8);
    s->when = number(r, 8);
    s->hosts = (uint8_t)number(r, 1);
    s->begun = flag(r);
    s->origin = (uint16_t)number(r, 2);
    for (i = 0; i < 64; i++) {
        s->tried[i] = (uint8_t)number(r, 1);
        s->late[i] = flag(r);
    }
    for (i = 0; i < 64; i++)
        read_record(r, &s->records[i]);
}

int form_read(const uint8_t *bytes, size_t length, struct form *f)
{
    struct reader r = {bytes + 2, 0};
    int i;
    if (length != FORM_SIZE || bytes[0] != 0xCE || bytes[1] != 0x01)
        return 0;
    f->host = (uint8_t)number(&r, 1);
    for (i = 0; i < 7; i++)
        f->params[i] = number(&r, 8);
    f->clock = number(&r, 8);
    f->status = (unsigned)number(&r, 1);
    f->next = (uint32_t)number(&r, 4);
    for (i = 0; i < 8; i++)
        read_source(&r, &f->sources[i]);
    return !r.wrong && f->status <= 4;
}

/* ---- writing */

static uint8_t *put(uint8_t *at, int width, uint64_t value)
{
    int i;
    for (i = width - 1; i >= 0; i--, value >>= 8)
        at[i] = (uint8_t)value;
    return at + width;
}

/* A number that there is, or as many bytes of 0. */
static uint8_t *put_if(int there, uint8_t *at, int width, uint64_t value)
{
    return put(at, width, there ? value : 0);
}

static uint8_t *write_record(const struct form_record *r, uint8_t *at)
{
    int waits = r->slot == WAITING || r->slot == EXPRESS;
    at = put(at, 1, r->slot);
    at = put(at, 1, r->slot == REPLYING ? r->requester : waits ? r->round : 0);
    at = put_if(waits || r->slot == REPLYING, at, 8, r->due);
    at = put_if(waits, at, 8, r->quiet);
    at = put_if(r->slot == EXPRESS, at, 8, r->express);
    memcpy(at, r->cue, sizeof r->cue);
    return put(at + sizeof r->cue, 8, r->hush);
}

static uint8_t *write_source(const struct form_source *s, uint8_t *at)
{
    int i;
    at = put(at, 1, s->open != 0);
    at = put_if(s->open, at, 2, s->first);
    at = put_if(s->open, at, 2, s->last);
    at = put(at, 4, s->missed);
    at = put(at, 1, s->paired != 0);
    at = put_if(s->paired, at, 1, s->requester);
    at = put_if(s->paired, at, 1, s->sender);
    at = put_if(s->paired, at, 2, s->pair_number);
    at = put(at, 8, s->distance);
    at = put(at, 1, s->heard != 0);
    at = put_if(s->heard, at, 8, s->stamp);
    at = put_if(s->heard, at, 8, s->when);
    at = put_if(s->heard, at, 1, s->hosts);
    at = put(at, 1, s->begun != 0);
    at = put_if(s->begun, at, 2, s->origin);
    for (i = 0; i < 64; i++) {
        at = put(at, 1, s->tried[i]);
        at = put(at, 1, s->late[i] != 0);
    }
    for (i = 0; i < 64; i++)
        at = write_record(&s->records[i], at);
    return at;
}

void form_write(const struct form *f, uint8_t *bytes)
{
    uint8_t *at = bytes;
    int i;
    at = put(at, 1, 0xCE);
    at = put(at, 1, 0x01);
    at = put(at, 1, f->host);
    for (i = 0; i < 7; i++)
        at = put(at, 8, f->params[i]);
    at = put(at, 8, f->clock);
    at = put(at, 1, f->status);
    at = put(at, 4, f->next);
    for (i = 0; i < 8; i++)
        at = write_source(&f->sources[i], at);
}

int form_is(const uint8_t *bytes, size_t length)
{
    static __thread struct form f;
    static __thread uint8_t again[FORM_SIZE];
    if (!form_read(bytes, length, &f))
        return 0;
    form_write(&f, again);
    return memcmp(bytes, again, FORM_SIZE) == 0;
}

int form_is_display(const uint8_t *bytes, size_t length)
{
    struct reader r = {bytes + 12, 0};
    int started, i, rest = 0;
    if (length != FORM_DISPLAY || bytes[0] != 0xCD || bytes[1] != 0x01)
        return 0;
    started = flag(&r);
    for (i = 13; i < FORM_DISPLAY; i++)
        rest |= bytes[i];
    return !r.wrong && (started || rest == 0);
}
