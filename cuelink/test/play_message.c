#include "play_message.h"

#include <inttypes.h>
#include <string.h>

static const char *const kinds[] = {"data", "rqst", "repl", "sess", "xprs", "ftch", "late", "annc", NULL};

enum { OLD_DATA = 1, OLD_SESS = 4, OLD_MOST_NUMBER = 63, HEAD_BYTES = 8, LEAST_BYTES = 12, ECHO_BYTES = 13, MOST_SPAN = 63 };

static const uint64_t clocks = (uint64_t)1 << 48;

static int is_old(uint8_t kind)
{
    return OLD_DATA <= kind && kind <= OLD_SESS;
}

/* ---- the cue test */

static int offset_in_range(const uint8_t *bytes)
{
    int offset = (int16_t)number_at(bytes, 2);
    return -2000 <= offset && offset <= 2000;
}

int cue_in_range(const uint8_t *cue)
{
    return offset_in_range(cue) && offset_in_range(cue + 2) && offset_in_range(cue + 4) && offset_in_range(cue + 6) && number_at(cue + 8, 2) <= 1000;
}

/* ---- questions 9, 10, 11 of a message that has a kind of today */

static int counts_are(const struct message *m, uint64_t names, uint64_t cues)
{
    return m->names == names && m->cues == cues && m->reports == 0 && m->echoes == 0;
}

static int counts_fit(const struct message *m)
{
    switch (m->kind) {
    case DATA:
    case REPL:
    case LATE:
        return counts_are(m, 1, 1);
    case RQST:
    case XPRS:
    case FTCH:
        return counts_are(m, 1, 0);
    case ANNC:
        return counts_are(m, 2, 0);
    case SESS:
        return m->names == 0 && m->cues == 0 && m->reports <= MOST_REPORTS && m->echoes <= MOST_ECHOES;
    default:
        return 0;
    }
}

static int in_range(const struct message *m)
{
    size_t i;
    int fits = m->sender < HOSTS && m->stamp < clocks && (m->cues == 0 || cue_in_range(m->cue));
    for (i = 0; i < m->names; i++)
        fits = fits && m->name[i].source < HOSTS && m->name[i].host < HOSTS;
    for (i = 0; i < m->reports; i++)
        fits = fits && m->report[i].source < HOSTS;
    for (i = 0; i < m->echoes; i++)
        fits = fits && m->echo[i].host < HOSTS && m->echo[i].stamp < clocks && m->echo[i].held < clocks;
    return fits;
}

static int hosts_fit(const struct message *m, const struct name *name)
{
    switch (m->kind) {
    case DATA:
    case ANNC:
        return name->host == m->sender && name->source == m->sender;
    case RQST:
        return name->host == m->sender && name->host != name->source;
    case REPL:
    case LATE:
        return name->host != m->sender && name->host != name->source;
    default:
        return name->host != m->sender && name->source != m->sender;
    }
}

static int places_fit(const struct message *m)
{
    size_t i;
    int fits = 1;
    for (i = 0; i < m->names; i++)
        fits = fits && hosts_fit(m, &m->name[i]);
    if (m->kind == ANNC)
        fits = fits && m->name[0].number <= m->name[1].number && m->name[1].number - m->name[0].number <= MOST_SPAN;
    for (i = 0; i < m->reports; i++)
        fits = fits && (i == 0 || m->report[i - 1].source < m->report[i].source);
    for (i = 0; i < m->echoes; i++)
        fits = fits && (i == 0 || m->echo[i - 1].host < m->echo[i].host) && m->echo[i].host != m->sender;
    return fits;
}

/* ---- the writer */

static uint8_t *put(uint8_t *at, int width, uint64_t number)
{
    put_number(at, width, number);
    return at + width;
}

int write_message(const struct message *m, uint8_t *bytes, size_t *length)
{
    uint8_t *at = bytes;
    size_t i;
    *length = 0;
    if (!counts_fit(m))
        return 9;
    if (!in_range(m))
        return 10;
    if (!places_fit(m))
        return 11;
    at = put(put(put(at, 1, m->kind), 1, m->sender), 6, m->stamp);
    at = put(at, 1, m->names);
    for (i = 0; i < m->names; i++)
        at = put(put(put(at, 1, m->name[i].source), 2, m->name[i].number), 1, m->name[i].host);
    at = put(at, 1, m->cues);
    if (m->cues > 0)
        at = (uint8_t *)memcpy(at, m->cue, CUE_BYTES) + CUE_BYTES;
    at = put(at, 1, m->reports);
    for (i = 0; i < m->reports; i++)
        at = put(put(at, 1, m->report[i].source), 2, m->report[i].last);
    at = put(at, 1, m->echoes);
    for (i = 0; i < m->echoes; i++)
        at = put(put(put(at, 1, m->echo[i].host), 6, m->echo[i].stamp), 6, m->echo[i].held);
    *length = (size_t)(at - bytes);
    return 0;
}

/* ---- the reader */

/* A section's count and where its entries start; NULL where it reaches past the end. The next one starts after them. */
static const uint8_t *section(const uint8_t **at, const uint8_t *end, size_t size, uint64_t *count)
{
    const uint8_t *entries;
    if (*at == NULL || *at == end || (size_t)(end - *at) - 1 < **at * size) {
        *at = NULL;
        return NULL;
    }
    *count = **at;
    entries = *at + 1;
    *at = entries + *count * size;
    return entries;
}

int read_message(const uint8_t *bytes, size_t length, struct message *m)
{
    int old = length > 0 && is_old(bytes[0]), width = old ? 1 : 2, numbers_fit = 1;
    size_t size = (size_t)width, i;
    const uint8_t *at = bytes + HEAD_BYTES, *end = bytes + length, *names, *cues, *reports, *echoes;
    memset(m, 0, sizeof *m);
    if (length < LEAST_BYTES)
        return 8;
    names = section(&at, end, size + 2, &m->names);
    cues = section(&at, end, CUE_BYTES, &m->cues);
    reports = section(&at, end, size + 1, &m->reports);
    echoes = section(&at, end, ECHO_BYTES, &m->echoes);
    if (at != end)
        return 8;
    m->kind = (uint8_t)(old ? bytes[0] + DATA - OLD_DATA : bytes[0]);
    m->sender = bytes[1];
    m->stamp = number_at(bytes + 2, 6);
    if (!counts_fit(m))
        return 9;
    for (i = 0; i < m->names; i++, names += size + 2) {
        m->name[i].source = names[0];
        m->name[i].number = (uint16_t)number_at(names + 1, width);
        m->name[i].host = names[1 + width];
        numbers_fit = numbers_fit && (!old || m->name[i].number <= OLD_MOST_NUMBER);
    }
    if (m->cues > 0)
        memcpy(m->cue, cues, CUE_BYTES);
    for (i = 0; i < m->reports; i++, reports += size + 1) {
        m->report[i].source = reports[0];
        m->report[i].last = (uint16_t)number_at(reports + 1, width);
        numbers_fit = numbers_fit && (!old || m->report[i].last <= OLD_MOST_NUMBER);
    }
    for (i = 0; i < m->echoes; i++, echoes += ECHO_BYTES) {
        m->echo[i].host = echoes[0];
        m->echo[i].stamp = number_at(echoes + 1, 6);
        m->echo[i].held = number_at(echoes + 7, 6);
    }
    if (!numbers_fit || !in_range(m))
        return 10;
    return places_fit(m) ? 0 : 11;
}

/* ---- words */

/* The fields of a cue after its focus. */
static void words_fields(struct words *words, uint8_t *cue)
{
    int at;
    for (at = 2; at < 8; at += 2)
        put_number(cue + at, 2, words_signed(words));
    put_number(cue + 8, 2, words_number(words, 65535));
}

static void words_cue_bytes(struct words *words, uint8_t *cue)
{
    if (words_bytes(words, cue, CUE_BYTES) != CUE_BYTES)
        words->spoiled = 1;
}

void words_cue(struct words *words, uint8_t *cue)
{
    memset(cue, 0, CUE_BYTES);
    if (words_take(words, "bytes")) {
        words_cue_bytes(words, cue);
        return;
    }
    put_number(cue, 2, words_signed(words));
    if (!words_over(words))
        words_fields(words, cue);
}

static uint8_t words_kind(struct words *words)
{
    int i;
    for (i = 0; kinds[i] != NULL; i++)
        if (words_take(words, kinds[i]))
            return (uint8_t)(DATA + i);
    return (uint8_t)words_number(words, 255);
}

void words_message(struct words *words, struct message *m)
{
    memset(m, 0, sizeof *m);
    m->kind = words_kind(words);
    m->sender = (uint8_t)words_number(words, 255);
    m->stamp = words_number(words, UINT64_MAX);
    for (; m->names < MOST_NAMES && words_take(words, "name"); m->names++) {
        m->name[m->names].source = (uint8_t)words_number(words, 255);
        m->name[m->names].number = (uint16_t)words_number(words, 65535);
        m->name[m->names].host = (uint8_t)words_number(words, 255);
    }
    if (words_take(words, "cue")) {
        put_number(m->cue, 2, words_signed(words));
        words_fields(words, m->cue);
        m->cues = 1;
    } else if (words_take(words, "cuebytes")) {
        words_cue_bytes(words, m->cue);
        m->cues = 1;
    }
    for (; m->reports < MOST_REPORTS && words_take(words, "report"); m->reports++) {
        m->report[m->reports].source = (uint8_t)words_number(words, 255);
        m->report[m->reports].last = (uint16_t)words_number(words, 65535);
    }
    for (; m->echoes < MOST_ECHOES && words_take(words, "echo"); m->echoes++) {
        m->echo[m->echoes].host = (uint8_t)words_number(words, 255);
        m->echo[m->echoes].stamp = words_number(words, UINT64_MAX);
        m->echo[m->echoes].held = words_number(words, UINT64_MAX);
    }
    if (words_take(words, "counts")) {
        m->names = words_number(words, UINT64_MAX);
        m->cues = words_number(words, UINT64_MAX);
        m->reports = words_number(words, UINT64_MAX);
        m->echoes = words_number(words, UINT64_MAX);
    }
}

void text_kind(struct text *text, uint8_t kind)
{
    if (DATA <= kind && kind <= ANNC)
        text_add(text, "%s", kinds[kind - DATA]);
    else
        text_add(text, "%d", kind);
}

void text_message(struct text *text, const struct message *m)
{
    size_t i;
    text_kind(text, m->kind);
    text_add(text, " %d %" PRIu64, m->sender, m->stamp);
    for (i = 0; i < m->names; i++)
        text_add(text, " name %d %d %d", m->name[i].source, m->name[i].number, m->name[i].host);
    if (m->cues > 0) {
        text_add(text, " cue");
        for (i = 0; i < 8; i += 2)
            text_add(text, " %d", (int16_t)number_at(m->cue + i, 2));
        text_add(text, " %d", (int)number_at(m->cue + 8, 2));
    }
    for (i = 0; i < m->reports; i++)
        text_add(text, " report %d %d", m->report[i].source, m->report[i].last);
    for (i = 0; i < m->echoes; i++)
        text_add(text, " echo %d %" PRIu64 " %" PRIu64, m->echo[i].host, m->echo[i].stamp, m->echo[i].held);
}
