/*
 * A state is a value in bytes: looks at it against the tests' own reading of the form; damaged bytes, which are refused as 3 exactly where reading
 * and writing again would not give the same; unsound states of the right form; a state that moves to another process; many threads.
 */
#define _GNU_SOURCE
#include <pthread.h>
#include <sys/wait.h>
#include <unistd.h>

#include "stage.h"

static struct host h, copy;
static struct form f;

/* ---- looks */

static uint64_t if_there(int there, uint64_t value)
{
    return there ? value : CUELINK_NONE;
}

/* The least due time of all waits of the numbers first..last. */
static uint64_t least_due(const struct form *of)
{
    uint64_t least = CUELINK_NONE;
    int s;
    unsigned n;
    for (s = 0; s < 8; s++) {
        const struct form_source *from = &of->sources[s];
        for (n = from->first; from->open && n <= from->last; n++) {
            const struct form_record *r = &from->records[n % 64];
            if (r->slot >= REPLYING && r->due < least)
                least = r->due;
            if (r->slot == EXPRESS && r->express < least)
                least = r->express;
        }
    }
    return least;
}

static void look_at(struct host *at)
{
    static const uint64_t above[] = {8, 255, 256, UINT64_C(1) << 32, UINT64_MAX};
    unsigned s, i;
    HOLDS(form_read(at->state, sizeof at->state, &f));
    IS(looks(at, HOST, 0), f.host);
    IS(looks(at, CLOCK, 0), f.clock);
    IS(looks(at, STATUS, 0), f.status);
    IS(looks(at, NEXT, 0), f.next);
    IS(looks(at, DUE, 0), least_due(&f));
    for (s = 0; s < 8; s++) {
        const struct form_source *of = &f.sources[s];
        IS(looks(at, FIRST, s), if_there(of->open, of->first));
        IS(looks(at, LAST, s), if_there(of->open, of->last));
        IS(looks(at, MISSED, s), of->missed);
        IS(looks(at, ORIGIN, s), if_there(of->begun, of->origin));
        IS(looks(at, DISTANCE, s), of->distance);
    }
    for (i = 0; i < sizeof above / sizeof *above; i++)
        for (s = FIRST; s <= DISTANCE; s++)
            IS(looks(at, (enum what)s, above[i]), CUELINK_NONE);
}

static void no_looks(struct host *at)
{
    unsigned what;
    for (what = DUE; what <= DISTANCE; what++)
        IS(looks(at, (enum what)what, 0), CUELINK_NONE);
}

static void looked_at(void)
{
    struct call c = {0};
    c.what = SIZE;
    IS(made(&c), CUELINK_SIZE);
    memset(&h, 0, sizeof h);
    no_looks(&h);
    IS(opens(&h, 6, house_params), CUELINK_OK);
    look_at(&h);
    IS(acts(&h, JOIN, 12), DONE_IS);
    IS(acts(&h, JOINED, 12), DONE_IS);
    look_at(&h);
    IS(acts(&h, CRASH, 13), DONE_IS);
    look_at(&h);
    rich(&h);
    look_at(&h);
    HOLDS(looks(&h, FIRST, 0) == 82 && looks(&h, LAST, 0) == 145 && looks(&h, ORIGIN, 0) == 70 && looks(&h, MISSED, 0) == 11);
    HOLDS(looks(&h, DUE, 0) != CUELINK_NONE && looks(&h, NEXT, 0) == 2);
}

/* The rich state has each tag and each option both ways, or the damaged bytes below would miss some. */
static void rich_is_rich(void)
{
    int slots[5] = {0}, seen[2][5] = {{0}}, s, i;
    rich(&h);
    HOLDS(form_read(h.state, sizeof h.state, &f) && form_is(h.state, sizeof h.state));
    for (s = 0; s < 8; s++) {
        const struct form_source *of = &f.sources[s];
        seen[of->open][0] = seen[of->paired][1] = seen[of->heard][2] = seen[of->begun][3] = 1;
        for (i = 0; i < 64; i++) {
            slots[of->records[i].slot]++;
            seen[of->late[i]][4] = 1;
        }
    }
    for (i = 0; i < 5; i++)
        HOLDS(slots[i] > 0 && seen[0][i] && seen[1][i]);
}

/* ---- damaged bytes */

static unsigned long tried, formed, sound;

/* A copy of a state with bytes changed: what the form says decides. */
static void try_damaged(const struct host *from)
{
    int good = form_is(copy.state, sizeof copy.state);
    uint64_t answer;
    HOLDS((looks(&copy, STATUS, 0) != CUELINK_NONE) == good);
    answer = acts(&copy, FIRE, 1000);
    if (!good && answer != CUELINK_NOT_SOUND)
        FAILED("no state, and answered %s", words(answer));
    tried++;
    formed += (unsigned long)good;
    sound += answer != CUELINK_NOT_SOUND;
    if (cuelink_kind(answer) != CUELINK_REFUSED)
        memcpy(copy.state, from->state, sizeof copy.state);
}

/* Whether a byte of the layout is a tag, or a flag, of which all values are tried. */
static int is_tag(size_t at)
{
    size_t in;
    if (at < 2 || at == 67)
        return 1;
    if (at < FORM_SOURCES_AT)
        return 0;
    in = (at - FORM_SOURCES_AT) % FORM_SOURCE;
    if (in < FORM_RECORDS_AT)
        return in == 0 || in == 9 || in == 22 || in == 40 || (in >= 43 && (in - 43) % 2 == 1);
    return (in - FORM_RECORDS_AT) % FORM_RECORD == 0;
}

static void damage_each_byte(const struct host *from)
{
    static const uint8_t flips[] = {0x01, 0x80, 0xFF};
    size_t at, i, step = brief ? 7 : 1;
    copy = *from;
    for (at = 0; at < sizeof copy.state; at += step) {
        uint8_t was = from->state[at];
        for (i = 0; i < (brief ? 1 : sizeof flips); i++) {
            copy.state[at] = was ^ flips[i];
            try_damaged(from);
            copy.state[at] = was;
        }
        for (i = 0; is_tag(at) && i < (brief ? 3 : 6); i++) {
            copy.state[at] = (uint8_t)i;
            if (copy.state[at] != was)
                try_damaged(from);
            copy.state[at] = was;
        }
    }
}

static void damaged(void)
{
    tried = formed = sound = 0;
    rich(&h);
    damage_each_byte(&h);
    HOLDS(tried > formed && formed > sound && sound > 0);
    if (!brief)
        printf("damaged states: %lu, of them %lu of the form, %lu sound\n", tried, formed, sound);
}

/* Every length around the right one, and few bytes. */
static void lengths(void)
{
    static uint8_t bytes[CUELINK_SIZE + 64];
    struct call c;
    unsigned what;
    long by;
    rich(&h);
    memcpy(bytes, h.state, sizeof h.state);
    for (by = -40; by <= 40; by++) {
        size_t length = by < -32 ? (size_t)(by + 40) : (size_t)(CUELINK_SIZE + by);
        for (what = JOIN; what <= DISTANCE; what++) {
            c = call_on(&h, (enum what)what, 1000);
            c.state = bytes;
            c.state_len = length;
            if (length != CUELINK_SIZE)
                IS(made(&c), what >= DUE ? CUELINK_NONE : CUELINK_NOT_SOUND);
        }
    }
    c = call_on(&h, FIRE, 1000);
    c.state = NULL;
    c.state_len = 0;
    IS(made(&c), CUELINK_NOT_SOUND);
    c.what = DUE;
    IS(made(&c), CUELINK_NONE);
}

/* Bytes of nothing in particular, with the mark and without. */
static void random_bytes(void)
{
    uint32_t x = 2463534242u;
    int turn;
    size_t i;
    rich(&h);
    for (turn = 0; turn < (brief ? 40 : 400); turn++) {
        for (i = turn % 2 ? 2 : 0; i < sizeof copy.state; i++) {
            x ^= x << 13, x ^= x >> 17, x ^= x << 5;
            copy.state[i] = (uint8_t)(x % 3 ? 0 : x >> 8);
        }
        if (turn % 2)
            memcpy(copy.state, h.state, 2);
        try_damaged(&h);
    }
}

/* ---- of the form, and not sound */

static struct form_source *of(int s)
{
    return &f.sources[s];
}

/* Each makes the rich state unsound by one field. Number n of source 0 is at record n % 64; 140 has a waiting reply, 141 a request. */
static void break_sound(int way)
{
    static const uint64_t limit = (UINT64_C(1) << 48) + (UINT64_C(1) << 32);
    struct form_record *reply = &of(0)->records[140 % 64], *request = &of(0)->records[141 % 64], *held = &of(0)->records[139 % 64];
    switch (way) {
    case 0: f.host = 8; break;
    case 1: f.params[0] = 33; break;
    case 2: f.params[6] = 1001; break;
    case 3: f.clock = CUELINK_CLOCK_MAX + 1; break;
    case 4: f.next = 65537; break;
    case 5: f.next = 3; break;
    case 6: of(0)->first = 146; break;
    case 7: of(0)->first = 81; break;
    case 8: of(0)->missed = 83; break;
    case 9: of(3)->missed = 1; break;
    case 10: of(0)->distance = 0; break;
    case 11: of(0)->distance = 1001; break;
    case 12: of(1)->distance = 1; break;
    case 13: of(2)->stamp = CUELINK_CLOCK_MAX + 1; break;
    case 14: of(2)->when = f.clock + 1; break;
    case 15: of(1)->heard = 1; break;
    case 16: of(0)->requester = 8; break;
    case 17: of(0)->sender = 8; break;
    case 18: of(0)->sender = 1; break;
    case 19: of(0)->paired = 0; break;
    case 20: of(0)->origin = 83; break;
    case 21: of(0)->begun = 0; break;
    case 22: of(1)->begun = 1; break;
    case 23: of(3)->begun = 1; break;
    case 24: of(0)->tried[5] |= 2; break;
    case 25: of(3)->tried[0] = 1; break;
    case 26: of(0)->late[0] = 1; break;
    case 27: reply->due = limit; break;
    case 28: reply->requester = 1; break;
    case 29: reply->requester = 0; break;
    case 30: reply->requester = 8; break;
    case 31: request->due = limit; break;
    case 32: request->quiet = limit; break;
    case 33: request->express = limit; break;
    case 34: request->round = 0; break;
    case 35: request->round = 17; break;
    case 36: held->cue[0] = 0x7F; break;
    case 37: held->hush = limit; break;
    case 38: held->slot = EMPTY; break;
    case 39: of(1)->records[0].slot = WAITING; break;
    case 40: of(3)->records[9].slot = HELD; break;
    case 41: of(3)->records[9].hush = 1; break;
    default: f.status = (unsigned)(way - 42 == 2 ? 0 : way - 42); break; /* a non-member with all this */
    }
}

enum { WAYS = 47 };

/* Each event refuses them as 3 and changes nothing; due has nothing to tell; the looks, which ask for the form alone, still answer. */
static void unsound(void)
{
    int way;
    unsigned what;
    rich(&h);
    for (way = 0; way < WAYS; way++) {
        HOLDS(form_read(h.state, sizeof h.state, &f));
        break_sound(way);
        copy = h;
        form_write(&f, copy.state);
        HOLDS(form_is(copy.state, sizeof copy.state));
        for (what = JOIN; what <= FETCH; what++)
            if (acts(&copy, (enum what)what, RICH_CLOCK) != CUELINK_NOT_SOUND)
                FAILED("unsound in way %d, and cuelink_%s does not refuse it as 3", way, call_names[what]);
        IS(asks(&copy, RICH_CLOCK, CUELINK_EVENT_FIRE, 0, 0, NULL), CUELINK_NOT_SOUND);
        IS(looks(&copy, DUE, 0), CUELINK_NONE);
        IS(looks(&copy, STATUS, 0), f.status);
    }
}

/* Free bytes of a cue, and of an empty record's, do not count. */
static void sound_all_the_same(void)
{
    rich(&h);
    HOLDS(form_read(h.state, sizeof h.state, &f));
    memset(of(3)->records[9].cue, 0xFF, CUELINK_CUE);
    memset(of(0)->records[141 % 64].cue, 0xFF, CUELINK_CUE);
    of(0)->records[139 % 64].cue[23] = 0xFF;
    of(0)->tried[5] |= 0xFD;
    copy = h;
    form_write(&f, copy.state);
    IS(acts(&copy, REPORT, RICH_CLOCK), OUT_OF(12 + 3 * 3 + 13));
}

/* ---- other processes, other threads */

/* A list of calls on a state; the answers, mixed into one number. */
static uint64_t listed(uint8_t *state)
{
    static const uint16_t draws[CUELINK_DRAWS];
    uint8_t out[CUELINK_ROOM], cue[CUELINK_CUE] = {0};
    uint64_t mixed = 0, clock;
    for (clock = 1000; clock < 1400; clock += 5) {
        mixed = mixed * 31 + cuelink_send(state, CUELINK_SIZE, clock, draws, CUELINK_DRAWS, cue, sizeof cue, out, sizeof out);
        mixed = mixed * 31 + out[11];
        mixed = mixed * 31 + cuelink_fire(state, CUELINK_SIZE, clock, draws, CUELINK_DRAWS, out, sizeof out);
        mixed = mixed * 31 + cuelink_due(state, CUELINK_SIZE);
    }
    return mixed;
}

static int all_of(ssize_t count, size_t wanted)
{
    return count >= 0 && (size_t)count == wanted;
}

/* A state goes through a pipe to another process, which uses it and sends it back. */
static void another_process(void)
{
    int to[2], from[2], status;
    uint64_t here, there;
    pid_t child;
    rich(&h);
    copy = h;
    HOLDS(pipe(to) == 0 && pipe(from) == 0);
    child = fork();
    HOLDS(child >= 0);
    if (child == 0) {
        struct host moved;
        int fine = all_of(read(to[0], moved.state, sizeof moved.state), sizeof moved.state);
        there = listed(moved.state);
        fine = fine && all_of(write(from[1], &there, sizeof there), sizeof there) &&
               all_of(write(from[1], moved.state, sizeof moved.state), sizeof moved.state);
        _exit(!fine);
    }
    HOLDS(all_of(write(to[1], copy.state, sizeof copy.state), sizeof copy.state));
    HOLDS(all_of(read(from[0], &there, sizeof there), sizeof there));
    HOLDS(all_of(read(from[0], copy.state, sizeof copy.state), sizeof copy.state));
    HOLDS(waitpid(child, &status, 0) == child && status == 0);
    here = listed(h.state);
    HOLDS(here == there && memcmp(h.state, copy.state, sizeof h.state) == 0);
    close(to[0]), close(to[1]), close(from[0]), close(from[1]);
}

struct turn {
    uint8_t state[CUELINK_SIZE];
    uint64_t mixed;
};

static void *in_thread(void *given)
{
    struct turn *turn = given;
    turn->mixed = listed(turn->state);
    return NULL;
}

/* Eight threads at once, each with a state of its own, answer as one after the other. */
static void threads(void)
{
    static struct turn turns[8];
    pthread_t ids[8];
    uint64_t mixed;
    int i;
    rich(&h);
    for (i = 0; i < 8; i++) {
        memcpy(turns[i].state, h.state, sizeof h.state);
        HOLDS(pthread_create(&ids[i], NULL, in_thread, &turns[i]) == 0);
    }
    mixed = listed(h.state);
    for (i = 0; i < 8; i++) {
        HOLDS(pthread_join(ids[i], NULL) == 0);
        HOLDS(turns[i].mixed == mixed && memcmp(turns[i].state, h.state, sizeof h.state) == 0);
    }
}

const struct test form_tests[] = {{"looks", looked_at},
                                  {"rich-is-rich", rich_is_rich},
                                  {"damaged", damaged},
                                  {"state-lengths", lengths},
                                  {"random-bytes", random_bytes},
                                  {"unsound", unsound},
                                  {"sound-all-the-same", sound_all_the_same},
                                  {"another-process", another_process},
                                  {"threads", threads},
                                  {NULL, NULL}};
