/*
 * The stack of each call: a thread of its own, whose stack is painted, makes the call, and the lowest byte that changed tells how deep it went. What a
 * thread needs that makes no call is taken off. Prints a line for each, and fails where one needs more than the header promises.
 */
#define _GNU_SOURCE
#include <pthread.h>
#include <sys/mman.h>

#include "stage.h"

enum { STACK = 4 << 20, PAINT = 0xA5 };

static struct host h;
static struct message datagram;
static uint8_t shown[CUELINK_DISPLAY_SIZE];
static const uint64_t windows[CUELINK_WINDOW] = {2024, 2, 27, 2024, 3, 1, 600, 660};
static uint64_t lost[CUELINK_LOST];
static struct call call;
static volatile uint64_t answer;

static void fail(const char *what)
{
    perror(what);
    exit(2);
}

static void *nothing(void *unused)
{
    return unused;
}

/* The call, without the checks that `made` has around it: these have a stack too. */
static void *call_it(void *unused)
{
    const struct call *c = &call;
    switch (c->what) {
    case OPEN:
        answer = cuelink_open(0, c->params, c->params_len, c->state, c->state_len);
        break;
    case REOPEN:
        answer = cuelink_reopen(0, c->params, c->params_len, c->clock, 7, c->state, c->state_len);
        break;
    case SEND:
        answer = cuelink_send(c->state, c->state_len, c->clock, c->draws, c->draws_len, c->bytes, CUELINK_CUE, c->out, c->out_len);
        break;
    case ARRIVAL:
        answer = cuelink_arrival(c->state, c->state_len, c->clock, c->draws, c->draws_len, c->bytes, c->bytes_len, c->out, c->out_len);
        break;
    case FETCH:
        answer = cuelink_fetch(c->state, c->state_len, c->clock, c->draws, c->draws_len, 0, 7, c->out, c->out_len);
        break;
    case REASON:
        answer = cuelink_reason(c->state, c->state_len, c->clock, CUELINK_EVENT_ARRIVAL, 0, 0, c->bytes, c->bytes_len);
        break;
    case DUE:
        answer = cuelink_due(c->state, c->state_len);
        break;
    case MISSED:
        answer = cuelink_missed(c->state, c->state_len, 0);
        break;
    case HEAR:
        answer = cuelink_display_hear(shown, sizeof shown, c->clock, c->bytes, c->bytes_len, lost, CUELINK_LOST, c->out, c->out_len);
        break;
    case STEP:
        answer = cuelink_display_step(shown, sizeof shown, c->clock, c->out, c->out_len);
        break;
    case FIND:
        answer = cuelink_windows_find(windows, CUELINK_WINDOW, 2024, 2, 28, 660);
        break;
    default: {
        typedef uint64_t plain(uint8_t *, size_t, uint64_t, const uint16_t *, size_t, uint8_t *, size_t);
        static plain *const moves[] = {cuelink_join,  cuelink_joined, cuelink_leave,  cuelink_left,
                                       cuelink_crash, cuelink_fire,   cuelink_report, cuelink_announce};
        answer = moves[c->what - JOIN](c->state, c->state_len, c->clock, c->draws, c->draws_len, c->out, c->out_len);
    }
    }
    return unused;
}

/* How deep a thread goes that does this. */
static size_t depth(void *(*run)(void *))
{
    uint8_t *stack = mmap(NULL, STACK, PROT_READ | PROT_WRITE, MAP_PRIVATE | MAP_ANONYMOUS, -1, 0);
    pthread_attr_t attributes;
    pthread_t id;
    size_t free_bytes = 0;
    if (stack == MAP_FAILED)
        fail("stack: mmap");
    memset(stack, PAINT, STACK);
    if (pthread_attr_init(&attributes) != 0 || pthread_attr_setstack(&attributes, stack, STACK) != 0 ||
        pthread_create(&id, &attributes, run, NULL) != 0 || pthread_join(id, NULL) != 0)
        fail("stack: a thread with a stack of its own");
    while (free_bytes < STACK && stack[free_bytes] == PAINT)
        free_bytes++;
    munmap(stack, STACK);
    return STACK - free_bytes;
}

static size_t deepest;

static void measure(const char *name, struct call c)
{
    size_t base = depth(nothing), all;
    call = c;
    all = depth(call_it) - base;
    printf("%-28s %7zu\n", name, all);
    if (all > deepest)
        deepest = all;
    if (all > CUELINK_STACK) {
        fprintf(stderr, "stack: %s needs %zu bytes, and cuelink.h promises at most %d\n", name, all, CUELINK_STACK);
        exit(1);
    }
}

static struct call on_host(enum what what)
{
    struct call c = call_on(&h, what, 1000);
    c.params = house_params;
    c.params_len = CUELINK_PARAMS;
    c.bytes = datagram.bytes;
    c.bytes_len = datagram.length;
    return c;
}

static void measure_arrival(const char *name, struct message m)
{
    rich(&h);
    datagram = m;
    measure(name, on_host(ARRIVAL));
}

int main(void)
{
    unsigned what;
    struct call c;
    for (what = OPEN; what <= REOPEN; what++)
        measure(call_names[what], on_host((enum what)what));
    for (what = JOIN; what <= FETCH; what++) {
        memset(&datagram, 0, sizeof datagram);
        rich(&h);
        measure(call_names[what], on_host((enum what)what));
    }
    measure_arrival("arrival of DATA", data_of(0, 143, 1));
    measure_arrival("arrival of RQST", rqst_of(2, 0, 200));
    measure_arrival("arrival of REPL", repl_of(2, 0, 143, 1, 1));
    measure_arrival("arrival of SESS", sess_of(2, 0, 9999, 1, 8, 12));
    measure_arrival("arrival of XPRS", xprs_of(2, 0, 140, 1));
    measure_arrival("arrival of FTCH", ftch_of(2, 0, 140, 1));
    measure_arrival("arrival of LATE", late_of(2, 0, 6, 1, 1));
    measure_arrival("arrival of ANNC", annc_of(2, 3, 9));
    rich(&h);
    c = on_host(FIRE);
    c.out_len = CUELINK_ROOM - 1;
    measure("fire, refused as 1", c);
    c = on_host(FIRE);
    h.state[CUELINK_SIZE - FORM_RECORD] = 9;
    measure("fire, refused as 3", c);
    rich(&h);
    datagram = data_of(0, 143, 1);
    measure("reason", on_host(REASON));
    measure("due", on_host(DUE));
    measure("missed", on_host(MISSED));
    datagram = data_of(1, 143, 1);
    HOLDS(cuelink_display_open(3, 1, shown, sizeof shown) == CUELINK_OK);
    measure("display_hear", on_host(HEAR));
    measure("display_step", on_host(STEP));
    measure("windows_find", on_host(FIND));
    printf("deepest %zu of %d\n", deepest, CUELINK_STACK);
    if (fflush(stdout) != 0)
        fail("stack: what was measured cannot be written");
    return 0;
}
