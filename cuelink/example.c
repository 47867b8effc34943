/*
 * A whole host of the cue link on the loopback network. docs/INTEGRATION.md goes through it.
 *   example HOST PORT STORE SECONDS CUES
 * Controller HOST listens at UDP port PORT+HOST, takes part for so many seconds, sends so many cues, twenty a second,
 * and prints what it gets. The file STORE keeps what it needs after a restart; where there is none, the controller
 * starts for the first time.
 */
#define _DEFAULT_SOURCE
#include <arpa/inet.h>
#include <errno.h>
#include <inttypes.h>
#include <poll.h>
#include <stdio.h>
#include <stdlib.h>
#include <string.h>
#include <time.h>
#include <unistd.h>

#include "cuelink.h"

static uint8_t state[CUELINK_SIZE], out[CUELINK_ROOM];
static uint16_t draws[CUELINK_DRAWS];
static uint64_t now; /* the clock of the last call, in ticks */
static struct sockaddr_in group[CUELINK_HOSTS];
static unsigned host, port, seconds, cues;
static int network;
static const char *store;

static void fail(const char *what, const char *why)
{
    fprintf(stderr, "example: %s: %s\n", what, why);
    exit(1);
}

/* The time in ticks: it never falls, and goes on while the controller is off. With it new draws, for the next call. */
static uint64_t tick(void)
{
    struct timespec t;
    uint64_t ticks;
    if (clock_gettime(CLOCK_REALTIME, &t) != 0 || getentropy(draws, sizeof draws) != 0)
        fail("no time, or no random numbers", strerror(errno));
    ticks = cuelink_ticks((uint64_t)t.tv_sec * 1000000 + (uint64_t)t.tv_nsec / 1000);
    return now = ticks > now ? ticks : now;
}

#define LENT state, sizeof state, tick(), draws, CUELINK_DRAWS /* what every event takes */

/* Stores the clock and the next own number: first whole on the disk, then under the name. */
static void keep(void)
{
    char fresh[4096];
    uint64_t clock = cuelink_clock(state, sizeof state), next = cuelink_next(state, sizeof state);
    FILE *file = snprintf(fresh, sizeof fresh, "%s.new", store) < (int)sizeof fresh ? fopen(fresh, "w") : NULL;
    if (file == NULL || fprintf(file, "%" PRIu64 " %" PRIu64 "\n", clock, next) < 0 || fflush(file) != 0 ||
        fsync(fileno(file)) != 0 || fclose(file) != 0 || rename(fresh, store) != 0)
        fail(store, strerror(errno));
}

/* Opens the end, or again with what was stored. A store that says nothing is no first start: it repeats numbers. */
static void open_end(void)
{
    static const uint64_t params[CUELINK_PARAMS] = {9, 8, 4, 4, 4, 8, 0};
    uint64_t next = 0, refused;
    FILE *file = fopen(store, "r");
    if (file == NULL ? errno != ENOENT : fscanf(file, "%" SCNu64 " %" SCNu64, &now, &next) != 2 || fclose(file) != 0)
        fail(store, "has no clock and next number; find out which numbers were used before this one starts again");
    refused = file == NULL ? cuelink_open(host, params, CUELINK_PARAMS, state, sizeof state)
                           : cuelink_reopen(host, params, CUELINK_PARAMS, now, next, state, sizeof state);
    if (refused != CUELINK_OK)
        fail("the opening is refused", refused == CUELINK_BAD_HOST ? "hosts are 0 to 7" : store);
}

/* Does what an answer asks for; gives its kind. */
static unsigned take(uint64_t answer)
{
    unsigned kind = cuelink_kind(answer), i;
    size_t length = cuelink_number(answer);
    if (kind == CUELINK_OUT) /* a host with a multicast group sends one datagram; what is lost is repaired */
        for (i = 0; i < CUELINK_HOSTS; i++)
            if (i != host)
                (void)sendto(network, out, length, 0, (const struct sockaddr *)&group[i], sizeof *group);
    if (kind == CUELINK_GOT || kind == CUELINK_LATE) {
        printf("%s %u %u", kind == CUELINK_GOT ? "got" : "late", cuelink_source(answer), cuelink_cue_number(answer));
        for (i = 0; i < 10; i += 2) /* focus, zoom, sideways, upright, lamp */
            printf(" %d", (int16_t)(uint16_t)(out[i] << 8 | out[i + 1]));
        puts("");
    }
    if (kind == CUELINK_CLASH)
        printf("clash %u %u\n", cuelink_source(answer), cuelink_cue_number(answer));
    if (kind == CUELINK_REFUSED)
        printf("refused %u\n", cuelink_number(answer));
    return kind;
}

/* A datagram. MSG_TRUNC tells its true length: one that did not fit is handed over as far as it goes, and refused. */
static void receive(void)
{
    uint8_t bytes[CUELINK_RECEIVE];
    ssize_t came = recv(network, bytes, sizeof bytes, MSG_TRUNC);
    size_t length = (size_t)came < sizeof bytes ? (size_t)came : sizeof bytes;
    if (came >= 0)
        take(cuelink_arrival(LENT, bytes, length, out, sizeof out));
}

/* Sends a cue: its number is stored before the message leaves. */
static void send_cue(int focus)
{
    uint8_t cue[CUELINK_CUE] = {(uint8_t)((uint16_t)focus >> 8), (uint8_t)focus};
    uint64_t answer = cuelink_send(LENT, cue, sizeof cue, out, sizeof out);
    if (cuelink_kind(answer) == CUELINK_OUT)
        keep();
    take(answer);
}

/* Sleeps until a datagram comes, a wait is due, or this clock; says whether a datagram is there. */
static int came_before(uint64_t clock)
{
    struct pollfd ready = {network, POLLIN, 0};
    uint64_t due = cuelink_due(state, sizeof state), until = due < clock ? due : clock;
    return poll(&ready, 1, until > tick() ? (int)((until - now) / 4 + 1) : 0) > 0; /* a millisecond has 4 ticks */
}

/* The controller's life: it joins, fires what is due, takes what comes, sends its cues, reports, and leaves. */
static void run(void)
{
    uint64_t end, report, cue;
    take(cuelink_join(LENT, out, sizeof out));
    take(cuelink_joined(LENT, out, sizeof out)); /* a host asks the network for its group between these two */
    end = now + (uint64_t)seconds * 4000;
    for (report = cue = now; now < end;) {
        int came = came_before(cues > 0 && cue < report ? cue : report);
        while (take(cuelink_fire(LENT, out, sizeof out)) == CUELINK_OUT) {
        }
        if (came)
            receive();
        if (cues > 0 && now >= cue) {
            send_cue(-(int)(cues-- % 2000));
            cue = now + 200;
        }
        if (now >= report) {
            take(cuelink_report(LENT, out, sizeof out));
            report = now + 2000;
        }
    }
    take(cuelink_leave(LENT, out, sizeof out));
    take(cuelink_left(LENT, out, sizeof out));
    keep();
}

int main(int count, char **words)
{
    unsigned i;
    if (count != 6 || sscanf(words[1], "%u", &host) != 1 || sscanf(words[2], "%u", &port) != 1 || port > 65528 ||
        sscanf(words[4], "%u", &seconds) != 1 || sscanf(words[5], "%u", &cues) != 1)
        return fputs("usage: example HOST PORT STORE SECONDS CUES\n", stderr), 2;
    store = words[3];
    open_end();
    for (i = 0; i < CUELINK_HOSTS; i++) {
        group[i].sin_family = AF_INET;
        group[i].sin_addr.s_addr = htonl(INADDR_LOOPBACK);
        group[i].sin_port = htons((uint16_t)(port + i));
    }
    network = socket(AF_INET, SOCK_DGRAM, 0);
    if (network < 0 || bind(network, (const struct sockaddr *)&group[host], sizeof group[host]) != 0)
        fail("the port of this host", strerror(errno));
    setvbuf(stdout, NULL, _IOLBF, 0);
    run();
    if (fflush(stdout) != 0 || ferror(stdout))
        fail("what it got cannot be printed", strerror(errno));
    return 0;
}
