/*
 * The time of each call: through C, as the direct call in Rattle (the program bench_end) and in the twin (the program pace), side by side in one run.
 *   pace DIRECT TWIN [ROUNDS]
 * The three take turns, round by round, so that they meet the same machine; processor time, and the least of all rounds. The same calls are made in all
 * three, and outputs are cleared before each. Fails where a call takes longer than its limit.
 */
#define _GNU_SOURCE
#include <inttypes.h>
#include <spawn.h>
#include <stdio.h>
#include <stdlib.h>
#include <string.h>
#include <sys/resource.h>
#include <sys/wait.h>
#include <time.h>
#include <unistd.h>

#include "../cuelink.h"

extern char **environ;

enum { TURNS = 10000, MOST_RATIO = 3 };
static const double MOST_EVENT = 20, MOST_EARLY = 0.1, MOST_UNFORMED = 2, MOST_DUE = 8; /* microseconds */

static uint8_t state[CUELINK_SIZE], first[CUELINK_SIZE], out[CUELINK_ROOM];
static uint16_t draws[CUELINK_DRAWS];
static volatile uint64_t answer;

static void fail(const char *what)
{
    perror(what);
    exit(2);
}

/* ---- the calls through C, as bench_end makes them */

#define LENT(clock) state, sizeof state, (clock), draws, CUELINK_DRAWS
#define CLEAR memset(out, 0, sizeof out)

static void opened(unsigned host)
{
    static const uint64_t params[CUELINK_PARAMS] = {9, 8, 4, 4, 4, 8, 0};
    if (cuelink_open(host, params, CUELINK_PARAMS, state, sizeof state) != CUELINK_OK)
        fail("pace: the opening is refused");
}

static void member(unsigned host)
{
    opened(host);
    cuelink_join(LENT(0), out, sizeof out);
    cuelink_joined(LENT(0), out, sizeof out);
}

/* Host 0's cue of this number, all zeros, or its session message, sent at clock 0. */
static size_t message(uint8_t *bytes, int session, unsigned number)
{
    memset(bytes, 0, 40);
    bytes[0] = session ? 20 : 17;
    if (!session) {
        bytes[8] = bytes[13] = 1;
        bytes[11] = (uint8_t)number;
    }
    return session ? 12 : 40;
}

static void before(char kind)
{
    uint8_t bytes[40], cue[CUELINK_CUE] = {0};
    member(kind == 'g' || kind == 'h' || kind == 't');
    if (kind == 'm')
        opened(0);
    if (kind == 'a')
        cuelink_send(LENT(0), cue, sizeof cue, out, sizeof out);
    if (kind == 't')
        cuelink_arrival(LENT(0), bytes, message(bytes, 0, 5), out, sizeof out);
    if (kind == '3')
        state[CUELINK_SIZE - 58] = 9; /* the last record's tag: found last */
    if (kind == 'u')
        state[66] = 0xFF, state[60] = 0xFF; /* of the form, and the clock is above 2^48-1 */
    memcpy(first, state, sizeof first);
}

static void turn(char kind, uint64_t i)
{
    uint8_t bytes[40];
    static const uint8_t cue[CUELINK_CUE];
    size_t length;
    if ((kind == 's' || kind == 'g') && i % 64 == 0)
        member(kind == 'g');
    if (kind == 'c')
        memcpy(state, first, sizeof state);
    CLEAR;
    switch (kind) {
    case 'm':
        answer = cuelink_join(LENT(i), out, sizeof out);
        CLEAR, answer = cuelink_joined(LENT(i), out, sizeof out);
        CLEAR, answer = cuelink_leave(LENT(i), out, sizeof out);
        CLEAR, answer = cuelink_left(LENT(i), out, sizeof out);
        break;
    case 's':
        answer = cuelink_send(LENT(i), cue, sizeof cue, out, sizeof out);
        break;
    case 'g':
    case 'h':
        length = message(bytes, kind == 'h', (unsigned)(i % 64));
        answer = cuelink_arrival(LENT(i), bytes, length, out, sizeof out);
        break;
    case 'r':
        answer = cuelink_report(LENT(i), out, sizeof out);
        break;
    case 'a':
        answer = cuelink_announce(LENT(i), out, sizeof out);
        break;
    case 't':
        answer = cuelink_fetch(LENT(i), 0, 4, out, sizeof out);
        break;
    case 'c':
        answer = cuelink_crash(LENT(i), out, sizeof out);
        break;
    case '1':
        answer = cuelink_fire(LENT(i), out, sizeof out - 1);
        break;
    case 'x':
        answer = cuelink_fire(state, sizeof state, i, draws, CUELINK_DRAWS - 1, out, sizeof out);
        break;
    case 'd':
        answer = cuelink_due(state, sizeof state);
        break;
    case 'y':
        answer = cuelink_reason(state, sizeof state, i, CUELINK_EVENT_FIRE, 0, 0, NULL, 0);
        break;
    default:
        answer = cuelink_fire(LENT(i), out, sizeof out);
    }
}

/* ---- what is measured */

static const struct row {
    char kind;
    int calls; /* of one turn */
    int compared;
    const char *name, *wanted;
} rows[] = {
    {'m', 4, 1, "join, joined, leave, left", "done"}, {'c', 1, 1, "crash", "done"},
    {'s', 1, 1, "send (Out)", "out"},                 {'g', 1, 1, "arrival of DATA (Got)", "got"},
    {'h', 1, 1, "arrival of SESS (Done)", "done"},    {'f', 1, 1, "fire (Nothing)", "nothing"},
    {'r', 1, 1, "report (Out)", "out"},               {'t', 1, 1, "fetch (Exhausted)", "exhausted"},
    {'a', 1, 1, "announce (Out)", "out"},             {'y', 1, 0, "reason", "reason"},
    {'d', 1, 0, "due", ""},                           {'1', 1, 0, "refused as 1", "refused"},
    {'x', 1, 1, "refused as 2", "refused"},           {'3', 1, 0, "refused as 3: not the form", "refused"},
    {'u', 1, 0, "refused as 3: not sound", "refused"},
};
enum { ROWS = sizeof rows / sizeof *rows };

/* The limit in microseconds, 0 where there is none. A state of the right form has to be read before it is known not to be sound. */
static double limit(const struct row *row)
{
    switch (row->kind) {
    case '1':
    case 'x':
        return MOST_EARLY;
    case '3':
        return MOST_UNFORMED;
    case 'd':
        return MOST_DUE;
    default:
        return row->kind == 'u' || row->kind == 'y' ? 0 : MOST_EVENT;
    }
}

static double seconds(void)
{
    struct timespec t;
    if (clock_gettime(CLOCK_PROCESS_CPUTIME_ID, &t) != 0)
        fail("pace: no processor time");
    return (double)t.tv_sec + (double)t.tv_nsec * 1e-9;
}

static double through_c(const struct row *row)
{
    static const char *const kinds[] = {"refused", "out", "got", "done", "ignored", "nothing", "clash", "late", "exhausted", "reason"};
    double began;
    uint64_t i, turns = row->kind == '1' || row->kind == 'x' ? TURNS * 20 : TURNS;
    before(row->kind);
    began = seconds();
    for (i = 0; i < turns; i++)
        turn(row->kind, i);
    began = seconds() - began;
    if (row->wanted[0] != '\0' && (cuelink_kind(answer) > 9 || strcmp(kinds[cuelink_kind(answer)], row->wanted) != 0)) {
        fprintf(stderr, "pace: %s: the last answer is %" PRIu64 ", and not %s: something else was measured\n", row->name, answer, row->wanted);
        exit(2);
    }
    return began * 1e6 / (double)turns / row->calls;
}

/* The processor time of a program that makes 10^digit turns. */
static double run(const char *program, char kind, char digit)
{
    char letter[2] = {kind, 0}, power[2] = {digit, 0};
    char *words[] = {(char *)(uintptr_t)program, letter, power, NULL};
    posix_spawn_file_actions_t silent;
    struct rusage used;
    pid_t child;
    int status;
    if (posix_spawn_file_actions_init(&silent) != 0 || posix_spawn_file_actions_addopen(&silent, 1, "/dev/null", 1, 0) != 0 ||
        posix_spawn(&child, program, &silent, NULL, words, environ) != 0)
        fail(program);
    posix_spawn_file_actions_destroy(&silent);
    if (wait4(child, &status, 0, &used) != child || status != 0) {
        fprintf(stderr, "pace: %s %s %s fails\n", program, letter, power);
        exit(2);
    }
    return (double)(used.ru_utime.tv_sec + used.ru_stime.tv_sec) + (double)(used.ru_utime.tv_usec + used.ru_stime.tv_usec) * 1e-6;
}

/* The difference of two runs, so that starting costs nothing. */
static double by_program(const char *program, const struct row *row)
{
    double took = run(program, row->kind, '4') - run(program, row->kind, '2');
    return took * 1e6 / 9900 / row->calls;
}

static double lesser(double a, double b)
{
    return a < b ? a : b;
}

static int too_slow(const struct row *row, double ours, double direct)
{
    int slow = 0;
    if (limit(row) > 0 && ours > limit(row))
        slow = printf("    %s takes %.3f us, and at most %.1f are allowed\n", row->name, ours, limit(row));
    if (row->compared && row->kind != 'x' && ours > MOST_RATIO * direct)
        slow = printf("    %s takes %.2f times the direct call, and at most %d times are allowed\n", row->name, ours / direct, MOST_RATIO);
    return slow != 0;
}

int main(int count, char **words)
{
    int rounds = count > 3 ? atoi(words[3]) : 7, r, slow = 0, i;
    if (count < 3 || count > 4 || rounds < 1) {
        fputs("usage: pace DIRECT TWIN [ROUNDS]\n", stderr);
        return 2;
    }
    printf("%-30s %9s %9s %9s %8s %8s   %s\n", "microseconds of one call", "C", "direct", "twin", "C/direct", "C/twin", "limits");
    for (i = 0; i < ROWS; i++) {
        const struct row *row = &rows[i];
        double ours = 1e9, direct = 1e9, twin = 1e9;
        for (r = 0; r < rounds; r++) {
            ours = lesser(ours, through_c(row));
            if (row->compared) {
                direct = lesser(direct, by_program(words[1], row));
                twin = lesser(twin, by_program(words[2], row));
            }
        }
        printf("%-30s %9.3f", row->name, ours);
        if (row->compared)
            printf(" %9.3f %9.3f %8.2f %8.1f", direct, twin, ours / direct, ours / twin);
        else
            printf(" %9s %9s %8s %8s", "", "", "", "");
        if (limit(row) > 0)
            printf("   %g us%s", limit(row), row->compared && row->kind != 'x' ? ", 3 x direct" : "");
        printf("\n");
        if (fflush(stdout) != 0)
            fail("pace: what was measured cannot be written");
        slow |= too_slow(row, ours, direct);
    }
    if (!slow)
        puts("every call keeps to its limits");
    return slow;
}
