/*
 * Plays a trace, on standard input, through libcuelink's calls, and prints what the proved program `replay` prints: docs/TRACES.md. An end is
 * 31,136 bytes that are lent to each call. What is shown of a state is read off them by the layout (play_layout.h), and `set` changes them so.
 *
 *   trace_player [plain|rows|words|record] [guarded] [check]
 *   trace_player restarts SEED      the trace itself, with ends that leave, are left and join again at random points
 *   trace_player damage SEED        a trace of damaged states, for the twin (play_damage.h)
 *
 * `guarded` lends memory between pages that nobody may touch (play_memory.h), `check` looks at each state that an event leaves (play_check.h).
 * A line `END left CLOCK` with the remark `restart` opens the end again by cuelink_reopen, with its clock and its next number.
 * The reader, the writer and the cue test are not the library's calls: of `read` and `test` it gives the verdict, as of an event of a member, and
 * what a `write` gives is heard by one; the rest is the player's own (play_message.h).
 * `read-past` and `write-past` with `guarded` have a call read or write past what it is lent, and have to be stopped for it.
 * Status 1, with a line on standard error: the library has done what none of its calls may do.
 */
#include <inttypes.h>
#include <stdio.h>
#include <stdlib.h>
#include <string.h>

#include "play_bench.h"
#include "play_check.h"
#include "play_damage.h"
#include "play_memory.h"

enum { MOST_LINE = 1000 };

enum mode { PLAIN, ROWS, WORDS, RECORD, RESTARTS, DAMAGE };
static const char *const modes[] = {"plain", "rows", "words", "record", "restarts", "damage"};

static struct bench bench;
static enum mode mode;
static unsigned long lines, calls, right, wrong, under;
static const char *heading;
static size_t heading_length;
static struct damage damage;

/* A line in its parts: what it does, what is expected, the remark. */
struct parts {
    const char *does, *expected, *remark;
    size_t does_length, expected_length, remark_length;
};

/* Where the mark first stands; the length where it does not. */
static size_t cut(const char *line, size_t length, const char *mark)
{
    size_t at;
    for (at = 0; at + 3 <= length; at++)
        if (memcmp(line + at, mark, 3) == 0)
            return at;
    return length;
}

static struct parts parts_of(const char *line, size_t length)
{
    struct parts p = {line, NULL, NULL, cut(line, length, " | "), 0, 0};
    if (p.does_length < length) {
        p.remark = line + p.does_length + 3;
        p.remark_length = length - p.does_length - 3;
        length = p.does_length;
    }
    p.does_length = cut(line, length, " = ");
    if (p.does_length < length) {
        p.expected = line + p.does_length + 3;
        p.expected_length = length - p.does_length - 3;
    }
    return p;
}

/* ---- what is printed */

static void print_source(const uint8_t *state, int source)
{
    const uint8_t *from = source_in(state, source);
    struct span span;
    struct pair pair;
    struct heard heard;
    struct origin origin;
    read_span(from, &span);
    read_pair(from, &pair);
    read_heard(from, &heard);
    read_origin(from, &origin);
    printf("  source %d", source);
    if (span.open)
        printf(" span %d %d", span.first, span.last);
    else
        printf(" closed");
    printf(" missed %" PRIu64, number_at(from + AT_MISSED, 4));
    if (pair.kept)
        printf(" pair %d %d %d", pair.requester, pair.sender, pair.number);
    else
        printf(" nopair");
    printf(" distance %" PRIu64, number_at(from + AT_DISTANCE, 8));
    if (heard.heard)
        printf(" heard %" PRIu64 " %" PRIu64 " %d", heard.stamp, heard.when, heard.sources);
    else
        printf(" unheard");
    if (origin.known)
        printf(" origin %d\n", origin.number);
    else
        printf(" noorigin\n");
}

/* The whole state in words. */
static void show(const uint8_t *state)
{
    static const uint8_t blank[RECORD_BYTES];
    struct attempt attempt;
    struct text text;
    int i, place;
    printf("  host %d\n  params", state[AT_HOST]);
    for (i = 0; i < PARAMS; i++)
        printf(" %" PRIu64, number_at(state + AT_PARAMS + 8 * i, 8));
    printf("\n  clock %" PRIu64 "\n  status %s\n", number_at(state + AT_CLOCK, 8), status_words[state[AT_STATUS]]);
    printf("  next %" PRIu64 "\n", number_at(state + AT_NEXT, 4));
    for (i = 0; i < HOSTS; i++) {
        const uint8_t *source = source_in(state, i);
        print_source(state, i);
        for (place = 0; place < PLACES; place++)
            if (memcmp(record_in(source, place), blank, RECORD_BYTES) != 0) {
                text_clear(&text);
                text_record(&text, record_in(source, place));
                printf("  record %d %d %s\n", i, place, text.bytes);
            }
        for (place = 0; place < PLACES; place++) {
            read_attempt(source, place, &attempt);
            if (attempt.tried != 0 || attempt.late)
                printf("  attempt %d %d %d %d\n", i, place, attempt.tried, attempt.late);
        }
    }
}

/* Prints the heading whose rows are over, with how many of them were right. */
static void close_heading(void)
{
    if (heading != NULL && mode == ROWS) {
        fwrite(heading, 1, heading_length, stdout);
        printf(": %lu right\n", under);
    }
    under = 0;
}

static void open_heading(const char *line, size_t length)
{
    size_t from = length > 1 && line[1] == ' ' ? 2 : 1;
    close_heading();
    heading = line + from;
    heading_length = length - from;
}

/* Whether the answer is these words, or begins with them and a space, and nothing is marked. */
static int met(const struct told *told, const struct parts *p)
{
    const struct text *answer = &told->answer;
    size_t length = p->expected_length;
    return told->fault[0] == '\0' && length <= answer->used && memcmp(answer->bytes, p->expected, length) == 0 &&
           (length == answer->used || answer->bytes[length] == ' ');
}

/* Counts what was expected; whether it is wrong. */
static int judged_wrong(const struct told *told, const struct parts *p)
{
    if (p->expected == NULL)
        return 0;
    if (met(told, p)) {
        right++;
        under++;
        return 0;
    }
    wrong++;
    return 1;
}

static void print_answer(const struct told *told, int is_wrong)
{
    struct text rest;
    text_clear(&rest);
    if (told->outcome == OPENED || told->outcome == EVENT) {
        text_add(&rest, "; ");
        text_hex(&rest, bench.buffer, bench.accounted);
        text_add(&rest, "; %016" PRIX64, digest_of(bench.end[told->end]));
    }
    if (told->outcome == EVENT) {
        text_add(&rest, "; ");
        text_reason(&rest, told->reason);
    }
    printf("%lu %s%s%s%s\n", lines, told->answer.bytes, told->fault, rest.bytes, is_wrong ? " WRONG" : "");
}

static void print_told(const struct told *told, const struct parts *p)
{
    int leaves_end = told->outcome == OPENED || told->outcome == EVENT, is_wrong;
    if (told->outcome == QUIET)
        return;
    if (told->outcome == SHOWN) {
        if (mode == PLAIN || mode == WORDS)
            show(bench.end[told->end]);
        return;
    }
    calls += told->outcome != ASKED;
    if (mode == RECORD) {
        if (told->outcome == EVENT && told->end < SPARE_END && told->kept.used > 0)
            printf("%s\n", told->kept.bytes);
        return;
    }
    is_wrong = judged_wrong(told, p);
    if (mode != ROWS || is_wrong)
        print_answer(told, is_wrong);
    if (mode == WORDS && leaves_end)
        show(bench.end[told->end]);
}

/* ---- playing */

/* Plays a line; 0 where it is bad. */
static int play_line(const char *line, size_t length, struct told *told)
{
    struct parts p;
    told->outcome = QUIET;
    if (length > MOST_LINE)
        return 0;
    if (length > 0 && line[0] == '#') {
        open_heading(line, length);
        return 1;
    }
    p = parts_of(line, length);
    if (p.does_length == 0 && p.expected == NULL)
        return 1;
    bench_play(&bench, p.does, p.does_length, p.remark_length == 7 && memcmp(p.remark, "restart", 7) == 0, told);
    if (told->outcome == BAD || (p.expected != NULL && (p.expected_length == 0 || told->outcome == QUIET || told->outcome == SHOWN)))
        return 0;
    if (mode <= RECORD)
        print_told(told, &p);
    return 1;
}

/* An end 0 to 7 leaves, is left and mostly joins again, at its clock; the lines are played and printed. */
static void restart_end(int end)
{
    static const char *const steps[] = {"%d leave %" PRIu64, "%d left %" PRIu64 " | restart", "%d join %" PRIu64, "%d joined %" PRIu64};
    uint64_t clock = number_at(bench.end[end] + AT_CLOCK, 8);
    int i, count = dice_one_in(8) ? 2 : 4;
    struct text line;
    struct told told;
    for (i = 0; i < count; i++) {
        text_clear(&line);
        text_add(&line, steps[i], end, clock);
        play_line(line.bytes, line.used, &told);
        printf("%s\n", line.bytes);
    }
}

/* The line of a `hear` with the number of a late message in place of its own, which is not there. */
static void rename_message(const char *line, size_t length, struct text *renamed)
{
    size_t kept = length;
    text_clear(renamed);
    while (kept > 0 && line[kept - 1] != ' ')
        kept--;
    if (bench.put_out > 0)
        text_add(renamed, "%.*s%" PRIu64, (int)kept, line, bench.put_out - 1 - dice_below(bench.put_out < 8 ? bench.put_out : 8));
}

/* Prints the line, with a restart before some events. A message that is not there by now is another one, or the line is left out. */
static void vary_line(const char *line, size_t length)
{
    struct told told;
    struct text renamed;
    int end = length > 0 ? line[0] - '0' : -1;
    if (end >= 0 && end < SPARE_END && dice_one_in(40) && bench.end[end][AT_STATUS] != CRASHED)
        restart_end(end);
    if (play_line(line, length, &told)) {
        printf("%.*s\n", (int)length, line);
        return;
    }
    rename_message(line, length, &renamed);
    if (play_line(renamed.bytes, renamed.used, &told))
        printf("%s\n", renamed.bytes);
}

static void damage_line(const char *line, size_t length)
{
    struct told told;
    if (!play_line(line, length, &told))
        fail("line %lu is bad", lines);
    if (told.outcome == EVENT && dice_one_in(25))
        damage_end(&bench, told.end, &damage);
}

static int play_all(const char *trace, size_t length)
{
    size_t at = 0;
    while (at < length) {
        const char *line = trace + at, *end = memchr(line, '\n', length - at);
        size_t line_length = end == NULL ? length - at : (size_t)(end - line);
        struct told told;
        lines++;
        if (mode == RESTARTS)
            vary_line(line, line_length);
        else if (mode == DAMAGE)
            damage_line(line, line_length);
        else if (end == NULL || !play_line(line, line_length, &told)) {
            printf("%lu bad\n", lines);
            return 0;
        }
        at += line_length + 1;
    }
    return 1;
}

static void finish(void)
{
    close_heading();
    if (mode <= WORDS)
        printf("%lu lines, %lu calls, %lu right, %lu wrong\n", lines, calls, right, wrong);
    if (mode == DAMAGE) {
        fprintf(stderr, "%lu damaged states: %lu are a state's form, %lu of them sound; ", damage.all, damage.forms, damage.sound);
        damage.all = damage.forms = 0;
        damage_every_byte(&bench, (int)dice_below(SPARE_END), &damage);
        fprintf(stderr, "%lu with one byte changed, each in turn: %lu are\n", damage.all, damage.forms);
    }
    if (bench.restarts > 0 && mode != RESTARTS)
        fprintf(stderr, "%lu ends opened again\n", bench.restarts);
}

/* The words after the program's name. */
static void take_arguments(int count, char **words)
{
    const char *past = NULL;
    int i, m, guarded = 0;
    for (i = 1; i < count; i++) {
        int known = strcmp(words[i], "guarded") == 0 || strcmp(words[i], "check") == 0;
        if (strcmp(words[i], "read-past") == 0 || strcmp(words[i], "write-past") == 0) {
            past = words[i];
            continue;
        }
        guarded = guarded || words[i][0] == 'g';
        bench.checks = bench.checks || words[i][0] == 'c';
        for (m = PLAIN; m <= DAMAGE; m++)
            if (strcmp(words[i], modes[m]) == 0) {
                mode = (enum mode)m;
                known = 1;
            }
        if (known && mode >= RESTARTS && i + 1 < count && words[i + 1][0] >= '0' && words[i + 1][0] <= '9')
            dice_seed(strtoul(words[++i], NULL, 10));
        if (!known)
            fail("usage: trace_player [plain|rows|words|record|restarts SEED|damage SEED] [guarded] [check]");
    }
    memory_open(guarded);
    if (past != NULL)
        run_past(past);
}

int main(int count, char **words)
{
    size_t length;
    char *trace;
    take_arguments(count, words);
    trace = text_input(&length);
    check_sizes();
    bench_start(&bench);
    if (play_all(trace, length))
        finish();
    free(trace);
    return 0;
}
