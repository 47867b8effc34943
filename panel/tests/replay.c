/*
 * Plays lines of calls on the library, and stops at the first answer or byte that is not the one on its line. The lines, on standard
 * input, with # for a comment and `none` for no bytes:
 *   verdict BYTES = NUMBER                                  panel_verdict
 *   cue BYTES = NUMBER                                      panel_cue_test
 *   write SENDER NUMBER STAMP CUE ROOM = NUMBER [BYTES]     panel_write_data, into an output of ROOM bytes
 * Prints how many lines there were, and how often each answer came. With the argument `all` it also fails where an answer never came. With
 * the argument `read-past` or `write-past` it tells a call of more bytes than there are, and must be stopped for it.
 *
 * Each call is made twice: with its buffers at the end of their pages, before one that nobody may touch, and at the start, after such
 * a one. A read or write past a buffer's ends stops the program. Inputs are given where they cannot be written.
 */
#define _GNU_SOURCE
#include <inttypes.h>
#include <stdio.h>
#include <stdlib.h>
#include <string.h>
#include <sys/mman.h>
#include <unistd.h>

#include "../hex.h"
#include "../panel.h"

enum { MOST = 1 << 14, WORDS = 10, ANSWERS = 41 };

/* Some pages between two that nobody may touch, seen twice: to fill them, and as they are given to a call. */
struct guarded {
    size_t size;
    uint8_t *fill;
    uint8_t *given;
};

static struct guarded input, output;
static unsigned long line_number, counts[3][ANSWERS];

static void fail(const char *what)
{
    fprintf(stderr, "replay: line %lu: %s\n", line_number, what);
    exit(1);
}

static uint8_t *view(int file, size_t page, size_t size, int protection)
{
    uint8_t *all = mmap(NULL, size + 2 * page, PROT_NONE, MAP_PRIVATE | MAP_ANONYMOUS, -1, 0);
    if (all == MAP_FAILED || mmap(all + page, size, protection, MAP_SHARED | MAP_FIXED, file, 0) == MAP_FAILED)
        fail("no pages");
    return all + page;
}

/* Pages for so many bytes. */
static struct guarded guard(size_t most, int given)
{
    size_t page = (size_t)sysconf(_SC_PAGESIZE);
    int file = memfd_create("pages", 0);
    struct guarded g;
    g.size = (most + page - 1) / page * page;
    if (file < 0 || ftruncate(file, (off_t)g.size) != 0)
        fail("no pages");
    g.fill = view(file, page, g.size, PROT_READ | PROT_WRITE);
    g.given = view(file, page, g.size, given);
    close(file);
    return g;
}

/* A word's bytes into the pages, at their end or at their start; what the call is given. */
static const uint8_t *lend(const uint8_t *bytes, size_t length, int at_end)
{
    size_t at = at_end ? input.size - length : 0;
    memcpy(input.fill + at, bytes, length);
    return input.given + at;
}

static size_t bytes_of(const char *word, uint8_t *bytes)
{
    size_t digits = strlen(word);
    if (strcmp(word, "none") == 0)
        return 0;
    if (digits / 2 > MOST || !hex_bytes(word, digits, bytes))
        fail("not bytes");
    return digits / 2;
}

static uint64_t number_of(const char *word)
{
    char *end;
    uint64_t number = strtoumax(word, &end, 10);
    if (*word < '0' || *word > '9' || *end != '\0')
        fail("not a number");
    return number;
}

static void expect(int call, uint32_t answer, uint64_t wanted)
{
    if (answer != wanted) {
        fprintf(stderr, "replay: line %lu: answers %" PRIu32 " and not %" PRIu64 "\n", line_number, answer, wanted);
        exit(1);
    }
    counts[call][answer < ANSWERS ? answer : 0]++;
}

/* The output holds the message in its first bytes and the fill in all others, those before it too. */
static void expect_output(size_t at, uint8_t fill, const uint8_t *message, size_t length)
{
    static uint8_t wanted[MOST];
    memset(wanted, fill, output.size);
    if (length > 0)
        memcpy(wanted + at, message, length);
    if (memcmp(output.fill, wanted, output.size) != 0)
        fail("an output byte is another");
}

static void write_line(char **words, int count, int at_end)
{
    static uint8_t cue[MOST], message[MOST];
    size_t cue_length = bytes_of(words[4], cue), room = number_of(words[5]), length = count > 8 ? bytes_of(words[8], message) : 0;
    size_t at = at_end ? output.size - room : 0;
    uint8_t fill = at_end ? 0xAA : 0x55;
    uint64_t sender = number_of(words[1]), number = number_of(words[2]), stamp = number_of(words[3]);
    if (room > output.size || length > room)
        fail("too much room, or too little");
    memset(output.fill, fill, output.size);
    expect(2, panel_write_data(sender, number, stamp, lend(cue, cue_length, at_end), cue_length, output.given + at, room), number_of(words[7]));
    expect_output(at, fill, message, length);
    if (length > 0 && panel_verdict(output.given + at, length) != PANEL_OK)
        fail("what was written is not accepted");
}

static void play(char **words, int count)
{
    static uint8_t bytes[MOST];
    int at_end;
    for (at_end = 1; at_end >= 0; at_end--) {
        if (count == 4 && strcmp(words[0], "verdict") == 0) {
            size_t length = bytes_of(words[1], bytes);
            expect(0, panel_verdict(lend(bytes, length, at_end), length), number_of(words[3]));
        } else if (count == 4 && strcmp(words[0], "cue") == 0) {
            size_t length = bytes_of(words[1], bytes);
            expect(1, panel_cue_test(lend(bytes, length, at_end), length), number_of(words[3]));
        } else if ((count == 8 || count == 9) && strcmp(words[0], "write") == 0) {
            write_line(words, count, at_end);
        } else {
            fail("no such call");
        }
    }
}

/* Buffers of no bytes may be NULL. */
static void play_null(void)
{
    memset(output.fill, 0xAA, output.size);
    if (panel_verdict(NULL, 0) != PANEL_OK || panel_cue_test(NULL, 0) != PANEL_BAD_CUE ||
        panel_write_data(0, 0, 0, NULL, 0, NULL, 0) != PANEL_NO_ROOM ||
        panel_write_data(0, 0, 0, NULL, 0, output.given, output.size) != PANEL_BAD_RANGE)
        fail("with NULL");
    expect_output(0, 0xAA, NULL, 0);
}

/* The guard at work: a cue of 24 bytes is read where there are 9, a message of 40 is written where there are 39. */
static void play_past(const char *way)
{
    static const uint8_t cue[PANEL_CUE_LENGTH];
    if (strcmp(way, "read-past") == 0)
        panel_cue_test(lend(cue, 9, 1), PANEL_CUE_LENGTH);
    if (strcmp(way, "write-past") == 0)
        panel_write_data(0, 0, 0, cue, sizeof cue, output.given + output.size - 39, PANEL_ROOM);
}

static int report(int all)
{
    static const char *const calls[] = {"verdict", "cue", "write"};
    static const uint8_t answers[3][6] = {{0, 8, 9, 10, 11, 255}, {0, 6, 255}, {1, 10, 40, 255}};
    int call, i, missing = 0;
    printf("%lu lines", line_number);
    for (call = 0; call < 3; call++) {
        printf("; %s", calls[call]);
        for (i = 0; answers[call][i] != 255; i++) {
            unsigned long times = counts[call][answers[call][i]] / 2;
            printf(" %u: %lu", answers[call][i], times);
            missing |= times == 0;
        }
    }
    printf("\n");
    return all && missing;
}

int main(int count, char **arguments)
{
    char *line = NULL, *words[WORDS], *rest;
    size_t room = 0;
    input = guard(MOST, PROT_READ);
    output = guard(1, PROT_READ | PROT_WRITE);
    play_null();
    if (count > 1)
        play_past(arguments[1]);
    while (getline(&line, &room, stdin) > 0) {
        int n = 0;
        line_number++;
        for (rest = strtok(line, " \n"); rest != NULL && *rest != '#' && n < WORDS; rest = strtok(NULL, " \n"))
            words[n++] = rest;
        if (n > 0)
            play(words, n);
    }
    free(line);
    if (ferror(stdin))
        fail("cannot be read");
    return report(count > 1 && strcmp(arguments[1], "all") == 0);
}
