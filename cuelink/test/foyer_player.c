/*
 * Plays a script of foyer, on standard input, through libcuelink's calls, and prints what the proved program `foyer` prints: docs/DISPLAYS.md,
 * "The script of foyer". The two ends are 31,136 bytes each and the display 25, lent to each call.
 *
 *   foyer_player [guarded] [check]
 *
 * `guarded` lends memory between pages that nobody may touch (play_memory.h). `check` looks at the display after each line about it, and tries
 * calls on damaged copies of it: what is no display's form is refused as 3, and a refusal changes no byte.
 */
#include <inttypes.h>
#include <stdio.h>
#include <stdlib.h>
#include <string.h>

#include "play_calls.h"
#include "play_check.h"
#include "play_memory.h"
#include "play_message.h"

enum { MOST_LINE = 600, BUFFER_BYTES = 200, MESSAGES = 64, LOST = 4, MOST_LOST = 6, FILL = 165 };

static uint8_t ends[2][STATE_BYTES], display[DISPLAY_BYTES], buffer[BUFFER_BYTES];
static size_t room = 128, used;
static uint8_t messages[MESSAGES][LONGEST_WRITTEN];
static size_t lengths[MESSAGES];
static uint64_t put_out;
static int checks;

static const uint64_t standard[PARAMS] = {9, 8, 4, 4, 4, 8, 0};
static const char *const event_words[] = {"join", "joined", "leave", "left", "crash", "send", "hear", "fire", "report", "announce", NULL};
static const enum event events[] = {JOIN, JOINED, LEAVE, LEFT, CRASH, SEND, ARRIVAL, FIRE, REPORT, ANNOUNCE};

/* ---- messages */

static uint64_t keep_message(const uint8_t *bytes, size_t length)
{
    memcpy(messages[put_out % MESSAGES], bytes, length);
    lengths[put_out % MESSAGES] = length;
    return put_out++;
}

/* The message of a number; where it is not kept the words are spoiled. */
static const uint8_t *words_kept(struct words *w, size_t *length)
{
    uint64_t number = words_number(w, UINT64_MAX);
    *length = 0;
    if (number >= put_out || put_out - number > MESSAGES)
        w->spoiled = 1;
    else
        *length = lengths[number % MESSAGES];
    return messages[number % MESSAGES];
}

/* ---- answers, as house prints them */

static void print_answer(uint64_t answer, const uint8_t *out)
{
    static const char *const words[] = {"refused", "out", "got", "done", "ignored", "nothing", "clash", "late", "exhausted"};
    uint64_t kind = answer >> 32, source = answer >> 16 & 65535, number = answer & 65535;
    if (kind > EXHAUSTED)
        fail("an answer is %" PRIX64, answer);
    printf("%s", words[kind]);
    if (kind == OUT)
        printf(" %" PRIu64, keep_message(out, number));
    else if (kind == REFUSED)
        printf(" %" PRIu64, number);
    else if (kind == GOT || kind == CLASH || kind == LATER)
        printf(" %" PRIu64 " %" PRIu64, source, number);
    else if (answer != answer_of((enum kind)kind, 0, 0))
        fail("an answer is %" PRIX64, answer);
    if (kind == GOT)
        printf(" %d", (int16_t)number_at(out, 2));
}

static void print_lost(const uint64_t *lost)
{
    int i;
    if (lost[1] == 0 && lost[2] == nothing_to_tell && lost[3] == nothing_to_tell)
        return;
    printf("; lost");
    for (i = 0; i < 64; i++)
        if (lost[1] >> i & 1)
            printf(" %" PRIu64, lost[0] + (uint64_t)i);
    if (lost[2] != nothing_to_tell || lost[3] != nothing_to_tell)
        printf(" %" PRIu64 "..%" PRIu64, lost[2], lost[3]);
}

/* ---- checks on copies of the display */

/* What a call is lent, before it or after it. */
struct lent_to_call {
    uint8_t display[DISPLAY_BYTES + 2];
    uint64_t lost[MOST_LOST];
    uint8_t out[BUFFER_BYTES];
};

/* The call has to be refused by this number and to change nothing. */
static void check_refused(const uint8_t *bytes, size_t length, int hears, size_t lost_count, size_t out_room, uint64_t number)
{
    static const uint8_t probe[1];
    struct lent_to_call before, after;
    uint64_t clock = number_at(display + 4, 8), answer;
    memset(&before, 0xA5, sizeof before);
    memcpy(before.display, bytes, length);
    after = before;
    if (hears)
        answer = call_display_hear(after.display, length, clock, probe, 0, after.lost, lost_count, after.out, out_room);
    else
        answer = call_display_step(after.display, length, clock, after.out, out_room);
    if (answer != number)
        fail("a call on %lu damaged bytes of a display answers %" PRIX64 " and not refused %" PRIu64, (unsigned long)length, answer, number);
    if (memcmp(&before, &after, sizeof before) != 0)
        fail("a display's call is refused as %" PRIu64 " and has changed a byte", number);
}

static void check_display(void)
{
    uint8_t damaged[DISPLAY_BYTES + 2] = {0};
    struct display read;
    size_t length = DISPLAY_BYTES, at = dice_below(DISPLAY_BYTES);
    int hears = (int)dice_below(2);
    if (!read_display(display, DISPLAY_BYTES, &read))
        fail("a call has left bytes that are no display's");
    check_display_looks(display, DISPLAY_BYTES);
    memcpy(damaged, display, DISPLAY_BYTES);
    if (dice_one_in(4))
        length = dice_one_in(2) ? DISPLAY_BYTES - 1 - dice_below(3) * 12 : DISPLAY_BYTES + 1 + dice_below(2);
    else
        damaged[at] = (uint8_t)(dice_one_in(2) ? damaged[at] ^ 1 << dice_below(8) : (int)dice_below(256));
    check_display_looks(damaged, length);
    if (!read_display(damaged, length, &read))
        check_refused(damaged, length, hears, LOST, 128, 3);
    check_refused(damaged, length, hears, LOST, dice_below(128), 1);
    check_refused(damaged, length, 1, dice_below(LOST), 128, 1);
}

/* An opening that was answered so, with hosts too large for their fields or into other lengths: it is refused, and changes nothing. */
static void check_opening(uint64_t own, uint64_t sender)
{
    static const uint64_t wider[] = {256, 65536, (uint64_t)1 << 32, (uint64_t)1 << 63};
    uint64_t more = wider[dice_below(4)], answer;
    uint8_t before[DISPLAY_BYTES + 2], after[DISPLAY_BYTES + 2];
    size_t length = dice_one_in(2) ? DISPLAY_BYTES - 1 - dice_below(2) * (DISPLAY_BYTES - 1) : DISPLAY_BYTES + 1 + dice_below(2);
    memset(before, 0xA5, sizeof before);
    memset(after, 0xA5, sizeof after);
    answer = dice_one_in(2) ? call_display_open(own + more, sender, after, DISPLAY_BYTES) : call_display_open(own, sender + more, after, DISPLAY_BYTES);
    if (answer != 12)
        fail("cuelink_display_open with a host too large by %" PRIu64 " answers %" PRIX64 " and not 12", more, answer);
    answer = call_display_open(own, sender, after, length);
    if (answer != 3)
        fail("cuelink_display_open into %lu bytes answers %" PRIX64 " and not 3", (unsigned long)length, answer);
    if (memcmp(before, after, sizeof before) != 0)
        fail("cuelink_display_open is refused and has changed a byte");
}

/* ---- lines */

/* A call of the display is told with its losses. The output is its buffer's front. */
static void tell_display(uint64_t clock, uint64_t answer, const uint64_t *lost)
{
    used = accounted(answer);
    if (used > BUFFER_BYTES)
        fail("an answer is %" PRIX64, answer);
    printf("2 %" PRIu64 " ", clock);
    print_answer(answer, buffer);
    if (answer >> 32 != REFUSED)
        print_lost(lost);
    printf("\n");
}

static int play_hear(struct words *w)
{
    static uint8_t bytes[MOST_MESSAGE];
    uint64_t lost[MOST_LOST], filled[MOST_LOST], clock = words_number(w, UINT64_MAX), answer;
    uint8_t before[DISPLAY_BYTES];
    size_t length, count = LOST + dice_below(MOST_LOST - LOST + 1);
    const uint8_t *message = bytes;
    if (words_take(w, "bytes"))
        length = words_bytes(w, bytes, MOST_MESSAGE);
    else
        message = words_kept(w, &length);
    if (!words_whole(w))
        return 0;
    memset(buffer, FILL, BUFFER_BYTES);
    memset(lost, 0xA5, sizeof lost);
    memset(filled, 0xA5, sizeof filled);
    memcpy(before, display, DISPLAY_BYTES);
    answer = call_display_hear(display, DISPLAY_BYTES, clock, message, length, lost, count, buffer, room);
    if (memcmp(lost + LOST, filled + LOST, sizeof lost - LOST * sizeof *lost) != 0)
        fail("a hear has written a fifth number");
    if (answer >> 32 == REFUSED && (memcmp(lost, filled, sizeof lost) != 0 || memcmp(before, display, DISPLAY_BYTES) != 0))
        fail("a hear is refused as %" PRIu64 " and has changed the display or the losses", answer);
    if (answer >> 32 != REFUSED && lost[0] != 0 && lost[0] != number_at(before + 13, 2))
        fail("the set of losses counts from %" PRIu64 ", which is not the old trail", lost[0]);
    tell_display(clock, answer, lost);
    return 1;
}

static int play_step(struct words *w)
{
    static const uint64_t none[LOST] = {0, 0, UINT64_MAX, UINT64_MAX};
    uint64_t clock = words_number(w, UINT64_MAX);
    uint8_t before[DISPLAY_BYTES];
    uint64_t answer;
    if (!words_whole(w))
        return 0;
    memset(buffer, FILL, BUFFER_BYTES);
    memcpy(before, display, DISPLAY_BYTES);
    answer = call_display_step(display, DISPLAY_BYTES, clock, buffer, room);
    if (answer >> 32 == REFUSED && memcmp(before, display, DISPLAY_BYTES) != 0)
        fail("a step is refused as %" PRIu64 " and has changed the display", answer);
    tell_display(clock, answer, none);
    return 1;
}

/* Where an opening is refused, the display is that of host 0 following host 1. */
static int play_open(struct words *w)
{
    uint64_t own = words_number(w, 255), sender = words_number(w, 255), number;
    uint8_t before[DISPLAY_BYTES];
    if (!words_whole(w))
        return 0;
    memset(buffer, FILL, BUFFER_BYTES);
    used = 0;
    memcpy(before, display, DISPLAY_BYTES);
    number = call_display_open(own, sender, display, DISPLAY_BYTES);
    if (checks)
        check_opening(own, sender);
    if (number == 0) {
        printf("2 opened\n");
        return 1;
    }
    if (memcmp(before, display, DISPLAY_BYTES) != 0)
        fail("an opening is refused as %" PRIu64 " and has changed the display", number);
    printf("2 refused %" PRIu64 "\n", number);
    if (call_display_open(0, 1, display, DISPLAY_BYTES) != 0)
        fail("a display of host 0 following host 1 is not opened");
    return 1;
}

static int play_set(struct words *w)
{
    struct display d;
    read_display(display, DISPLAY_BYTES, &d);
    if (words_take(w, "own")) {
        d.own = (uint8_t)words_number(w, 255);
    } else if (words_take(w, "sender")) {
        d.sender = (uint8_t)words_number(w, 255);
    } else if (words_take(w, "clock")) {
        d.clock = words_number(w, UINT64_MAX);
    } else if (words_take(w, "unstarted")) {
        d.started = 0;
    } else if (words_take(w, "window")) {
        d.started = 1;
        d.trail = (uint16_t)words_number(w, 65535);
        d.lead = (uint16_t)words_number(w, 65535);
        d.set = words_number(w, UINT64_MAX);
    } else {
        return 0;
    }
    if (!words_whole(w))
        return 0;
    put_display(display, d);
    return 1;
}

static int play_show(struct words *w)
{
    struct display d;
    struct text output;
    size_t i;
    if (!words_whole(w))
        return 0;
    read_display(display, DISPLAY_BYTES, &d);
    printf("2 own %d sender %d clock %" PRIu64 " ", d.own, d.sender, d.clock);
    if (d.started)
        printf("trail %d lead %d set %" PRIu64, d.trail, d.lead, d.set);
    else
        printf("unstarted");
    text_clear(&output);
    text_hex(&output, buffer, used);
    for (i = used; i < BUFFER_BYTES && buffer[i] == FILL; i++)
        ;
    printf("; %s%s\n", output.bytes, i < BUFFER_BYTES ? " CHANGED" : "");
    return 1;
}

static int play_on_display(struct words *w)
{
    if (words_take(w, "open"))
        return play_open(w);
    if (words_take(w, "hear"))
        return play_hear(w);
    if (words_take(w, "step"))
        return play_step(w);
    if (words_take(w, "set"))
        return play_set(w);
    return words_take(w, "show") && play_show(w);
}

static int play_event(int end, struct words *w)
{
    static const uint16_t draws[64];
    uint8_t out[128] = {0}, cue[CUE_BYTES] = {0};
    struct around around = {draws, 64, out, sizeof out};
    struct action a = {JOIN, 0, 0, 0, cue, CUE_BYTES};
    uint64_t answer;
    int event = words_one_of(w, event_words);
    if (event < 0)
        return 0;
    a.event = events[event];
    a.clock = words_number(w, UINT64_MAX);
    if (a.event == SEND)
        put_number(cue, 2, words_signed(w));
    else if (a.event == ARRIVAL)
        a.bytes = words_kept(w, &a.length);
    if (!words_whole(w))
        return 0;
    answer = call_event(ends[end], STATE_BYTES, &a, &around);
    printf("%d %" PRIu64 " ", end, a.clock);
    print_answer(answer, out);
    printf("\n");
    return 1;
}

/* Plays a line; 0 where it is bad. */
static int play_line(const char *line, size_t length)
{
    static struct words w;
    int played;
    if (length > MOST_LINE)
        return 0;
    if (length == 0 || line[0] == '#')
        return 1;
    words_split(&w, line, length);
    if (words_take(&w, "room")) {
        uint64_t bytes = words_number(&w, BUFFER_BYTES);
        room = words_whole(&w) ? (size_t)bytes : room;
        return words_whole(&w);
    }
    if (words_take(&w, "0"))
        return play_event(0, &w);
    if (words_take(&w, "1"))
        return play_event(1, &w);
    played = words_take(&w, "2") && play_on_display(&w);
    if (played && checks)
        check_display();
    return played;
}

static void start(void)
{
    int h;
    for (h = 0; h < 2; h++)
        if (call_open((uint64_t)h, standard, PARAMS, ends[h], STATE_BYTES) != 0)
            fail("host %d is not opened", h);
    if (call_display_open(2, 0, display, DISPLAY_BYTES) != 0)
        fail("a display of host 2 following host 0 is not opened");
    memset(buffer, FILL, BUFFER_BYTES);
}

int main(int count, char **words)
{
    size_t length, at = 0;
    char *script;
    int i, guarded = 0;
    for (i = 1; i < count; i++) {
        if (strcmp(words[i], "guarded") != 0 && strcmp(words[i], "check") != 0)
            fail("usage: foyer_player [guarded] [check]");
        guarded = guarded || words[i][0] == 'g';
        checks = checks || words[i][0] == 'c';
    }
    memory_open(guarded);
    start();
    script = text_input(&length);
    while (at < length) {
        const char *line = script + at, *end = memchr(line, '\n', length - at);
        size_t line_length = end == NULL ? length - at : (size_t)(end - line);
        if (end == NULL || !play_line(line, line_length)) {
            printf("bad\n");
            break;
        }
        at += line_length + 1;
    }
    free(script);
    return 0;
}
