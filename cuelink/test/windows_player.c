/*
 * Plays lines of the program `windows`, on standard input, through cuelink_windows_find and cuelink_date_roll, and prints what the proved program
 * prints. A list is lent as 8 numbers a window.
 *
 *   windows_player [guarded] [check]
 *
 * `guarded` lends memory between pages that nobody may touch (play_memory.h). `check` asks each question again with one number made too large for
 * its field, or with numbers left over at the list's end: all of them are refused as 15.
 */
#include <inttypes.h>
#include <stdio.h>
#include <stdlib.h>
#include <string.h>

#include "play_calls.h"
#include "play_check.h"
#include "play_memory.h"

#include "cuelink.h"

enum { MOST_LINE = 40, WINDOW = 8, MOST_NUMBERS = 512, REFUSED_AS = 15 };

static uint64_t list[MOST_NUMBERS];
static size_t count;                /* of numbers; those past MOST_NUMBERS are counted and not kept */
static int checks;

/* Digits, just so many. */
static uint64_t words_digits(struct words *w, const char *digits, size_t many)
{
    uint64_t number = 0;
    size_t i;
    for (i = 0; i < many; i++) {
        if (digits[i] < '0' || digits[i] > '9')
            w->spoiled = 1;
        number = number * 10 + (uint64_t)(digits[i] - '0');
    }
    return number;
}

/* YYYY-MM-DD, whether or not there is such a date. */
static void words_date(struct words *w, uint64_t *date)
{
    const char *word = words_over(w) ? "" : w->word[w->next];
    if (words_over(w) || w->length[w->next++] != 10 || word[4] != '-' || word[7] != '-') {
        w->spoiled = 1;
        return;
    }
    date[0] = words_digits(w, word, 4);
    date[1] = words_digits(w, word + 5, 2);
    date[2] = words_digits(w, word + 8, 2);
}

/* ---- checks */

static void refused(const char *call, uint64_t answer)
{
    if (answer != REFUSED_AS)
        fail("%s answers %" PRIX64 " and not refused 15", call, answer);
}

/* A number that is the same in its low bits and does not exist. */
static uint64_t wide(uint64_t number, int small)
{
    static const uint64_t more[] = {256, 65536, (uint64_t)1 << 32, (uint64_t)1 << 40, (uint64_t)1 << 63};
    return number + more[small ? dice_below(5) : 1 + dice_below(4)];
}

static void check_find(const uint64_t *at)
{
    static uint64_t numbers[MOST_NUMBERS];
    uint64_t given[4];
    size_t place = dice_below(4);
    memcpy(given, at, sizeof given);
    given[place] = wide(given[place], place == 1 || place == 2);
    refused("cuelink_windows_find", call_find(list, count, given[0], given[1], given[2], given[3]));
    refused("cuelink_windows_find", call_find(list, count + 1 + dice_below(7), at[0], at[1], at[2], at[3]));
    if (count == 0)
        return;
    memcpy(numbers, list, count * sizeof *numbers);
    place = dice_below(count);
    numbers[place] = wide(numbers[place], place % WINDOW < 6 && place % WINDOW % 3 != 0);
    refused("cuelink_windows_find", call_find(numbers, count, at[0], at[1], at[2], at[3]));
}

static void check_roll(const uint64_t *date)
{
    uint64_t given[3];
    size_t place = dice_below(3);
    memcpy(given, date, sizeof given);
    given[place] = wide(given[place], place > 0);
    refused("cuelink_date_roll", cuelink_date_roll(given[0], given[1], given[2]));
}

/* ---- lines */

static void print_answer(uint64_t answer, int with_minute)
{
    uint64_t year = answer >> 20 & 4095, month = answer >> 16 & 15, day = answer >> 11 & 31, minute = answer & 2047;
    if (answer == answer_of(NOTHING, 0, 0) && with_minute)
        printf("none\n");
    else if (answer <= 65535)
        printf("refused %" PRIu64 "\n", answer);
    else if (answer >> 32 != AT || (minute != 0 && !with_minute))
        fail("an answer is %" PRIX64, answer);
    else if (with_minute)
        printf("%04" PRIu64 "-%02" PRIu64 "-%02" PRIu64 " %" PRIu64 "\n", year, month, day, minute);
    else
        printf("%04" PRIu64 "-%02" PRIu64 "-%02" PRIu64 "\n", year, month, day);
}

static int play_window(struct words *w)
{
    uint64_t window[WINDOW] = {0};
    words_date(w, window);
    words_date(w, window + 3);
    window[6] = words_number(w, 65535);
    window[7] = words_number(w, 65535);
    if (!words_whole(w))
        return 0;
    if (count + WINDOW < MOST_NUMBERS)
        memcpy(list + count, window, sizeof window);
    else
        fail("a list of %lu windows is too long for this program", (unsigned long)(count / WINDOW + 1));
    count += WINDOW;
    return 1;
}

static int play_next(struct words *w)
{
    uint64_t at[4] = {0};
    words_date(w, at);
    at[3] = words_number(w, 65535);
    if (!words_whole(w))
        return 0;
    print_answer(call_find(list, count, at[0], at[1], at[2], at[3]), 1);
    if (checks)
        check_find(at);
    return 1;
}

static int play_roll(struct words *w)
{
    uint64_t date[3] = {0};
    words_date(w, date);
    if (!words_whole(w))
        return 0;
    print_answer(cuelink_date_roll(date[0], date[1], date[2]), 0);
    if (checks)
        check_roll(date);
    return 1;
}

/* Plays a line; 0 where it is bad. */
static int play_line(const char *line, size_t length)
{
    static struct words w;
    if (length > MOST_LINE)
        return 0;
    words_split(&w, line, length);
    if (words_take(&w, "window"))
        return play_window(&w);
    if (words_take(&w, "next"))
        return play_next(&w);
    if (words_take(&w, "roll"))
        return play_roll(&w);
    if (!words_take(&w, "clear") || !words_whole(&w))
        return 0;
    count = 0;
    return 1;
}

int main(int argument_count, char **words)
{
    size_t length, at = 0;
    char *script;
    int i, guarded = 0;
    for (i = 1; i < argument_count; i++) {
        if (strcmp(words[i], "guarded") != 0 && strcmp(words[i], "check") != 0)
            fail("usage: windows_player [guarded] [check]");
        guarded = guarded || words[i][0] == 'g';
        checks = checks || words[i][0] == 'c';
    }
    memory_open(guarded);
    script = text_input(&length);
    while (at < length) {
        const char *line = script + at, *end = memchr(line, '\n', length - at);
        size_t line_length = end == NULL ? length - at : (size_t)(end - line);
        if (end == NULL || !play_line(line, line_length)) {
            printf("bad\n");
            break;
        }
        at += line_length + 1;
    }
    free(script);
    return 0;
}
