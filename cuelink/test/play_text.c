#include "play_text.h"

#include <stdarg.h>
#include <stdio.h>
#include <stdlib.h>
#include <string.h>

void words_split(struct words *words, const char *line, size_t length)
{
    size_t from = 0, at;
    words->count = words->next = words->spoiled = 0;
    for (at = 0; at <= length && words->count < MOST_WORDS; at++)
        if (at == length || line[at] == ' ') {
            words->word[words->count] = line + from;
            words->length[words->count++] = at - from;
            from = at + 1;
        }
}

int words_over(const struct words *words)
{
    return words->next == words->count;
}

int words_whole(const struct words *words)
{
    return words_over(words) && !words->spoiled;
}

static int is(const struct words *words, const char *word)
{
    size_t length = strlen(word);
    return !words_over(words) && words->length[words->next] == length && memcmp(words->word[words->next], word, length) == 0;
}

int words_take(struct words *words, const char *word)
{
    int taken = is(words, word);
    words->next += taken;
    return taken;
}

int words_one_of(struct words *words, const char *const *list)
{
    int i;
    for (i = 0; list[i] != NULL; i++)
        if (words_take(words, list[i]))
            return i;
    words->spoiled = 1;
    return -1;
}

/* The next word and its length; an empty one where there is none, which spoils. */
static const char *word(struct words *words, size_t *length)
{
    *length = 0;
    if (words_over(words)) {
        words->spoiled = 1;
        return "";
    }
    *length = words->length[words->next];
    return words->word[words->next++];
}

/* Digits without leading zeros, as a number up to `most`. */
static int decimal(const char *digits, size_t length, uint64_t most, uint64_t *number)
{
    size_t i;
    *number = 0;
    if (length == 0 || (length > 1 && digits[0] == '0'))
        return 0;
    for (i = 0; i < length; i++) {
        uint64_t digit = (uint64_t)(digits[i] - '0');
        if (digits[i] < '0' || digits[i] > '9' || *number > (UINT64_MAX - digit) / 10)
            return 0;
        *number = *number * 10 + digit;
    }
    return *number <= most;
}

uint64_t words_number(struct words *words, uint64_t most)
{
    size_t length;
    const char *digits = word(words, &length);
    uint64_t number;
    if (decimal(digits, length, most, &number))
        return number;
    words->spoiled = 1;
    return 0;
}

uint16_t words_signed(struct words *words)
{
    size_t length;
    const char *digits = word(words, &length);
    int negative = length > 0 && digits[0] == '-';
    uint64_t number;
    if (decimal(digits + negative, length - (size_t)negative, negative ? 32768 : 32767, &number) && !(negative && number == 0))
        return (uint16_t)(negative ? 65536 - number : number);
    words->spoiled = 1;
    return 0;
}

static int hex_digit(char digit)
{
    if (digit >= '0' && digit <= '9')
        return digit - '0';
    if (digit >= 'A' && digit <= 'F')
        return digit - 'A' + 10;
    return -1;
}

size_t words_bytes(struct words *words, uint8_t *bytes, size_t most)
{
    size_t length, i;
    const char *digits;
    if (words_take(words, "none"))
        return 0;
    digits = word(words, &length);
    if (length == 0 || length % 2 == 1 || length / 2 > most) {
        words->spoiled = 1;
        return 0;
    }
    for (i = 0; i < length / 2; i++) {
        int high = hex_digit(digits[2 * i]), low = hex_digit(digits[2 * i + 1]);
        if (high < 0 || low < 0) {
            words->spoiled = 1;
            return 0;
        }
        bytes[i] = (uint8_t)(high << 4 | low);
    }
    return length / 2;
}

void text_clear(struct text *text)
{
    text->used = 0;
    text->bytes[0] = '\0';
}

void text_add(struct text *text, const char *format, ...)
{
    va_list values;
    int added;
    va_start(values, format);
    added = vsnprintf(text->bytes + text->used, MOST_TEXT - text->used, format, values);
    va_end(values);
    if (added < 0 || (size_t)added >= MOST_TEXT - text->used)
        fail("a text is too long");
    text->used += (size_t)added;
}

void text_hex(struct text *text, const uint8_t *bytes, size_t length)
{
    static const char digits[] = "0123456789ABCDEF";
    size_t i;
    if (length == 0) {
        text_add(text, "none");
        return;
    }
    if (2 * length >= MOST_TEXT - text->used)
        fail("a text is too long");
    for (i = 0; i < length; i++) {
        text->bytes[text->used++] = digits[bytes[i] >> 4];
        text->bytes[text->used++] = digits[bytes[i] & 15];
    }
    text->bytes[text->used] = '\0';
}

char *text_input(size_t *length)
{
    size_t room = 1 << 16, got;
    char *all = malloc(room);
    *length = 0;
    while (all != NULL && (got = fread(all + *length, 1, room - *length, stdin)) > 0) {
        *length += got;
        if (*length == room)
            all = realloc(all, room *= 2);
    }
    if (all == NULL || ferror(stdin))
        fail("standard input cannot be read");
    return all;
}

void fail(const char *format, ...)
{
    va_list values;
    fflush(stdout);
    va_start(values, format);
    vfprintf(stderr, format, values);
    va_end(values);
    fputc('\n', stderr);
    exit(1);
}
