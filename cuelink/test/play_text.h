/* Words of a line, and text that is put together, for the players: numbers and bytes as docs/TRACES.md writes them. */
#ifndef PLAY_TEXT_H
#define PLAY_TEXT_H

#include <stddef.h>
#include <stdint.h>

enum { MOST_WORDS = 1001, MOST_TEXT = 4096 };

/* The words of a line that are still to be read. Whoever takes a word that does not fit spoils them; nobody asks before the end. */
struct words {
    const char *word[MOST_WORDS];
    size_t length[MOST_WORDS];
    int count, next, spoiled;
};

/* Splits at each space: two of them, or one at either end, make an empty word, which fits nowhere. */
void words_split(struct words *words, const char *line, size_t length);

/* Whether nothing is left, and every word fitted. */
int words_whole(const struct words *words);

/* Whether no word is left. */
int words_over(const struct words *words);

/* Takes the next word if it is this one. */
int words_take(struct words *words, const char *word);

/* Takes the next word; its place in the list that ends with NULL, or -1, which spoils the words. */
int words_one_of(struct words *words, const char *const *list);

/* A decimal number up to `most`. */
uint64_t words_number(struct words *words, uint64_t most);

/* A signed number of 16 bits, as its two's complement. */
uint16_t words_signed(struct words *words);

/* Pairs of hexadecimal digits, or `none`; how many bytes. */
size_t words_bytes(struct words *words, uint8_t *bytes, size_t most);

struct text {
    size_t used;
    char bytes[MOST_TEXT];
};

void text_clear(struct text *text);
void text_add(struct text *text, const char *format, ...);
void text_hex(struct text *text, const uint8_t *bytes, size_t length);

/* The whole of standard input. */
char *text_input(size_t *length);

/* Says what is wrong on standard error, and ends the program with status 1. */
void fail(const char *format, ...) __attribute__((noreturn));

#endif
