/*
 * Messages for the players: the library takes them as bytes, and traces write them in words too. Document 01's questions 8 to 11, with what
 * document 02 has made of them, as a reader and a writer of the tests' own.
 */
#ifndef PLAY_MESSAGE_H
#define PLAY_MESSAGE_H

#include "play_layout.h"
#include "play_text.h"

enum { DATA = 17, RQST, REPL, SESS, XPRS, FTCH, LATE, ANNC };
enum { MOST_NAMES = 2, MOST_CUES = 1, MOST_REPORTS = 8, MOST_ECHOES = 7, MOST_MESSAGE = 256, LONGEST_WRITTEN = 127 };

struct name {
    uint8_t source;
    uint16_t number;
    uint8_t host;
};

struct report {
    uint8_t source;
    uint16_t last;
};

struct echo {
    uint8_t host;
    uint64_t stamp, held;
};

/* What a count takes in beyond the parts that are there is zeros. */
struct message {
    uint8_t kind, sender;
    uint64_t stamp;
    uint64_t names, cues, reports, echoes;
    struct name name[MOST_NAMES];
    uint8_t cue[CUE_BYTES];
    struct report report[MOST_REPORTS];
    struct echo echo[MOST_ECHOES];
};

/* Offsets from -2000 to 2000, lamp at most 1000. */
int cue_in_range(const uint8_t *cue);

/* 0, or 9 to 11; the bytes, and how many. */
int write_message(const struct message *message, uint8_t *bytes, size_t *length);

/* 0, or 8 to 11. No bytes are a probe, which is no matter for it. */
int read_message(const uint8_t *bytes, size_t length, struct message *message);

/* COMPOSED, as docs/TRACES.md has it, and CUE. */
void words_message(struct words *words, struct message *message);
void words_cue(struct words *words, uint8_t *cue);

/* A message in words, as an accepted one is told. */
void text_message(struct text *text, const struct message *message);

/* A kind's word, or its number. */
void text_kind(struct text *text, uint8_t kind);

#endif
