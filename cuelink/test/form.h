/*
 * The form of an end's state and of a display, read and written by the words of the layout alone, and by no line of the library:
 *
 *   end      mark CE, layout 01, host 1, C1 C2 C3 D1 D2 D3 E 8 each, clock 8, status 1 (0..4), next 4, eight sources of 3,883
 *   source   span: 0, or 1 first 2 last 2 (5) | missed 4 | pair: 0, or 1 requester 1 sender 1 number 2 (5) | distance 8
 *            heard: 0, or 1 stamp 8 when 8 hosts 1 (18) | origin: 0, or 1 number 2 (3) | 64 attempts: tried 1, late 0/1 (128) | 64 records of 58
 *   record   tag 1, small 1, a 8, b 8, c 8, cue 24, hush 8
 *            tag 0 empty; 1 held; 2 held, small = who asked, a = reply due; 3 waiting, small = round, a = due, b = quiet-until;
 *            4 the same, c = express due
 *   display  mark CD, layout 01, own 1, sender 1, clock 8, tag (0 unstarted, else 1), trail 2, lead 2, set 8
 *
 * Big-endian. What a tag has not is 0. Bytes are a state where reading and writing them again gives the same bytes.
 */
#ifndef FORM_H
#define FORM_H

#include <stddef.h>
#include <stdint.h>

enum { FORM_SIZE = 31136, FORM_SOURCE = 3883, FORM_RECORD = 58, FORM_DISPLAY = 25, FORM_SOURCES_AT = 72, FORM_RECORDS_AT = 171 };
enum form_slot { EMPTY, HELD, REPLYING, WAITING, EXPRESS };

struct form_record {
    enum form_slot slot;
    uint8_t requester, round;
    uint64_t due, quiet, express;
    uint8_t cue[24];
    uint64_t hush;
};

struct form_source {
    int open, paired, heard, begun; /* whether there is a first and last, a pair, a heard stamp, an origin */
    uint16_t first, last;
    uint32_t missed;
    uint8_t requester, sender;
    uint16_t pair_number;
    uint64_t distance, stamp, when;
    uint8_t hosts;
    uint16_t origin;
    uint8_t tried[64];
    int late[64];
    struct form_record records[64];
};

struct form {
    uint8_t host;
    uint64_t params[7], clock;
    unsigned status;
    uint32_t next;
    struct form_source sources[8];
};

/* Reads a state; 0 where it has another length or mark, or a tag that there is not. */
int form_read(const uint8_t *bytes, size_t length, struct form *f);

/* Writes FORM_SIZE bytes. */
void form_write(const struct form *f, uint8_t *bytes);

/* Whether reading and writing again gives the same bytes. */
int form_is(const uint8_t *bytes, size_t length);
int form_is_display(const uint8_t *bytes, size_t length);

#endif
