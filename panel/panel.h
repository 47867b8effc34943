/*
 * The cue link for a panel's software in C: the reader's verdict, the writer for DATA and the cue test.
 *
 * The library, libpanel.a, is built from the proved crate crates/panel (docs/PANEL.md has the build lines). For every argument that
 * keeps to the rules of this header, each call answers what its definition says, ends, and touches no byte but those named here.
 *
 * Buffers. Every buffer is the caller's, before, during and after the call. A call looks at its input and writes its output while it
 * runs; it keeps no pointer, and allocates and frees nothing.
 *   - A length is a number of bytes, and the buffer must have at least so many; those past the length are not touched.
 *   - Where a length is 0 its pointer may be NULL.
 *   - An input is only read, so it may lie in read-only memory. It must not overlap the output.
 *   - Nobody else may write an input, or read or write the output, until the call has returned.
 *   - No alignment is asked for.
 *
 * Numbers. Hosts, cue numbers and stamps are 64 bits wide, so that a value that is too large, a negative int among them, is
 * refused and not cut.
 *
 * Threads. The library has no state: no variable, no heap, no lock, no file, no errno. Any number of threads may call it at the same
 * time, each with buffers as above, and so may a signal handler. A call needs less than 2 KiB of stack. Of the C library only memcpy and
 * memset are used.
 */
#ifndef PANEL_H
#define PANEL_H

#include <stddef.h>
#include <stdint.h>

#ifdef __cplusplus
extern "C" {
#endif

/* The answers. A refusal's number is that of the first question, in this order, that is answered no. */
enum {
    PANEL_OK = 0,           /* verdict: the message is accepted, or is a probe; cue test: the cue is in range. Never the writer's */
    PANEL_NO_ROOM = 1,      /* writer: the output has fewer than 128 bytes */
    PANEL_BAD_CUE = 6,      /* cue test: an offset or the lamp is out of range, or there are not 24 bytes */
    PANEL_BAD_LENGTH = 8,   /* verdict: 1 to 11 bytes, or counts that do not account for the length exactly */
    PANEL_BAD_KIND = 9,     /* verdict: the first byte is no kind of message, or the counts are not those of its kind */
    PANEL_BAD_RANGE = 10,   /* verdict and writer: a host, cue number, cue field, stamp or held ticks out of range */
    PANEL_BAD_HOSTS = 11,   /* verdict: hosts that the kind does not allow, reports or echoes that do not rise, or a lead not from trail to trail+63 */
    PANEL_DATA_LENGTH = 40  /* writer: the DATA was written, and has so many bytes */
};

#define PANEL_CUE_LENGTH 24 /* the bytes of a cue */
#define PANEL_ROOM 128      /* the least bytes of an output */

/*
 * The reader's verdict on a datagram of `length` bytes.
 * Answers PANEL_OK, or PANEL_BAD_LENGTH, PANEL_BAD_KIND, PANEL_BAD_RANGE or PANEL_BAD_HOSTS.
 * A datagram of no bytes is a probe, which is PANEL_OK: tell it from a message by its length. The kinds 17 to 24 (DATA, RQST, REPL,
 * SESS, XPRS, FTCH, LATE, ANNC) and the old kinds 1 to 4, with cue numbers to 63, are read.
 */
uint32_t panel_verdict(const uint8_t *bytes, size_t length);

/*
 * The cue test: whether focus, zoom, sideways and upright offset are each from -2000 to 2000 and the lamp power is at most 1000. These
 * are the first ten bytes, each number two bytes, the high one first, an offset in two's complement. The other 14 are free.
 * Answers PANEL_OK or PANEL_BAD_CUE.
 */
uint32_t panel_cue_test(const uint8_t *cue, size_t cue_length);

/*
 * Writes the DATA of a sender's own cue: the sender is a host, 0 to 7; `number` is the cue's, 0 to 65535; `stamp` is the sender's clock in
 * ticks, below 2^48; the cue has 24 bytes that pass the cue test.
 * Answers PANEL_DATA_LENGTH, 40: the message is in the first 40 bytes of `out`, and the others are as they were. Otherwise answers
 * PANEL_NO_ROOM where `out_length` is below 128, and else PANEL_BAD_RANGE; then every byte of `out` is as it was. It never answers 0.
 */
uint32_t panel_write_data(uint64_t sender, uint64_t number, uint64_t stamp, const uint8_t *cue, size_t cue_length, uint8_t *out,
                          size_t out_length);

#ifdef __cplusplus
}
#endif

#endif
