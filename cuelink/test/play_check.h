/* What must hold at any state, whatever was played before: tried on copies, so that the run goes on as it was. */
#ifndef PLAY_CHECK_H
#define PLAY_CHECK_H

#include "play_calls.h"

/* Drawn numbers (splitmix64). */
void dice_seed(uint64_t seed);
uint64_t dice_below(uint64_t n);
int dice_one_in(uint64_t n);

/* The sizes are the layout's. */
void check_sizes(void);

/* Openings, and openings again, about one that was answered so (0, or 12 to 14): with other lengths, numbers too large for their fields, clocks
   and next numbers. What is refused changes no byte, and else the bytes are those of the layout. */
void check_openings(uint64_t host, const uint64_t *params, uint64_t answer);

/* Whether the library takes the state as sound. */
int is_sound(const uint8_t *state);

/* The bytes are a state's, the looks tell what they have, and cuelink_due the least due time of a sound one. */
void check_state(const uint8_t *state);

/* A Fire at one tick before cuelink_due gives Nothing, one from it on is put out; where nothing waits none ever is. Of members alone. */
void check_fires(const uint8_t *state);

/* An action with a source or a number that no name has, or with a cue not of 24 bytes, does what the nearest one in a trace's words does. */
void check_wide(const uint8_t *state, const struct action *action, const struct around *around);

/* The guard at work: tells a call of a record more than it is lent, to be read (`read-past`), or of an output longer than it is (`write-past`), and
   is stopped for it. To be made before any other call; returns where it is not stopped, or the word is another. */
void run_past(const char *way);

#endif
