/*
 * States damaged at random. What is no state's form must be refused as 3 with no byte changed; of what is one, sound or not, a trace is printed
 * that sets an end to that state and asks what the library has answered, for the twin to answer too.
 */
#ifndef PLAY_DAMAGE_H
#define PLAY_DAMAGE_H

#include "play_bench.h"

/* How many damaged states there were, and how many of them are a state's form and sound. */
struct damage {
    unsigned long all, forms, sound;
};

/* Damages the bytes of an end in some ways, each on a copy. */
void damage_end(const struct bench *bench, int end, struct damage *damage);

/* Changes every byte of an end, each alone. Of these nothing is printed. */
void damage_every_byte(const struct bench *bench, int end, struct damage *damage);

#endif
