/*
 * The script that `dsp_replay soak 7` runs, as calls of the library, by the rules in the README of pcm_soak. Two engines take it side by
 * side, and at each of a hundred places one may be put in the place of another. All together they answer and hand over what the program
 * prints, by docs/SCRIPTS.md.
 */
#ifndef SOAK_EVENTS_H
#define SOAK_EVENTS_H

#include "dsp_engine.h"

/* The places where the events are cut, and the bytes of a line that tells what came of them. */
enum { PLACES = 100, TOLD = 200 };

struct tally {
    unsigned long events, frames, accepted, read, refused, errors, sum;
};

/* What the next numbers are drawn of, and what came of the events so far. */
struct soak {
    uint64_t drawn;
    struct tally tally;
};

/* Nothing has happened yet. */
void begin_soak(struct soak *soak);

/* Both engines take the events up to the next place, and what comes of the other is counted. Answers whether both did the same. */
bool go_on(struct soak *soak, struct dsp_engine *engine, struct dsp_engine *other);

/* Puts into `told` what came of all events. Answers whether the program prints the same. */
bool is_expected(const struct soak *soak, char *told);

#endif
