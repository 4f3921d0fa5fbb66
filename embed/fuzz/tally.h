/* Counts what a fuzzer's process has tried. */
#ifndef FUZZ_TALLY_H
#define FUZZ_TALLY_H

#include "call.h"

enum counted { COUNT_SEQUENCES, COUNT_CALLS, COUNT_ACCEPTED, COUNT_REFUSED, COUNT_WRONG, COUNT_REPLAYED, COUNT_QUESTIONS, COUNTS };

void count_one(enum counted counted);

/* Counts a call or a question by its answer, and reports to libFuzzer which kind of it was answered so. */
void count_call(const struct call *call, int64_t number);

/* Prints all counts, by their names, on the error output. */
void tell_counts(void);

#endif
