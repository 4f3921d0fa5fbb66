/* A question of the library, as the fuzzer asks it: it must change nothing. */
#ifndef FUZZ_QUESTION_H
#define FUZZ_QUESTION_H

#include "call.h"

/* What a question answers beside its number; dsp_engine_peek has an answer as the requests have. */
union report {
    struct dsp_settings settings;
    struct dsp_slot slot;
    struct dsp_space space;
    struct dsp_position position;
    struct dsp_errors errors;
    uint64_t ready[2]; /* who can write, and who can read */
    uint32_t delay;
    uint8_t bytes[64];
};

/* The bytes that a question writes where it answers something. */
size_t report_size(uint32_t question);

/* Whether two engines answered the same. What lies between the numbers of a struct doesn't count. */
bool is_report_alike(uint32_t question, const union report *one, const union report *other);

/* Asks a question. What a null pointer is given for isn't answered; answer is that of dsp_engine_peek. */
int64_t ask_question(struct dsp_engine *engine, const struct call *call, union report *report, struct dsp_answer *answer);

/* Whether an engine answers the same in other words: settings by requests, slots by descriptors, and so on. */
bool is_told_otherwise(struct dsp_engine *engine, const struct dsp_device *device, const struct call *call, int64_t number,
                       const union report *report);

#endif
