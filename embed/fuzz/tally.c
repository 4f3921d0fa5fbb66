/*
 * What outlasts an input: libFuzzer calls a function that is handed the input alone, so counts have no other place.
 */
#include "tally.h"

#include <stdio.h>

#include "dsp_engine.h"

enum { REQUESTS = 20, MIXER_REQUESTS = 5, ASKED = CALL_KINDS + REQUESTS + MIXER_REQUESTS, KINDS = ASKED + QUESTIONS, ANSWERS = 18 };

static unsigned long counts[COUNTS];

/* libFuzzer keeps inputs that reach what none did before. It doesn't see into the library, so what is reached are kinds of calls with their answers. */
#ifdef __linux__
__attribute__((section("__libfuzzer_extra_counters")))
#endif
static uint8_t reached[KINDS * ANSWERS];

void count_one(enum counted counted) {
    counts[counted] += 1;
}

/* The place of a kind of call, with that of its request. */
static uint32_t kind_of(const struct call *call) {
    if (call->kind == CALL_IOCTL && call->numbers[REQUEST] < REQUESTS) {
        return CALL_KINDS + call->numbers[REQUEST];
    }
    if (call->kind == CALL_MIXER && call->numbers[MIXER_REQUEST] < MIXER_REQUESTS) {
        return CALL_KINDS + REQUESTS + call->numbers[MIXER_REQUEST];
    }
    return call->kind == CALL_ASK ? ASKED + call->numbers[QUESTION] : call->kind;
}

void count_call(const struct call *call, int64_t number) {
    uint32_t answer = number < 0 ? (uint32_t)-number % ANSWERS : 0;
    reached[kind_of(call) * ANSWERS + answer] += 1;
    if (call->kind == CALL_ASK) {
        count_one(COUNT_QUESTIONS);
        return;
    }
    count_one(COUNT_CALLS);
    count_one(number >= 0 ? COUNT_ACCEPTED : number >= DSP_EXISTS ? COUNT_REFUSED : COUNT_WRONG);
}

void tell_counts(void) {
    static const char *const names[] = {"sequences", "calls", "accepted", "refused", "wrong", "replayed", "questions"};
    fputs("tried:", stderr);
    for (int i = 0; i < COUNTS; i += 1) {
        fprintf(stderr, " %s %lu", names[i], counts[i]);
    }
    fputs("\n", stderr);
}
