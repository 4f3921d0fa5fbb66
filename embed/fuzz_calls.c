/*
 * Tries sequences of calls: the bytes of an input are an engine and calls of it, right and wrong ones. scripts/fuzz-calls builds and runs it.
 *
 * One engine gets all calls. Another gets those that the first accepted, and no more of each than was taken: the bytes that the ring took,
 * room for just what is handed over, captured silence written out. Both answer alike and hand over the same bytes, and at the end both are
 * asked for all that they answer: so what was refused has changed nothing. A call is answered as one that no engine takes exactly where a
 * number is outside the limits of dsp_engine.h. And some sequences are run as scripts by the program, which replies and hands over the
 * same.
 *
 * Now and then the first engine makes way for its clone, or for another one into which its state was loaded: either goes on as it would.
 * With a bit turned the state is loaded before, and is taken, or refused as no state.
 *
 * Between the calls the first engine is asked questions. The other one is asked nothing then, or the same, or the same in other words: so
 * a question has changed nothing, and is answered what the calls are. A request is answered as its question was before, and a client can
 * go on after just as many frames as the question of its wait answered.
 */
#include <stdio.h>
#include <stdlib.h>
#include <string.h>

#include "fuzz/limits.h"
#include "fuzz/script.h"
#include "fuzz/tally.h"
#include "fuzz/told.h"

/* The engines of a sequence, and what its last call was. */
struct run {
    const struct setup *setup;
    struct dsp_engine places[2]; /* the first engine is in one of them, and is moved to the other now and then */
    struct dsp_engine *first;
    struct dsp_engine *second;
    struct brought brought;
    struct got of_first;
    struct got of_second;
    struct call asked;        /* the question right before a call, or another call */
    int64_t asked_number;     /* and what it was answered */
    struct dsp_answer asked_answer;
    struct script script;
    bool is_scripted;
    bool is_ending; /* after the calls of the input: the second engine gets all calls, too */
    unsigned made;
};

/* Ends the process where something is wrong: what, at which call. */
static void must(bool is_right, const struct run *run, const struct call *call, const char *what) {
    if (is_right) {
        return;
    }
    fprintf(stderr, "fuzz_calls: call %u: ", run->made);
    tell_call(stderr, call);
    fprintf(stderr, ": %s; the answers are %ld and %ld\n", what, (long)run->of_first.number, (long)run->of_second.number);
    tell_counts();
    abort();
}

/* The greatest number that a question can be answered. */
static int64_t most_told(uint32_t question) {
    switch (question) {
    case ASK_FRAMES_UNTIL:
        return UINT32_MAX;
    case ASK_IS_READY:
        return DSP_READABLE;
    default:
        return question == ASK_IS_IDLE;
    }
}

/* What the first engine answers is within what the call can be answered. */
static void check_accepted(const struct run *run, const struct call *call) {
    const struct dsp_device *device = &run->setup->device;
    int64_t number = run->of_first.number;
    switch (call->kind) {
    case CALL_OPEN:
        must(number < 16, run, call, "there is no such slot");
        break;
    case CALL_WRITE:
        must((uint64_t)number <= call->length && (number > 0 || call->length == 0), run, call, "it takes another number of bytes");
        break;
    case CALL_READ:
        must((uint64_t)number <= call->room && number <= READ_MOST && (number > 0 || call->room == 0), run, call,
             "it reads another number of bytes");
        break;
    case CALL_INTERRUPT:
        must(number == (int64_t)call->numbers[FRAMES] * frame_bytes(device), run, call, "it hands over another number of bytes");
        break;
    case CALL_ASK:
        must(number <= most_told(call->numbers[QUESTION]), run, call, "it is answered a greater number than there is");
        break;
    default:
        must(number == 0, run, call, "it is answered a number");
        break;
    }
}

/* And is no refusal of another kind. */
static void check_number(const struct run *run, const struct call *call) {
    int64_t number = run->of_first.number;
    int32_t refusal = number < 0 ? (int32_t)number : 0;
    must((number <= DSP_WRONG_ARGUMENT) == !call_is_right(call, &run->setup->device), run, call, "its numbers are judged otherwise");
    must(number != DSP_NO_MEMORY, run, call, "it takes memory");
    must(dsp_engine_error(refusal) != NULL, run, call, "its answer has no text");
    must((dsp_engine_errno(refusal) == 0) == (number >= 0), run, call, "its answer has no errno");
    if (number >= 0) {
        check_accepted(run, call);
    }
}

/* Whether a call puts something into an answer, where it is accepted. */
static bool is_answered(const struct call *call) {
    bool is_peek = call->kind == CALL_ASK && call->numbers[QUESTION] == ASK_PEEK;
    return !call->is_null && (is_peek || call->kind == CALL_IOCTL || call->kind == CALL_JOIN || call->kind == CALL_MIXER);
}

/* A call writes where it says, and nowhere where it was refused. */
static void check_room(const struct run *run, const struct call *call) {
    const struct got *got = &run->of_first;
    bool fills = got->number >= 0 && (call->kind == CALL_READ || call->kind == CALL_INTERRUPT);
    bool tells = got->number >= 0 && !call->is_null && call->kind == CALL_ASK;
    size_t told = tells ? report_size(call->numbers[QUESTION]) : 0;
    must(is_marked(got, call, fills ? (size_t)got->number : 0), run, call, "it wrote where it must not");
    must(is_answer_marked(got) != (got->number >= 0 && is_answered(call)), run, call, "the answer beside its number isn't right");
    must(is_report_marked(got, told) && (told == 0 || !is_report_marked(got, 0)), run, call, "its report isn't right");
}

/* A call that was accepted, with no more than was taken of it; one that was refused, as it is. */
static struct call taken_of(const struct call *call, int64_t number, const struct dsp_device *device) {
    struct call taken = *call;
    if (number < 0 || call->kind == CALL_ASK) {
        return taken;
    }
    taken.is_null = false;
    if (call->kind == CALL_WRITE) {
        taken.length = (size_t)number;
    }
    if (call->kind == CALL_READ || call->kind == CALL_INTERRUPT) {
        taken.room = (size_t)number;
    }
    if (call->kind == CALL_INTERRUPT) {
        taken.length = (size_t)call->numbers[FRAMES] * device->channels;
    }
    return taken;
}

/* The second engine answers and hands over the same. */
static void check_second(struct run *run, const struct call *call) {
    struct got *first = &run->of_first, *second = &run->of_second;
    struct call taken = taken_of(call, first->number, &run->setup->device);
    bool fills = call->kind == CALL_READ || call->kind == CALL_INTERRUPT;

    make_call(run->second, run->setup, &taken, &run->brought, second);
    must(first->number == second->number, run, call, "the engines answer other numbers");
    must(call->is_null || memcmp(&first->answer, &second->answer, sizeof first->answer) == 0, run, call, "the engines report other numbers");
    must(!fills || first->number < 0 || memcmp(first->out, second->out, (size_t)first->number) == 0, run, call, "the engines hand over other bytes");
    must(call->kind != CALL_ASK || first->number < 0 || is_report_alike(call->numbers[QUESTION], &first->report, &second->report), run, call,
         "the engines give other reports");
}

/* Moves the first engine to its other place, as a program may. */
static void move_first(struct run *run) {
    const struct dsp_engine none = DSP_NO_ENGINE;
    struct dsp_engine *other = run->first == &run->places[0] ? &run->places[1] : &run->places[0];
    *other = *run->first;
    *run->first = none;
    run->first = other;
}

/* The first engine is asked something, which uses nothing up; and the other one nothing, the same, or the same in other words. */
static void try_question(struct run *run, const struct call *call) {
    const struct got *got = &run->of_first;
    uint64_t left = dsp_engine_frames_left(run->first);

    run->made += 1;
    make_call(run->first, run->setup, call, &run->brought, &run->of_first);
    count_call(call, got->number);
    check_number(run, call);
    check_room(run, call);
    must(dsp_engine_frames_left(run->first) == left, run, call, "it uses frames up");
    if (run->is_ending || call->seed % 4 == 1) {
        check_second(run, call);
    }
    if (call->seed % 4 == 2) {
        must(is_told_otherwise(run->second, &run->setup->device, call, got->number, &got->report), run, call,
             "another question is answered otherwise");
    }
    run->asked = *call;
    run->asked_number = got->number;
    run->asked_answer = got->answer;
}

/* A request is answered what its question was before. */
static void check_peek(const struct run *run, const struct call *call) {
    const uint32_t *asked = run->asked.numbers, *numbers = call->numbers;
    if (call->kind != CALL_IOCTL || asked[FD] != numbers[FD] || asked[REQUEST] != numbers[REQUEST] || asked[ARGUMENT] != numbers[ARGUMENT]) {
        return;
    }
    must(run->of_first.number == run->asked_number, run, call, "its question gave another number before");
    must(call->is_null || run->asked.is_null || memcmp(&run->of_first.answer, &run->asked_answer, sizeof run->asked_answer) == 0, run, call,
         "its question gave other numbers before");
}

/* After an interrupt a client can go on exactly where that has as many frames as the question of its wait answered. */
static void check_wait(const struct run *run, const struct call *call) {
    int64_t before = run->asked_number, after = 0;
    if (call->kind != CALL_INTERRUPT || run->of_first.number < 0) {
        return;
    }
    after = dsp_engine_frames_until(run->first, run->asked.numbers[FD], run->asked.numbers[UNTIL]);
    must(before < 0 ? after == before : (after == 0) == (before <= call->numbers[FRAMES]), run, call, "the wait before it was another one");
}

/* What was asked right before a call is so. */
static void check_asked(struct run *run, const struct call *call) {
    if (run->asked.kind == CALL_ASK && run->asked.numbers[QUESTION] == ASK_PEEK) {
        check_peek(run, call);
    }
    if (run->asked.kind == CALL_ASK && run->asked.numbers[QUESTION] == ASK_FRAMES_UNTIL) {
        check_wait(run, call);
    }
    run->asked = *call;
}

/* A clone, or a loaded engine, goes on in the place of the first engine, where there is memory for it; the other engine stays. */
static void try_successor(struct run *run, const struct call *call) {
    uint64_t left = dsp_engine_frames_left(run->first);
    int64_t number = 0;

    run->made += 1;
    make_call(run->first, run->setup, call, &run->brought, &run->of_first);
    number = run->of_first.number;
    count_call(call, number);
    check_room(run, call);
    must(number == 0 || number == DSP_NO_MEMORY, run, call, "no engine takes its place");
    must(dsp_engine_frames_left(run->first) == left, run, call, "the one that takes its place has other frames left");
    run->asked = *call;
}

static void try_call(struct run *run, const struct call *call) {
    if (call->kind == CALL_ASK || call->kind == CALL_CLONE || call->kind == CALL_LOAD) {
        (call->kind == CALL_ASK ? try_question : try_successor)(run, call);
        return;
    }
    run->made += 1;
    if (call->kind == CALL_NEW) {
        move_first(run);
    }
    bring(&run->brought, call, &run->setup->device);
    make_call(run->first, run->setup, call, &run->brought, &run->of_first);
    count_call(call, run->of_first.number);
    check_number(run, call);
    check_room(run, call);
    check_asked(run, call);
    if (run->of_first.number >= 0 || run->is_ending) {
        check_second(run, call);
    }
    if (run->is_scripted) {
        put_call(&run->script, call, run->of_first.number, &run->brought, &run->of_second);
    }
}

/* No engine is there: each call says so, and writes nowhere. */
static void try_without(struct run *run, const struct call *call) {
    run->made += 1;
    bring(&run->brought, call, &run->setup->device);
    if (call->kind != CALL_NEW) {
        make_call(run->first, run->setup, call, &run->brought, &run->of_first);
        must(run->of_first.number <= DSP_WRONG_ARGUMENT, run, call, "there is no engine, and it is answered");
        check_room(run, call);
    }
}

/* Makes all calls of an input, one way or the other. */
static void try_all(struct run *run, struct calls *calls, void (*try_one)(struct run *, const struct call *)) {
    struct call call;
    while (next_call(calls, &call)) {
        run->is_ending = calls->asked > 0;
        try_one(run, &call);
    }
}

/* Whether an input is one of those that are run as scripts, by its bytes. */
static bool is_chosen(const uint8_t *bytes, size_t length) {
    const char *every = getenv("FUZZ_CALLS_EVERY");
    unsigned long number = every == NULL ? 0 : strtoul(every, NULL, 10);
    uint32_t sum = 2166136261u;
    for (size_t i = 0; i < length; i += 1) {
        sum = (sum ^ bytes[i]) * 16777619u;
    }
    return number != 0 && sum % number == 0;
}

/* Makes both engines and all calls, where there is memory for them. */
static void try_sequence(struct run *run, struct calls *calls, bool is_chosen) {
    const struct call last = {CALL_CLOSE, {0, 0, 0, 0, 0}, 0, 0, 0, false};
    const struct setup *setup = run->setup;
    int32_t number = make_engine(run->first, setup);

    must((number == 0) == run->first->there, run, &last, "there is an engine where none was made, or none");
    if (number == DSP_NO_MEMORY) {
        return;
    }
    must(number == 0, run, &last, "no engine is made");
    number = dsp_engine_create(&run->second, &setup->device, setup->filters, setup->filter_count, setup->coefs, setup->coef_count,
                               setup->sections, setup->section_count);
    if (number == 0) {
        run->is_scripted = is_chosen && begin_script(&run->script, setup);
        try_all(run, calls, try_call);
        dsp_engine_destroy(run->second);
    }
    dsp_engine_free(run->first);
    must(!run->first->there, run, &last, "a freed engine is there");
    if (run->is_scripted) {
        must(end_script(&run->script), run, &last, "the program does otherwise");
    }
    if (run->is_scripted && run->script.is_whole) {
        count_one(COUNT_REPLAYED);
    }
}

/* A setup that no engine can have makes none, and the calls are made without one. */
static void try_wrong(struct run *run, struct calls *calls, const struct setup *wrong) {
    const struct call first = {CALL_NEW, {0, 0, 0, 0, 0}, 0, 0, 0, false};
    must(make_engine(run->first, wrong) <= DSP_WRONG_ARGUMENT && !run->first->there, run, &first, "an engine of wrong numbers is made");
    try_all(run, calls, try_without);
    dsp_engine_free(run->first);
}

int LLVMFuzzerInitialize(int *count, char ***words) {
    (void)count;
    (void)words;
    return atexit(tell_counts);
}

int LLVMFuzzerTestOneInput(const uint8_t *bytes, size_t length) {
    static const struct setup usual = {.device = {DSP_S16_LE, 2, 48000, 0, 0, 1024, 4, 4, 0, 1}};
    struct run run = {.places = {DSP_NO_ENGINE, DSP_NO_ENGINE}, .asked = {.kind = CALL_NEW}};
    struct input input = {bytes, length};
    struct setup setup;
    struct calls calls;
    bool is_right = false;

    take_setup(&input, &setup);
    is_right = setup_is_right(&setup);
    run.setup = is_right ? &setup : &usual;
    run.first = &run.places[0];
    begin_calls(&calls, input, run.setup);
    if (begin_brought(&run.brought, &calls) && begin_got(&run.of_first, &calls) && begin_got(&run.of_second, &calls)) {
        if (is_right) {
            try_sequence(&run, &calls, is_chosen(bytes, length));
        } else {
            try_wrong(&run, &calls, &setup);
        }
        count_one(COUNT_SEQUENCES);
    }
    free(run.brought.bytes);
    free(run.brought.samples);
    free(run.of_first.out);
    free(run.of_second.out);
    return 0;
}
