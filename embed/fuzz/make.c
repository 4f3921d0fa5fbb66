/* How a call is made, and what it is given to bring and to fill. */
#include "make.h"

#include <stdlib.h>
#include <string.h>

static const uint64_t answer_mark = 0xa5a5a5a5a5a5a5a5u;

static size_t greater(size_t one, size_t other) {
    return one > other ? one : other;
}

bool begin_brought(struct brought *brought, const struct calls *calls) {
    brought->sample_room = (size_t)calls->frames_left * calls->device->channels + 1;
    brought->bytes = malloc(WRITTEN_MOST);
    brought->samples = malloc(brought->sample_room * sizeof *brought->samples);
    return brought->bytes != NULL && brought->samples != NULL;
}

bool begin_got(struct got *got, const struct calls *calls) {
    got->out_room = greater((size_t)calls->frames_left * frame_bytes(calls->device) + GUARD, ROOM_MOST);
    got->out = malloc(got->out_room + GUARD);
    return got->out != NULL;
}

void bring(struct brought *brought, const struct call *call, const struct dsp_device *device) {
    if (call->kind == CALL_WRITE || call->kind == CALL_POKE) {
        fill_bytes(brought->bytes, call->length, call->seed);
    }
    if (call->kind == CALL_INTERRUPT) {
        size_t whole = (size_t)call->numbers[FRAMES] * device->channels;
        fill_samples(brought->samples, call->length, call->seed);
        if (call->length < whole && whole <= brought->sample_room) {
            memset(brought->samples + call->length, 0, (whole - call->length) * sizeof *brought->samples);
        }
    }
}

int32_t make_engine(struct dsp_engine *engine, const struct setup *setup) {
    return dsp_engine_new(engine, &setup->device, setup->filters, setup->filter_count, setup->coefs, setup->coef_count, setup->sections,
                          setup->section_count);
}

static void mark(struct got *got, const struct call *call) {
    const struct dsp_answer marked = {answer_mark, answer_mark, answer_mark, answer_mark};
    got->answer = marked;
    memset(&got->report, MARK, sizeof got->report);
    memset(got->out, MARK, call->room + GUARD);
}

bool is_marked(const struct got *got, const struct call *call, size_t from) {
    for (size_t i = from; i < call->room + GUARD; i += 1) {
        if (got->out[i] != MARK) {
            return false;
        }
    }
    return true;
}

bool is_answer_marked(const struct got *got) {
    const struct dsp_answer *answer = &got->answer;
    return answer->first == answer_mark && answer->second == answer_mark && answer->third == answer_mark && answer->fourth == answer_mark;
}

bool is_report_marked(const struct got *got, size_t from) {
    for (size_t i = from; i < sizeof got->report.bytes; i += 1) {
        if (got->report.bytes[i] != MARK) {
            return false;
        }
    }
    return true;
}

/* Puts another engine into the place of one, which is freed. */
static void make_way(struct dsp_engine *engine, struct dsp_engine other) {
    dsp_engine_free(engine);
    *engine = other;
}

static int32_t clone_engine(struct dsp_engine *engine) {
    struct dsp_engine clone = DSP_NO_ENGINE;
    int32_t number = dsp_engine_clone(engine, &clone);
    if (number == 0) {
        make_way(engine, clone);
    }
    return number;
}

/* Loads a state into another engine: first with a bit turned, which may be taken or refused, and then, after it was closed, as it is. */
static int32_t load_twice(struct dsp_engine *other, uint8_t *state, size_t size, uint32_t seed) {
    uint8_t *turned = &state[seed / 8 % size], mask = (uint8_t)(1 << seed % 8);
    int32_t number;
    *turned ^= mask;
    number = dsp_engine_load(other, state, size);
    *turned ^= mask;
    if (number != 0 && number != DSP_NO_MEMORY && (number < DSP_OUT_OF_ORDER || DSP_NOT_A_STATE < number)) {
        return DSP_UNSPELLED;
    }
    for (uint32_t fd = 0; fd < DESCRIPTORS; fd += 1) {
        dsp_engine_close(other, fd);
    }
    return dsp_engine_load(other, state, size);
}

/* The state of an engine is loaded into another one, which takes its place. */
static int32_t load_engine(struct dsp_engine *engine, uint32_t seed) {
    struct dsp_engine other = DSP_NO_ENGINE;
    int64_t size = dsp_engine_state_size(engine);
    uint8_t *state = size > 0 ? malloc((size_t)size) : NULL;
    int32_t number = size < 0 ? (int32_t)size : state == NULL ? DSP_NO_MEMORY : dsp_engine_clone(engine, &other);
    if (number == 0) {
        bool is_saved = dsp_engine_save(engine, state, (size_t)size) == size;
        number = is_saved ? load_twice(&other, state, (size_t)size, seed) : DSP_SHORT_ROOM;
    }
    if (number == 0) {
        make_way(engine, other);
    } else {
        dsp_engine_free(&other);
    }
    free(state);
    return number;
}

static int64_t number_of(struct dsp_engine *engine, const struct setup *setup, const struct call *call, const struct brought *brought,
                         struct got *got) {
    const uint32_t *numbers = call->numbers;
    const uint8_t *bytes = call->is_null ? NULL : brought->bytes;
    uint8_t *out = call->is_null ? NULL : got->out;
    struct dsp_answer *answer = call->is_null ? NULL : &got->answer;

    switch (call->kind) {
    case CALL_OPEN:
        return dsp_engine_open(engine, numbers[FD], (enum dsp_way)numbers[WAY], numbers[FORMAT], numbers[CHANNELS], numbers[RATE]);
    case CALL_WRITE:
        return dsp_engine_write(engine, numbers[FD], bytes, call->length);
    case CALL_POKE:
        return dsp_engine_poke(engine, numbers[FD], numbers[OFFSET], bytes, call->length);
    case CALL_READ:
        return dsp_engine_read(engine, numbers[FD], out, call->room);
    case CALL_IOCTL:
        return dsp_engine_ioctl(engine, numbers[FD], (enum dsp_request)numbers[REQUEST], numbers[ARGUMENT], answer);
    case CALL_JOIN:
        return dsp_engine_join(engine, numbers[FD], numbers[GROUP], answer);
    case CALL_START:
        return dsp_engine_start(engine, numbers[FD], numbers[GROUP]);
    case CALL_CLOSE:
        return dsp_engine_close(engine, numbers[FD]);
    case CALL_MIXER:
        return dsp_engine_mixer(engine, (enum dsp_mixer_request)numbers[MIXER_REQUEST], numbers[MIXER_SLOT], numbers[MIXER_VALUE], answer);
    case CALL_INTERRUPT:
        return dsp_engine_interrupt(engine, numbers[FRAMES], brought->samples, call->length, out, call->room);
    case CALL_ASK:
        return ask_question(engine, call, &got->report, &got->answer);
    case CALL_CLONE:
        return clone_engine(engine);
    case CALL_LOAD:
        return load_engine(engine, call->seed);
    default:
        return make_engine(engine, setup);
    }
}

void make_call(struct dsp_engine *engine, const struct setup *setup, const struct call *call, const struct brought *brought,
               struct got *got) {
    mark(got, call);
    got->number = number_of(engine, setup, call, brought, got);
}
