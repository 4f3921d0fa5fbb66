/* How questions are asked, and which of them must answer the same. */
#include "question.h"

#include <string.h>

size_t report_size(uint32_t question) {
    static const size_t sizes[QUESTIONS] = {
        [ASK_SETTINGS] = sizeof(struct dsp_settings), [ASK_SLOT] = sizeof(struct dsp_slot),     [ASK_SPACE] = sizeof(struct dsp_space),
        [ASK_POSITION] = sizeof(struct dsp_position), [ASK_ERRORS] = sizeof(struct dsp_errors), [ASK_READY] = 2 * sizeof(uint64_t),
        [ASK_DELAY] = sizeof(uint32_t),
    };
    return sizes[question];
}

bool is_report_alike(uint32_t question, const union report *one, const union report *other) {
    switch (question) {
    case ASK_SLOT:
        return one->slot.state == other->slot.state && one->slot.frames == other->slot.frames;
    case ASK_POSITION:
        return one->position.bytes == other->position.bytes && one->position.fragments == other->position.fragments
               && one->position.place == other->position.place;
    default:
        return memcmp(one, other, report_size(question)) == 0;
    }
}

int64_t ask_question(struct dsp_engine *engine, const struct call *call, union report *report, struct dsp_answer *answer) {
    const uint32_t *numbers = call->numbers;
    bool is_null = call->is_null;
    switch (numbers[QUESTION]) {
    case ASK_SETTINGS:
        return dsp_engine_settings(engine, numbers[FD], is_null ? NULL : &report->settings);
    case ASK_PEEK:
        return dsp_engine_peek(engine, numbers[FD], (enum dsp_request)numbers[REQUEST], numbers[ARGUMENT], is_null ? NULL : answer);
    case ASK_SLOT:
        return dsp_engine_slot(engine, (enum dsp_way)numbers[WAY], numbers[SLOT], is_null ? NULL : &report->slot);
    case ASK_IS_IDLE:
        return dsp_engine_is_idle(engine);
    case ASK_IS_READY:
        return dsp_engine_is_ready(engine, numbers[FD]);
    case ASK_READY:
        return dsp_engine_ready(engine, is_null ? NULL : &report->ready[0], is_null ? NULL : &report->ready[1]);
    case ASK_FRAMES_UNTIL:
        return dsp_engine_frames_until(engine, numbers[FD], numbers[UNTIL]);
    case ASK_SPACE:
        return dsp_engine_space(engine, numbers[FD], is_null ? NULL : &report->space);
    case ASK_POSITION:
        return dsp_engine_position(engine, numbers[FD], is_null ? NULL : &report->position);
    case ASK_DELAY:
        return dsp_engine_delay(engine, numbers[FD], is_null ? NULL : &report->delay);
    default:
        return dsp_engine_errors(engine, numbers[FD], is_null ? NULL : &report->errors);
    }
}

/* What a request would answer, or of a channel of another way another one. */
static int32_t peek(struct dsp_engine *engine, uint32_t fd, enum dsp_request one, enum dsp_request other, struct dsp_answer *answer) {
    int32_t number = dsp_engine_peek(engine, fd, one, 0, answer);
    return number == DSP_INVALID ? dsp_engine_peek(engine, fd, other, 0, answer) : number;
}

/* Whether a request would answer a number. */
static bool is_peeked(struct dsp_engine *engine, uint32_t fd, enum dsp_request request, uint64_t number) {
    struct dsp_answer answer = {0, 0, 0, 0};
    return dsp_engine_peek(engine, fd, request, 0, &answer) == 0 && answer.first == number;
}

/* Settings are what the requests for them would answer, and the slot is held. */
static bool are_settings(struct dsp_engine *engine, uint32_t fd, const struct dsp_settings *settings) {
    struct dsp_slot slot = {DSP_SLOT_FREE, 0};
    bool has_volume = settings->way != DSP_RECORD;
    uint32_t trigger = settings->way == DSP_RECORD ? settings->trigger : 2 * settings->trigger;
    return is_peeked(engine, fd, DSP_SETFMT, settings->format) && is_peeked(engine, fd, DSP_CHANNELS, settings->channels)
           && is_peeked(engine, fd, DSP_SPEED, settings->rate) && is_peeked(engine, fd, DSP_GETBLKSIZE, settings->fragment_bytes)
           && is_peeked(engine, fd, DSP_GETTRIGGER, trigger) && is_peeked(engine, fd, DSP_GETPLAYVOL, settings->volume) == has_volume
           && dsp_engine_slot(engine, (enum dsp_way)settings->way, settings->slot, &slot) == 0 && slot.state == DSP_SLOT_HELD;
}

/* A slot is held exactly where a descriptor says so. */
static bool is_slot(struct dsp_engine *engine, uint32_t way, uint32_t number, const struct dsp_slot *slot) {
    struct dsp_settings settings;
    bool is_held = false;
    for (uint32_t fd = 0; fd < DESCRIPTORS; fd += 1) {
        is_held |= dsp_engine_settings(engine, fd, &settings) == 0 && settings.way == way && settings.slot == number;
    }
    return is_held == (slot->state == DSP_SLOT_HELD) && (slot->state != DSP_SLOT_FREE || slot->frames == 0);
}

/* An engine is idle where each slot of each way is free. */
static bool is_idle(struct dsp_engine *engine, const struct dsp_device *device) {
    const uint32_t ends[] = {device->play_slots, device->record_slots, device->play_slots + device->map_slots};
    struct dsp_slot slot;
    for (uint32_t way = DSP_PLAY; way <= DSP_MAP; way += 1) {
        for (uint32_t number = way == DSP_MAP ? device->play_slots : 0; number < ends[way]; number += 1) {
            if (dsp_engine_slot(engine, (enum dsp_way)way, number, &slot) != 0 || slot.state != DSP_SLOT_FREE) {
                return false;
            }
        }
    }
    return true;
}

/* The bits of all descriptors are those of each. */
static bool are_ready(struct dsp_engine *engine, const uint64_t ready[2]) {
    for (uint32_t fd = 0; fd < DESCRIPTORS; fd += 1) {
        int32_t bits = dsp_engine_is_ready(engine, fd);
        if ((ready[0] >> fd & 1) != (uint64_t)(bits == DSP_WRITABLE) || (ready[1] >> fd & 1) != (uint64_t)(bits == DSP_READABLE)) {
            return false;
        }
    }
    return true;
}

/* Fewer bytes never come later, and where some fit now the descriptor is ready. */
static bool is_wait(struct dsp_engine *engine, const struct call *call, int64_t number) {
    int64_t fewer = dsp_engine_frames_until(engine, call->numbers[FD], call->numbers[UNTIL] / 2);
    bool is_ready = dsp_engine_is_ready(engine, call->numbers[FD]) > 0;
    if (number == DSP_BUSY) {
        return fewer >= 0 || fewer == DSP_BUSY;
    }
    return number < 0 ? fewer == number : fewer >= 0 && fewer <= number && (number > 0 || call->numbers[UNTIL] == 0 || is_ready);
}

/* Whether the numbers of an answer are those that a question answered. */
static bool are_answered(uint32_t question, const struct dsp_answer *answer, const union report *report) {
    switch (question) {
    case ASK_SPACE:
        return answer->first == report->space.fragments && answer->second == report->space.all_fragments
               && answer->third == report->space.fragment_bytes && answer->fourth == report->space.bytes;
    case ASK_POSITION:
        return answer->first == report->position.bytes && answer->second == report->position.fragments && answer->third == report->position.place;
    case ASK_DELAY:
        return answer->first == report->delay;
    default:
        return answer->first == report->errors.underruns && answer->second == report->errors.overruns;
    }
}

/* Space, position, delay and errors are what their requests would answer. */
static bool is_request(struct dsp_engine *engine, const struct call *call, int64_t number, const union report *report) {
    static const enum dsp_request requests[QUESTIONS][2] = {
        [ASK_SPACE] = {DSP_GETOSPACE, DSP_GETISPACE},
        [ASK_POSITION] = {DSP_GETOPTR, DSP_GETIPTR},
        [ASK_DELAY] = {DSP_GETODELAY, DSP_GETODELAY},
        [ASK_ERRORS] = {DSP_GETERROR, DSP_GETERROR},
    };
    const enum dsp_request *either = requests[call->numbers[QUESTION]];
    struct dsp_answer answer = {0, 0, 0, 0};
    int32_t found = peek(engine, call->numbers[FD], either[0], either[1], &answer);
    return found == number && (number != 0 || are_answered(call->numbers[QUESTION], &answer, report));
}

bool is_told_otherwise(struct dsp_engine *engine, const struct dsp_device *device, const struct call *call, int64_t number,
                       const union report *report) {
    const uint32_t *numbers = call->numbers;
    bool is_told = number >= 0 && !call->is_null;
    switch (numbers[QUESTION]) {
    case ASK_SETTINGS:
        return !is_told || are_settings(engine, numbers[FD], &report->settings);
    case ASK_PEEK:
        return true;
    case ASK_SLOT:
        return !is_told || is_slot(engine, numbers[WAY], numbers[SLOT], &report->slot);
    case ASK_IS_IDLE:
        return number == is_idle(engine, device);
    case ASK_IS_READY:
        return number < 0 || (number > 0) == (dsp_engine_frames_until(engine, numbers[FD], 1) == 0);
    case ASK_READY:
        return !is_told || are_ready(engine, report->ready);
    case ASK_FRAMES_UNTIL:
        return is_wait(engine, call, number);
    default:
        return call->is_null || is_request(engine, call, number, report);
    }
}
