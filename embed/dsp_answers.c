/*
 * What a question is answered, in structs of its own: each is one question of the engine, whose numbers it puts where they belong.
 */
#include "dsp_engine.h"

/* What one request would be answered, or another where the channel is of another way. */
static int32_t peek_either(struct dsp_engine *engine, uint32_t fd, enum dsp_request one, enum dsp_request other, struct dsp_answer *answer) {
    int32_t number = dsp_engine_peek(engine, fd, one, 0, answer);
    return number == DSP_INVALID ? dsp_engine_peek(engine, fd, other, 0, answer) : number;
}

int32_t dsp_engine_space(struct dsp_engine *engine, uint32_t fd, struct dsp_space *space) {
    struct dsp_answer told = {0, 0, 0, 0};
    int32_t number = space == NULL ? DSP_NULL_POINTER : peek_either(engine, fd, DSP_GETOSPACE, DSP_GETISPACE, &told);
    if (number == 0) {
        space->fragments = (uint32_t)told.first;
        space->all_fragments = (uint32_t)told.second;
        space->fragment_bytes = (uint32_t)told.third;
        space->bytes = (uint32_t)told.fourth;
    }
    return number;
}

int32_t dsp_engine_position(struct dsp_engine *engine, uint32_t fd, struct dsp_position *position) {
    struct dsp_answer told = {0, 0, 0, 0};
    int32_t number = position == NULL ? DSP_NULL_POINTER : peek_either(engine, fd, DSP_GETOPTR, DSP_GETIPTR, &told);
    if (number == 0) {
        position->bytes = told.first;
        position->fragments = told.second;
        position->place = (uint32_t)told.third;
    }
    return number;
}

int32_t dsp_engine_delay(struct dsp_engine *engine, uint32_t fd, uint32_t *bytes) {
    struct dsp_answer told = {0, 0, 0, 0};
    int32_t number = bytes == NULL ? DSP_NULL_POINTER : dsp_engine_peek(engine, fd, DSP_GETODELAY, 0, &told);
    if (number == 0) {
        *bytes = (uint32_t)told.first;
    }
    return number;
}

int32_t dsp_engine_errors(struct dsp_engine *engine, uint32_t fd, struct dsp_errors *errors) {
    struct dsp_answer told = {0, 0, 0, 0};
    int32_t number = errors == NULL ? DSP_NULL_POINTER : dsp_engine_peek(engine, fd, DSP_GETERROR, 0, &told);
    if (number == 0) {
        errors->underruns = (uint32_t)told.first;
        errors->overruns = (uint32_t)told.second;
    }
    return number;
}

int32_t dsp_engine_ready(struct dsp_engine *engine, uint64_t *writable, uint64_t *readable) {
    uint64_t write = 0, read = 0;
    for (uint32_t fd = 0; fd < DSP_DESCRIPTORS; fd++) {
        int32_t bits = dsp_engine_is_ready(engine, fd);
        if (bits < 0) {
            return bits;
        }
        write |= (uint64_t)(bits & DSP_WRITABLE ? 1 : 0) << fd;
        read |= (uint64_t)(bits & DSP_READABLE ? 1 : 0) << fd;
    }
    if (writable != NULL) {
        *writable = write;
    }
    if (readable != NULL) {
        *readable = read;
    }
    return 0;
}
