/*
 * What programs call: each function tests its pointers and hands its arguments on to the engine's own of dsp_raw.h. No rule of sound stands
 * here.
 */
#include "dsp_engine.h"

#include <errno.h>
#include <stdlib.h>

#include "dsp_raw.h"

/* Whether a count of elements is given and none are there. */
static bool is_lacking(const void *elements, size_t count) {
    return elements == NULL && count != 0;
}

/* ---- an engine's beginning and end ---- */

int32_t dsp_engine_new(struct dsp_engine *engine, const struct dsp_device *device, const struct dsp_filter *filters, size_t filter_count,
                       const int32_t *coefs, size_t coef_count, const struct dsp_section *sections, size_t section_count) {
    const struct dsp_filter no_filter = {0, 0, 0, 0, 0, 0};
    const int32_t no_coef = 0;
    const struct dsp_section no_section = {0, 0, 0, 0, 0, 0};
    if (engine == NULL || device == NULL || is_lacking(filters, filter_count) || is_lacking(coefs, coef_count)
        || is_lacking(sections, section_count)) {
        return DSP_NULL_POINTER;
    }
    return dsp_raw_new(engine, device, filters == NULL ? &no_filter : filters, filter_count, coefs == NULL ? &no_coef : coefs, coef_count,
                       sections == NULL ? &no_section : sections, section_count);
}

void dsp_engine_free(struct dsp_engine *engine) {
    if (engine != NULL) {
        dsp_raw_free(engine);
    }
}

int32_t dsp_engine_create(struct dsp_engine **engine, const struct dsp_device *device, const struct dsp_filter *filters,
                          size_t filter_count, const int32_t *coefs, size_t coef_count, const struct dsp_section *sections,
                          size_t section_count) {
    struct dsp_engine *made = engine == NULL ? NULL : malloc(sizeof *made);
    int32_t answer;
    if (made == NULL) {
        return engine == NULL ? DSP_NULL_POINTER : DSP_NO_MEMORY;
    }
    *made = (struct dsp_engine)DSP_NO_ENGINE;
    answer = dsp_engine_new(made, device, filters, filter_count, coefs, coef_count, sections, section_count);
    if (answer != 0) {
        free(made);
        return answer;
    }
    *engine = made;
    return 0;
}

void dsp_engine_destroy(struct dsp_engine *engine) {
    dsp_engine_free(engine);
    free(engine);
}

int32_t dsp_engine_clone(struct dsp_engine *engine, struct dsp_engine *clone) {
    if (engine == NULL || clone == NULL) {
        return DSP_NULL_POINTER;
    }
    /* in its own place no clone can be made: there is an engine already, or none to be cloned */
    return engine == clone ? DSP_NOT_AN_ENGINE : dsp_raw_clone(engine, clone);
}

int64_t dsp_engine_state_size(struct dsp_engine *engine) {
    return engine == NULL ? DSP_NULL_POINTER : dsp_raw_state_size(engine);
}

int64_t dsp_engine_save(struct dsp_engine *engine, void *state, size_t room) {
    uint8_t no_byte = 0;
    if (engine == NULL || is_lacking(state, room)) {
        return DSP_NULL_POINTER;
    }
    return dsp_raw_save(engine, state == NULL ? &no_byte : state, room);
}

int32_t dsp_engine_load(struct dsp_engine *engine, const void *state, size_t size) {
    const uint8_t no_byte = 0;
    if (engine == NULL || is_lacking(state, size)) {
        return DSP_NULL_POINTER;
    }
    return dsp_raw_load(engine, state == NULL ? &no_byte : state, size);
}

/* ---- calls of an engine ---- */

int32_t dsp_engine_open(struct dsp_engine *engine, uint32_t fd, enum dsp_way way, uint32_t format, uint32_t channels, uint32_t rate) {
    return engine == NULL ? DSP_NULL_POINTER : dsp_raw_open(engine, fd, (uint32_t)way, format, channels, rate);
}

int32_t dsp_engine_write(struct dsp_engine *engine, uint32_t fd, const void *bytes, size_t length) {
    const uint8_t no_byte = 0;
    if (engine == NULL || is_lacking(bytes, length)) {
        return DSP_NULL_POINTER;
    }
    return dsp_raw_write(engine, fd, bytes == NULL ? &no_byte : bytes, length);
}

int32_t dsp_engine_poke(struct dsp_engine *engine, uint32_t fd, uint32_t offset, const void *bytes, size_t length) {
    const uint8_t no_byte = 0;
    if (engine == NULL || is_lacking(bytes, length)) {
        return DSP_NULL_POINTER;
    }
    return dsp_raw_poke(engine, fd, offset, bytes == NULL ? &no_byte : bytes, length);
}

int32_t dsp_engine_read(struct dsp_engine *engine, uint32_t fd, void *bytes, size_t length) {
    uint8_t no_byte = 0;
    if (engine == NULL || is_lacking(bytes, length)) {
        return DSP_NULL_POINTER;
    }
    return dsp_raw_read(engine, fd, bytes == NULL ? &no_byte : bytes, length);
}

int32_t dsp_engine_ioctl(struct dsp_engine *engine, uint32_t fd, enum dsp_request request, uint32_t argument, struct dsp_answer *answer) {
    struct dsp_answer unread = {0, 0, 0, 0};
    if (engine == NULL) {
        return DSP_NULL_POINTER;
    }
    return dsp_raw_ioctl(engine, fd, (uint32_t)request, argument, answer == NULL ? &unread : answer);
}

int32_t dsp_engine_join(struct dsp_engine *engine, uint32_t fd, uint32_t group, struct dsp_answer *answer) {
    struct dsp_answer unread = {0, 0, 0, 0};
    return engine == NULL ? DSP_NULL_POINTER : dsp_raw_join(engine, fd, group, answer == NULL ? &unread : answer);
}

int32_t dsp_engine_start(struct dsp_engine *engine, uint32_t fd, uint32_t group) {
    return engine == NULL ? DSP_NULL_POINTER : dsp_raw_start(engine, fd, group);
}

int32_t dsp_engine_close(struct dsp_engine *engine, uint32_t fd) {
    return engine == NULL ? DSP_NULL_POINTER : dsp_raw_close(engine, fd);
}

int32_t dsp_engine_mixer(struct dsp_engine *engine, enum dsp_mixer_request request, uint32_t slot, uint32_t value,
                         struct dsp_answer *answer) {
    struct dsp_answer unread = {0, 0, 0, 0};
    if (engine == NULL) {
        return DSP_NULL_POINTER;
    }
    return dsp_raw_mixer(engine, (uint32_t)request, slot, value, answer == NULL ? &unread : answer);
}

int32_t dsp_engine_interrupt(struct dsp_engine *engine, uint32_t frames, const int32_t *samples, size_t sample_count, void *out,
                             size_t room) {
    const int32_t no_sample = 0;
    if (engine == NULL || is_lacking(samples, sample_count) || is_lacking(out, room)) {
        return DSP_NULL_POINTER;
    }
    if (out == NULL) {
        return dsp_raw_discard(engine, frames, samples == NULL ? &no_sample : samples, sample_count);
    }
    return dsp_raw_interrupt(engine, frames, samples == NULL ? &no_sample : samples, sample_count, out, room);
}

uint64_t dsp_engine_frames_left(struct dsp_engine *engine) {
    return engine == NULL ? 0 : dsp_raw_frames_left(engine);
}

/* ---- questions ---- */

int32_t dsp_engine_settings(struct dsp_engine *engine, uint32_t fd, struct dsp_settings *settings) {
    return engine == NULL || settings == NULL ? DSP_NULL_POINTER : dsp_raw_settings(engine, fd, settings);
}

int32_t dsp_engine_peek(struct dsp_engine *engine, uint32_t fd, enum dsp_request request, uint32_t argument, struct dsp_answer *answer) {
    struct dsp_answer unread = {0, 0, 0, 0};
    if (engine == NULL) {
        return DSP_NULL_POINTER;
    }
    return dsp_raw_peek(engine, fd, (uint32_t)request, argument, answer == NULL ? &unread : answer);
}

int32_t dsp_engine_slot(struct dsp_engine *engine, enum dsp_way way, uint32_t number, struct dsp_slot *slot) {
    return engine == NULL || slot == NULL ? DSP_NULL_POINTER : dsp_raw_slot(engine, (uint32_t)way, number, slot);
}

int32_t dsp_engine_is_idle(struct dsp_engine *engine) {
    return engine == NULL ? DSP_NULL_POINTER : dsp_raw_is_idle(engine);
}

int32_t dsp_engine_is_ready(struct dsp_engine *engine, uint32_t fd) {
    return engine == NULL ? DSP_NULL_POINTER : dsp_raw_is_ready(engine, fd);
}

int64_t dsp_engine_frames_until(struct dsp_engine *engine, uint32_t fd, uint32_t bytes) {
    return engine == NULL ? DSP_NULL_POINTER : dsp_raw_frames_until(engine, fd, bytes);
}

/* ---- words ---- */

struct meaning {
    int number;
    const char *text;
};

/* Of the answers below 0, from -1 on. */
static const struct meaning meanings[] = {
    [-1 - DSP_AGAIN] = {EAGAIN, "the ring has no room for a write now, or no byte for a read"},
    [-1 - DSP_BUSY] = {EBUSY, "no slot is free, or the channel's state doesn't allow it"},
    [-1 - DSP_INVALID] = {EINVAL, "the request is of another way, or its argument is outside its set"},
    [-1 - DSP_BAD_DESCRIPTOR] = {EBADF, "the descriptor isn't open"},
    [-1 - DSP_EXISTS] = {EEXIST, "the descriptor is open already"},
    [-1 - DSP_NO_MEMORY] = {ENOMEM, "there is no memory"},
    [-1 - DSP_WRONG_ARGUMENT] = {EINVAL, "a number is outside its limits"},
    [-1 - DSP_NULL_POINTER] = {EFAULT, "a pointer is null that may not be"},
    [-1 - DSP_NOT_AN_ENGINE] = {ENXIO, "there is no engine, or one already where one is to be made"},
    [-1 - DSP_SHORT_ROOM] = {ERANGE, "the room for what is handed over, or for a state, is too small"},
    [-1 - DSP_WORN_OUT] = {EOVERFLOW, "the engine doesn't hand over as many frames any more"},
    [-1 - DSP_NOT_A_STATE] = {EINVAL, "the bytes don't begin as a state of this version"},
    [-1 - DSP_OTHER_DEVICE] = {ENODEV, "the state is of another device, or of other filters or sections"},
    [-1 - DSP_SHORT_STATE] = {EINVAL, "the state ends too early"},
    [-1 - DSP_LONG_STATE] = {EINVAL, "bytes follow after the end of the state"},
    [-1 - DSP_UNSPELLED] = {EINVAL, "a number of the state stands for nothing"},
    [-1 - DSP_OUT_OF_ORDER] = {EINVAL, "counts of the state contradict each other"},
};

static struct meaning meaning_of(int32_t answer) {
    const struct meaning none = {0, "no error"}, unknown = {EINVAL, "no answer of this library"};
    if (answer >= 0) {
        return none;
    }
    return answer < -(int32_t)(sizeof meanings / sizeof meanings[0]) ? unknown : meanings[-1 - answer];
}

const char *dsp_engine_error(int32_t answer) {
    return meaning_of(answer).text;
}

int32_t dsp_engine_errno(int32_t answer) {
    return meaning_of(answer).number;
}

const char *dsp_engine_request_name(uint32_t request) {
    static const char *const names[] = {
        [DSP_SETFMT] = "SNDCTL_DSP_SETFMT",
        [DSP_SPEED] = "SNDCTL_DSP_SPEED",
        [DSP_CHANNELS] = "SNDCTL_DSP_CHANNELS",
        [DSP_GETFMTS] = "SNDCTL_DSP_GETFMTS",
        [DSP_GETCAPS] = "SNDCTL_DSP_GETCAPS",
        [DSP_GETBLKSIZE] = "SNDCTL_DSP_GETBLKSIZE",
        [DSP_SETFRAGMENT] = "SNDCTL_DSP_SETFRAGMENT",
        [DSP_GETOSPACE] = "SNDCTL_DSP_GETOSPACE",
        [DSP_GETISPACE] = "SNDCTL_DSP_GETISPACE",
        [DSP_GETOPTR] = "SNDCTL_DSP_GETOPTR",
        [DSP_GETIPTR] = "SNDCTL_DSP_GETIPTR",
        [DSP_GETODELAY] = "SNDCTL_DSP_GETODELAY",
        [DSP_GETERROR] = "SNDCTL_DSP_GETERROR",
        [DSP_SETTRIGGER] = "SNDCTL_DSP_SETTRIGGER",
        [DSP_GETTRIGGER] = "SNDCTL_DSP_GETTRIGGER",
        [DSP_SETPLAYVOL] = "SNDCTL_DSP_SETPLAYVOL",
        [DSP_GETPLAYVOL] = "SNDCTL_DSP_GETPLAYVOL",
        [DSP_POST] = "SNDCTL_DSP_POST",
        [DSP_SYNC] = "SNDCTL_DSP_SYNC",
        [DSP_HALT] = "SNDCTL_DSP_HALT",
    };
    return request < sizeof names / sizeof names[0] ? names[request] : NULL;
}

uint32_t dsp_engine_version(void) {
    return DSP_ENGINE_VERSION;
}
