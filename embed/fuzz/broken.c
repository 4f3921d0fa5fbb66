/*
 * The library with one fault, which the fuzzer has to find: scripts/fuzz-calls --self-test links it in front of the library, by --wrap of the
 * linker, and names the fault in FUZZ_CALLS_FAULT.
 */
#include <stdlib.h>
#include <string.h>

#include "call.h"

int32_t __real_dsp_engine_clone(struct dsp_engine *engine, struct dsp_engine *clone);
int32_t __real_dsp_engine_load(struct dsp_engine *engine, const void *state, size_t size);
int32_t __real_dsp_engine_open(struct dsp_engine *engine, uint32_t fd, enum dsp_way way, uint32_t format, uint32_t channels, uint32_t rate);
int32_t __real_dsp_engine_write(struct dsp_engine *engine, uint32_t fd, const void *bytes, size_t length);
int32_t __real_dsp_engine_poke(struct dsp_engine *engine, uint32_t fd, uint32_t offset, const void *bytes, size_t length);
int32_t __real_dsp_engine_read(struct dsp_engine *engine, uint32_t fd, void *bytes, size_t length);
int32_t __real_dsp_engine_ioctl(struct dsp_engine *engine, uint32_t fd, enum dsp_request request, uint32_t argument, struct dsp_answer *answer);
int32_t __real_dsp_engine_start(struct dsp_engine *engine, uint32_t fd, uint32_t group);
int32_t __real_dsp_engine_close(struct dsp_engine *engine, uint32_t fd);
int32_t __real_dsp_engine_mixer(struct dsp_engine *engine, enum dsp_mixer_request request, uint32_t slot, uint32_t value,
                                struct dsp_answer *answer);
int32_t __real_dsp_engine_interrupt(struct dsp_engine *engine, uint32_t frames, const int32_t *samples, size_t count, void *out, size_t room);
int32_t __real_dsp_engine_settings(struct dsp_engine *engine, uint32_t fd, struct dsp_settings *settings);
int32_t __real_dsp_engine_position(struct dsp_engine *engine, uint32_t fd, struct dsp_position *position);
int64_t __real_dsp_engine_frames_until(struct dsp_engine *engine, uint32_t fd, uint32_t bytes);
uint64_t __real_dsp_engine_frames_left(struct dsp_engine *engine);

/* Whether the library has this fault. */
static bool has(const char *fault) {
    const char *named = getenv("FUZZ_CALLS_FAULT");
    return named != NULL && strcmp(named, fault) == 0;
}

int32_t __wrap_dsp_engine_clone(struct dsp_engine *engine, struct dsp_engine *clone) {
    int32_t number = __real_dsp_engine_clone(engine, clone);
    if (number == 0 && has("a-clone-lacks-a-descriptor")) {
        __real_dsp_engine_close(clone, 0);
    }
    return number;
}

int32_t __wrap_dsp_engine_load(struct dsp_engine *engine, const void *state, size_t size) {
    int32_t number = __real_dsp_engine_load(engine, state, size);
    if (number == 0 && has("a-loaded-engine-lacks-a-descriptor")) {
        __real_dsp_engine_close(engine, 0);
    }
    return number;
}

int32_t __wrap_dsp_engine_open(struct dsp_engine *engine, uint32_t fd, enum dsp_way way, uint32_t format, uint32_t channels, uint32_t rate) {
    int32_t number = __real_dsp_engine_open(engine, fd, way, format, channels, rate);
    if (number == DSP_EXISTS && has("a-refused-open-closes")) {
        __real_dsp_engine_close(engine, fd);
    }
    return number;
}

int32_t __wrap_dsp_engine_write(struct dsp_engine *engine, uint32_t fd, const void *bytes, size_t length) {
    int32_t number = __real_dsp_engine_write(engine, fd, bytes, length);
    if (number < 0 && has("a-refused-write-takes-a-byte")) {
        __real_dsp_engine_write(engine, fd % 2, "", 1);
    }
    return number;
}

int32_t __wrap_dsp_engine_poke(struct dsp_engine *engine, uint32_t fd, uint32_t offset, const void *bytes, size_t length) {
    int32_t number = __real_dsp_engine_poke(engine, fd, offset, bytes, length);
    if (number == DSP_INVALID && length > 0 && has("a-refused-poke-writes-its-first-byte")) {
        __real_dsp_engine_poke(engine, fd, offset, bytes, 1);
    }
    return number;
}

int32_t __wrap_dsp_engine_read(struct dsp_engine *engine, uint32_t fd, void *bytes, size_t length) {
    int32_t number = __real_dsp_engine_read(engine, fd, bytes, length);
    if (number == DSP_AGAIN && has("a-refused-read-writes")) {
        memset(bytes, 0, 1);
    }
    return number > 0 && has("a-read-answers-one-less") ? number - 1 : number;
}

int32_t __wrap_dsp_engine_ioctl(struct dsp_engine *engine, uint32_t fd, enum dsp_request request, uint32_t argument, struct dsp_answer *answer) {
    int32_t number = __real_dsp_engine_ioctl(engine, fd, request, argument, answer);
    if (number == DSP_BUSY && request == DSP_SPEED && has("a-refused-speed-halts")) {
        __real_dsp_engine_ioctl(engine, fd, DSP_HALT, 0, NULL);
    }
    if (number == 0 && request == DSP_GETODELAY && answer != NULL && answer->first > 0 && has("a-delay-is-one-less")) {
        answer->first -= 1;
    }
    return number;
}

int32_t __wrap_dsp_engine_start(struct dsp_engine *engine, uint32_t fd, uint32_t group) {
    int32_t number = __real_dsp_engine_start(engine, fd, group);
    if (number == DSP_BUSY && has("a-refused-start-ends-the-group")) {
        __real_dsp_engine_ioctl(engine, fd, DSP_SYNC, 0, NULL);
    }
    return number;
}

int32_t __wrap_dsp_engine_close(struct dsp_engine *engine, uint32_t fd) {
    int32_t number = __real_dsp_engine_close(engine, fd);
    if (number <= DSP_WRONG_ARGUMENT && has("a-wrong-close-closes")) {
        __real_dsp_engine_close(engine, fd % DESCRIPTORS);
    }
    return number;
}

int32_t __wrap_dsp_engine_mixer(struct dsp_engine *engine, enum dsp_mixer_request request, uint32_t slot, uint32_t value,
                                struct dsp_answer *answer) {
    int32_t number = __real_dsp_engine_mixer(engine, request, slot, value, answer);
    if (number == DSP_INVALID && request == DSP_SET_SLOT && has("a-refused-volume-is-set")) {
        __real_dsp_engine_mixer(engine, request, slot, value & 0x3f3f, NULL);
    }
    return number;
}

int32_t __wrap_dsp_engine_interrupt(struct dsp_engine *engine, uint32_t frames, const int32_t *samples, size_t count, void *out, size_t room) {
    uint8_t some[64];
    int32_t number = __real_dsp_engine_interrupt(engine, frames, samples, count, out, room);
    if (number <= DSP_WRONG_ARGUMENT && has("a-refused-interrupt-mixes")) {
        __real_dsp_engine_interrupt(engine, 1, NULL, 0, some, sizeof some);
    }
    if (number > 0 && has("a-byte-is-another")) {
        ((uint8_t *)out)[number - 1] ^= 1;
    }
    return number;
}

int32_t __wrap_dsp_engine_settings(struct dsp_engine *engine, uint32_t fd, struct dsp_settings *settings) {
    int32_t number = __real_dsp_engine_settings(engine, fd, settings);
    if (number == 0 && has("settings-are-the-neighbours")) {
        __real_dsp_engine_settings(engine, (fd + 1) % DESCRIPTORS, settings);
    }
    return number;
}

int32_t __wrap_dsp_engine_position(struct dsp_engine *engine, uint32_t fd, struct dsp_position *position) {
    int32_t number = __real_dsp_engine_position(engine, fd, position);
    if (number == 0 && has("a-question-tells-a-position")) {
        __real_dsp_engine_ioctl(engine, fd, DSP_GETOPTR, 0, NULL);
    }
    return number;
}

int64_t __wrap_dsp_engine_frames_until(struct dsp_engine *engine, uint32_t fd, uint32_t bytes) {
    int64_t number = __real_dsp_engine_frames_until(engine, fd, bytes);
    return number > 0 && has("a-wait-is-one-more") ? number + 1 : number;
}

/* That a question uses frames up is not the fault here: what it changes has to show it. */
uint64_t __wrap_dsp_engine_frames_left(struct dsp_engine *engine) {
    return has("a-question-tells-a-position") ? 1 : __real_dsp_engine_frames_left(engine);
}
