/*
 * What the library answers to calls that it refuses, and to those that a_mute.c doesn't make: recordings, mapped channels, groups, filters,
 * clones, states; and what it says of answers and requests. Each line has a call and the number that docs/SCRIPTS.md gives its like.
 * scripts/embed runs it.
 */
#include <errno.h>
#include <stdio.h>
#include <string.h>

#include "dsp_engine.h"

static int wrong = 0;

#define IS(call, expected) check(#call, (long)(call), (long)(expected))

static void check(const char *call, long got, long expected) {
    if (got != expected) {
        printf("%s is %ld, and not %ld\n", call, got, expected);
        wrong += 1;
    }
}

/* One client plays, one records, one is mapped. */
static const struct dsp_device device = {
    .format = DSP_S16_LE,
    .channels = 2,
    .rate = 48000,
    .ring_frames = 16,
    .play_slots = 1,
    .record_slots = 1,
    .map_slots = 1,
    .quality = 2,
};

static void without_an_engine(void) {
    struct dsp_engine none = DSP_NO_ENGINE, other = DSP_NO_ENGINE;
    struct dsp_answer answer;
    uint8_t bytes[64] = {0};

    IS(dsp_engine_open(&none, 0, DSP_PLAY, DSP_U8, 1, 8000), DSP_NOT_AN_ENGINE);
    IS(dsp_engine_write(&none, 0, bytes, 1), DSP_NOT_AN_ENGINE);
    IS(dsp_engine_poke(&none, 0, 0, bytes, 1), DSP_NOT_AN_ENGINE);
    IS(dsp_engine_read(&none, 0, bytes, 1), DSP_NOT_AN_ENGINE);
    IS(dsp_engine_ioctl(&none, 0, DSP_POST, 0, &answer), DSP_NOT_AN_ENGINE);
    IS(dsp_engine_join(&none, 0, 0, &answer), DSP_NOT_AN_ENGINE);
    IS(dsp_engine_start(&none, 0, 1), DSP_NOT_AN_ENGINE);
    IS(dsp_engine_close(&none, 0), DSP_NOT_AN_ENGINE);
    IS(dsp_engine_mixer(&none, DSP_GET_MASTER, 0, 0, &answer), DSP_NOT_AN_ENGINE);
    IS(dsp_engine_interrupt(&none, 1, NULL, 0, bytes, sizeof bytes), DSP_NOT_AN_ENGINE);
    IS(dsp_engine_frames_left(&none), 0);
    IS(dsp_engine_clone(&none, &other), DSP_NOT_AN_ENGINE);
    IS(dsp_engine_clone(&none, &none), DSP_NOT_AN_ENGINE);
    IS(other.there, false);
    IS(dsp_engine_state_size(&none), DSP_NOT_AN_ENGINE);
    IS(dsp_engine_save(&none, bytes, sizeof bytes), DSP_NOT_AN_ENGINE);
    IS(dsp_engine_load(&none, bytes, sizeof bytes), DSP_NOT_AN_ENGINE);
    IS(none.there, false);
    dsp_engine_free(&none);
}

static void without_a_handle(void) {
    struct dsp_engine none = DSP_NO_ENGINE;
    struct dsp_answer answer;
    uint8_t bytes[64] = {0};

    IS(dsp_engine_new(NULL, &device, NULL, 0, NULL, 0, NULL, 0), DSP_NULL_POINTER);
    IS(dsp_engine_create(NULL, &device, NULL, 0, NULL, 0, NULL, 0), DSP_NULL_POINTER);
    IS(dsp_engine_open(NULL, 0, DSP_PLAY, DSP_U8, 1, 8000), DSP_NULL_POINTER);
    IS(dsp_engine_write(NULL, 0, bytes, 1), DSP_NULL_POINTER);
    IS(dsp_engine_poke(NULL, 0, 0, bytes, 1), DSP_NULL_POINTER);
    IS(dsp_engine_read(NULL, 0, bytes, 1), DSP_NULL_POINTER);
    IS(dsp_engine_ioctl(NULL, 0, DSP_POST, 0, &answer), DSP_NULL_POINTER);
    IS(dsp_engine_join(NULL, 0, 0, &answer), DSP_NULL_POINTER);
    IS(dsp_engine_start(NULL, 0, 1), DSP_NULL_POINTER);
    IS(dsp_engine_close(NULL, 0), DSP_NULL_POINTER);
    IS(dsp_engine_mixer(NULL, DSP_GET_MASTER, 0, 0, &answer), DSP_NULL_POINTER);
    IS(dsp_engine_interrupt(NULL, 1, NULL, 0, bytes, sizeof bytes), DSP_NULL_POINTER);
    IS(dsp_engine_frames_left(NULL), 0);
    IS(dsp_engine_clone(NULL, &none), DSP_NULL_POINTER);
    IS(dsp_engine_clone(&none, NULL), DSP_NULL_POINTER);
    IS(dsp_engine_state_size(NULL), DSP_NULL_POINTER);
    IS(dsp_engine_save(NULL, bytes, sizeof bytes), DSP_NULL_POINTER);
    IS(dsp_engine_load(NULL, bytes, sizeof bytes), DSP_NULL_POINTER);
    dsp_engine_free(NULL);
    dsp_engine_destroy(NULL);
}

static void devices(void) {
    struct dsp_engine engine = DSP_NO_ENGINE;
    struct dsp_device other = device;

    IS(dsp_engine_new(&engine, NULL, NULL, 0, NULL, 0, NULL, 0), DSP_NULL_POINTER);
    IS(dsp_engine_new(&engine, &device, NULL, 1, NULL, 0, NULL, 0), DSP_NULL_POINTER);
    IS(dsp_engine_new(&engine, &device, NULL, 0, NULL, 1, NULL, 0), DSP_NULL_POINTER);
    IS(dsp_engine_new(&engine, &device, NULL, 0, NULL, 0, NULL, 1), DSP_NULL_POINTER);
    other.channels = 3;
    IS(dsp_engine_new(&engine, &other, NULL, 0, NULL, 0, NULL, 0), DSP_WRONG_ARGUMENT);
    other = device;
    other.play_slots = 16;
    IS(dsp_engine_new(&engine, &other, NULL, 0, NULL, 0, NULL, 0), DSP_WRONG_ARGUMENT);
    other = device;
    other.mix_rate = 3999;
    IS(dsp_engine_new(&engine, &other, NULL, 0, NULL, 0, NULL, 0), DSP_WRONG_ARGUMENT);
    other.mix_rate = 24000;
    IS(dsp_engine_new(&engine, &other, NULL, 0, NULL, 0, NULL, 0), 0);
    IS(dsp_engine_new(&engine, &device, NULL, 0, NULL, 0, NULL, 0), DSP_NOT_AN_ENGINE);
    dsp_engine_free(&engine);
    dsp_engine_free(&engine);
    IS(engine.there, false);
}

/* An engine in a struct of the library's. A refusal leaves the pointer as it is. */
static void created(void) {
    struct dsp_engine unmade = DSP_NO_ENGINE, *engine = &unmade;
    struct dsp_device other = DSP_DEVICE_DEFAULT;

    other.channels = 3;
    IS(dsp_engine_create(&engine, &other, NULL, 0, NULL, 0, NULL, 0), DSP_WRONG_ARGUMENT);
    IS(dsp_engine_create(&engine, NULL, NULL, 0, NULL, 0, NULL, 0), DSP_NULL_POINTER);
    IS(engine == &unmade, true);
    other.channels = 2;
    IS(dsp_engine_create(&engine, &other, NULL, 0, NULL, 0, NULL, 0), 0);
    IS(engine == &unmade, false);
    IS(dsp_engine_open(engine, 5, DSP_PLAY, DSP_U8, 1, 8000), 0);
    dsp_engine_destroy(engine);
}

static void filters_and_sections(void) {
    static const int32_t coefs[] = {2, 0, 1, 1};
    static const struct dsp_section section = {.shift = 1, .b0 = 2};
    struct dsp_filter filter = {.phases = 2, .taps = 2, .shift = 1, .first = 0};
    struct dsp_engine engine = DSP_NO_ENGINE;

    IS(dsp_engine_new(&engine, &device, &filter, 1, coefs, 4, &section, 1), 0);
    dsp_engine_free(&engine);
    IS(dsp_engine_new(&engine, &device, &filter, 1, coefs, 3, NULL, 0), DSP_WRONG_ARGUMENT);
    filter.first = 1;
    IS(dsp_engine_new(&engine, &device, &filter, 1, coefs, 4, NULL, 0), DSP_WRONG_ARGUMENT);
    filter = (struct dsp_filter){.phases = 1, .taps = 3, .shift = 1, .first = 0};
    IS(dsp_engine_new(&engine, &device, &filter, 1, coefs, 4, NULL, 0), DSP_WRONG_ARGUMENT);
}

/* Numbers that are none of a call. */
static void numbers(struct dsp_engine *engine) {
    uint8_t bytes[64] = {0};
    int32_t samples[4] = {0};

    IS(dsp_engine_open(engine, 64, DSP_PLAY, DSP_U8, 1, 8000), DSP_WRONG_ARGUMENT);
    IS(dsp_engine_open(engine, 0, (enum dsp_way)3, DSP_U8, 1, 8000), DSP_WRONG_ARGUMENT);
    IS(dsp_engine_open(engine, 0, DSP_PLAY, 1, 1, 8000), DSP_INVALID);
    IS(dsp_engine_open(engine, 0, DSP_PLAY, DSP_U8, 5, 8000), DSP_INVALID);
    IS(dsp_engine_open(engine, 0, DSP_PLAY, DSP_U8, 1, 3999), DSP_INVALID);
    IS(dsp_engine_open(engine, 0, DSP_PLAY, DSP_U8, 1, 192001), DSP_INVALID);
    IS(dsp_engine_close(engine, 256), DSP_WRONG_ARGUMENT);
    IS(dsp_engine_write(engine, 0, NULL, 1), DSP_NULL_POINTER);
    IS(dsp_engine_poke(engine, 0, 0, NULL, 1), DSP_NULL_POINTER);
    IS(dsp_engine_read(engine, 0, NULL, 1), DSP_NULL_POINTER);
    IS(dsp_engine_ioctl(engine, 0, (enum dsp_request)20, 0, NULL), DSP_WRONG_ARGUMENT);
    IS(dsp_engine_mixer(engine, (enum dsp_mixer_request)5, 0, 0, NULL), DSP_WRONG_ARGUMENT);
    IS(dsp_engine_interrupt(engine, 0, NULL, 0, bytes, sizeof bytes), DSP_WRONG_ARGUMENT);
    IS(dsp_engine_interrupt(engine, 17, NULL, 0, bytes, sizeof bytes), DSP_WRONG_ARGUMENT);
    IS(dsp_engine_interrupt(engine, 16, NULL, 0, bytes, 63), DSP_SHORT_ROOM);
    IS(dsp_engine_interrupt(engine, 17, NULL, 0, NULL, 0), DSP_WRONG_ARGUMENT);
    IS(dsp_engine_interrupt(engine, 1, samples, 3, bytes, sizeof bytes), DSP_WRONG_ARGUMENT);
    IS(dsp_engine_interrupt(engine, 2, samples, 3, bytes, sizeof bytes), DSP_WRONG_ARGUMENT);
    IS(dsp_engine_interrupt(engine, 1, NULL, 2, bytes, sizeof bytes), DSP_NULL_POINTER);
    IS(dsp_engine_interrupt(engine, 1, NULL, 0, NULL, 4), DSP_NULL_POINTER);
}

/* What is refused by a channel's state, and is no step. */
static void refusals(struct dsp_engine *engine) {
    struct dsp_answer answer = {7, 7, 7, 7};
    uint8_t bytes[4] = {0};

    IS(dsp_engine_write(engine, 0, bytes, 4), DSP_BAD_DESCRIPTOR);
    IS(dsp_engine_frames_left(engine), 70368744177664);
    IS(dsp_engine_open(engine, 0, DSP_PLAY, DSP_S16_LE, 2, 48000), 0);
    IS(dsp_engine_frames_left(engine), 70368744177664);
    IS(dsp_engine_open(engine, 0, DSP_PLAY, DSP_S16_LE, 2, 48000), DSP_EXISTS);
    IS(dsp_engine_open(engine, 1, DSP_PLAY, DSP_S16_LE, 2, 48000), DSP_BUSY);
    IS(dsp_engine_read(engine, 0, bytes, 4), DSP_INVALID);
    IS(dsp_engine_ioctl(engine, 0, DSP_GETISPACE, 0, &answer), DSP_INVALID);
    IS(answer.first, 7);
    IS(dsp_engine_frames_left(engine), 70368744177664);
    IS(dsp_engine_ioctl(engine, 0, DSP_SPEED, 44100, &answer), 0);
    IS(answer.first, 44100);
    IS(answer.second, 0);
    IS(dsp_engine_write(engine, 0, NULL, 0), 0);
    IS(dsp_engine_mixer(engine, DSP_SET_MASTER, 0, 0x5a5a, &answer), 0);
    IS(answer.first, 0x5a5a);
    IS(dsp_engine_join(engine, 0, 0, &answer), 0);
    IS(answer.first, 1);
    IS(dsp_engine_start(engine, 0, 1), DSP_BUSY);
    IS(dsp_engine_start(engine, 0, 2), DSP_INVALID);
    IS(dsp_engine_close(engine, 0), 0);
}

/* Three frames come of four that are captured, and silence. */
static void recordings(struct dsp_engine *engine) {
    static const int32_t samples[] = {1 << 16, -(1 << 16), 2 << 16, -(2 << 16), 3 << 16, -(3 << 16)};
    static const uint8_t kept[] = {1, 0, 255, 255, 2, 0, 254, 255, 3, 0, 253, 255, 0, 0, 0, 0};
    uint8_t bytes[64] = {9, 9, 9, 9, 9, 9, 9, 9, 9, 9, 9, 9, 9, 9, 9, 9, 9};
    uint8_t out[16];

    IS(dsp_engine_open(engine, 2, DSP_RECORD, DSP_S16_LE, 2, 48000), 0);
    IS(dsp_engine_read(engine, 2, bytes, sizeof bytes), DSP_AGAIN);
    IS(dsp_engine_ioctl(engine, 2, DSP_SETTRIGGER, 1, NULL), 0);
    IS(dsp_engine_interrupt(engine, 4, samples, 6, out, sizeof out), 16);
    IS(dsp_engine_read(engine, 2, bytes, sizeof bytes), 16);
    IS(memcmp(bytes, kept, sizeof kept), 0);
    IS(bytes[16], 9);
    IS(dsp_engine_close(engine, 2), 0);
}

/* The mapped slot is numbered after the one that plays. */
static void mapped_channels(struct dsp_engine *engine) {
    uint8_t bytes[4] = {1, 2, 3, 4};

    IS(dsp_engine_open(engine, 3, DSP_MAP, DSP_S16_LE, 2, 48000), 1);
    IS(dsp_engine_poke(engine, 3, 16380, bytes, 4), 0);
    IS(dsp_engine_poke(engine, 3, 16381, bytes, 4), DSP_INVALID);
    IS(dsp_engine_write(engine, 3, bytes, 4), DSP_INVALID);
    IS(dsp_engine_close(engine, 3), 0);
}

/* What nobody hears is let go, and all else is as with room. */
static void unheard(struct dsp_engine *engine) {
    uint8_t bytes[64], out[64];

    memset(bytes, 7, sizeof bytes);
    IS(dsp_engine_mixer(engine, DSP_SET_MASTER, 0, 0x6464, NULL), 0);
    IS(dsp_engine_open(engine, 0, DSP_PLAY, DSP_S16_LE, 2, 48000), 0);
    IS(dsp_engine_write(engine, 0, bytes, sizeof bytes), 64);
    IS(dsp_engine_ioctl(engine, 0, DSP_POST, 0, NULL), 0);
    IS(dsp_engine_interrupt(engine, 16, NULL, 0, NULL, 0), 64);
    IS(dsp_engine_interrupt(engine, 16, NULL, 0, out, sizeof out), 64);
    IS(memcmp(bytes, out, sizeof out), 0);
    IS(dsp_engine_close(engine, 0), 0);
}

/* A clone goes where no engine is. What one of both is asked then the other doesn't know. */
static void clones(struct dsp_engine *engine) {
    struct dsp_engine clone = DSP_NO_ENGINE, other = DSP_NO_ENGINE;
    uint8_t bytes[4] = {0};

    IS(dsp_engine_open(engine, 0, DSP_PLAY, DSP_S16_LE, 2, 48000), 0);
    IS(dsp_engine_clone(engine, engine), DSP_NOT_AN_ENGINE);
    IS(dsp_engine_clone(engine, &clone), 0);
    IS(dsp_engine_clone(engine, &clone), DSP_NOT_AN_ENGINE);
    IS(dsp_engine_clone(&other, &clone), DSP_NOT_AN_ENGINE);
    IS(dsp_engine_frames_left(&clone), dsp_engine_frames_left(engine));
    IS(dsp_engine_close(engine, 0), 0);
    IS(dsp_engine_write(engine, 0, bytes, 4), DSP_BAD_DESCRIPTOR);
    IS(dsp_engine_write(&clone, 0, bytes, 4), 4);
    IS(dsp_engine_clone(&clone, &other), 0);
    dsp_engine_free(&clone);
    IS(dsp_engine_clone(&clone, engine), DSP_NOT_AN_ENGINE);
    IS(dsp_engine_write(&other, 0, bytes, 4), 4);
    dsp_engine_free(&other);
}

/* A state is spelled where there is room for it, and nowhere else. */
static void saves(struct dsp_engine *engine) {
    static uint8_t state[1 << 16];
    int64_t size = dsp_engine_state_size(engine);

    memset(state, 7, sizeof state);
    IS(0 < size && size < (int64_t)sizeof state, true);
    IS(dsp_engine_save(engine, NULL, 1), DSP_NULL_POINTER);
    IS(dsp_engine_save(engine, NULL, 0), DSP_SHORT_ROOM);
    IS(dsp_engine_save(engine, state, 0), DSP_SHORT_ROOM);
    IS(dsp_engine_save(engine, state, (size_t)size - 1), DSP_SHORT_ROOM);
    IS(state[0] == 7 && memcmp(state, state + 1, sizeof state - 1) == 0, true);
    IS(dsp_engine_save(engine, state, sizeof state), size);
    IS(memcmp(state + size, state + size + 1, sizeof state - (size_t)size - 1) == 0 && state[size] == 7, true);
    IS(dsp_engine_state_size(engine), size);
}

/* The state of an engine with one descriptor, which is open. */
static void loads(struct dsp_engine *engine) {
    static uint8_t state[1 << 16];
    uint8_t bytes[4] = {0};
    struct dsp_engine slower = DSP_NO_ENGINE;
    struct dsp_device other = device;
    size_t size;

    IS(dsp_engine_open(engine, 0, DSP_PLAY, DSP_S16_LE, 2, 48000), 0);
    size = (size_t)dsp_engine_save(engine, state, sizeof state);
    IS(dsp_engine_close(engine, 0), 0);
    IS(dsp_engine_load(engine, NULL, 1), DSP_NULL_POINTER);
    IS(dsp_engine_load(engine, NULL, 0) < DSP_WORN_OUT, true);
    IS(dsp_engine_load(engine, state + 1, size - 1), DSP_NOT_A_STATE);
    IS(dsp_engine_load(engine, state, size - 1), DSP_SHORT_STATE);
    IS(dsp_engine_load(engine, state, size + 1), DSP_LONG_STATE);
    IS(dsp_engine_write(engine, 0, bytes, 4), DSP_BAD_DESCRIPTOR);
    IS(dsp_engine_load(engine, state, size), 0);
    IS(dsp_engine_write(engine, 0, bytes, 4), 4);
    IS(dsp_engine_load(engine, state, size), 0);
    IS(dsp_engine_ioctl(engine, 0, DSP_SPEED, 44100, NULL), 0);
    other.rate = 44100;
    IS(dsp_engine_new(&slower, &other, NULL, 0, NULL, 0, NULL, 0), 0);
    IS(dsp_engine_load(&slower, state, size), DSP_OTHER_DEVICE);
    IS(dsp_engine_write(&slower, 0, bytes, 4), DSP_BAD_DESCRIPTOR);
    dsp_engine_free(&slower);
    IS(dsp_engine_close(engine, 0), 0);
}

/* What answers mean, by the table of docs/SCRIPTS.md and, of those that no script has, by what they say. */
static void meanings(void) {
    static const int numbers[] = {EAGAIN, EBUSY,  EINVAL,    EBADF,  EEXIST, ENOMEM, EINVAL, EFAULT, ENXIO,
                                  ERANGE, EOVERFLOW, EINVAL, ENODEV, EINVAL, EINVAL, EINVAL, EINVAL};
    int32_t least = -(int32_t)(sizeof numbers / sizeof numbers[0]);

    for (int32_t answer = -1; answer >= least; answer -= 1) {
        IS(dsp_engine_errno(answer), numbers[-1 - answer]);
        IS(strlen(dsp_engine_error(answer)) > 9, true);
    }
    IS(least, DSP_OUT_OF_ORDER);
    IS(dsp_engine_errno(least - 1), EINVAL);
    IS(dsp_engine_errno(INT32_MIN), EINVAL);
    IS(dsp_engine_errno(0), 0);
    IS(dsp_engine_errno(INT32_MAX), 0);
    IS(strcmp(dsp_engine_error(0), "no error"), 0);
    IS(strcmp(dsp_engine_error(4096), "no error"), 0);
    IS(strcmp(dsp_engine_error(DSP_BAD_DESCRIPTOR), "the descriptor isn't open"), 0);
    IS(strcmp(dsp_engine_error(INT32_MIN), "no answer of this library"), 0);
}

static void names(void) {
    IS(strcmp(dsp_engine_request_name(DSP_SETFMT), "SNDCTL_DSP_SETFMT"), 0);
    IS(strcmp(dsp_engine_request_name(DSP_SPEED), "SNDCTL_DSP_SPEED"), 0);
    IS(strcmp(dsp_engine_request_name(DSP_HALT), "SNDCTL_DSP_HALT"), 0);
    IS(dsp_engine_request_name(20) == NULL, true);
    IS(dsp_engine_request_name(UINT32_MAX) == NULL, true);
    IS(dsp_engine_version(), DSP_ENGINE_VERSION);
}

int main(void) {
    struct dsp_engine engine = DSP_NO_ENGINE;

    without_an_engine();
    without_a_handle();
    meanings();
    names();
    devices();
    created();
    filters_and_sections();
    IS(dsp_engine_new(&engine, &device, NULL, 0, NULL, 0, NULL, 0), 0);
    IS(dsp_engine_frames_left(&engine), 70368744177664);
    numbers(&engine);
    IS(dsp_engine_frames_left(&engine), 70368744177664);
    refusals(&engine);
    recordings(&engine);
    mapped_channels(&engine);
    unheard(&engine);
    clones(&engine);
    saves(&engine);
    loads(&engine);
    IS(dsp_engine_frames_left(&engine), 70368744177664 - 4 - 32);
    dsp_engine_free(&engine);
    IS(dsp_engine_close(&engine, 3), DSP_NOT_AN_ENGINE);
    printf("%d answers are wrong\n", wrong);
    return wrong == 0 ? 0 : 1;
}
