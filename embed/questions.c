/*
 * What the library answers to questions, which are no steps: each number follows from the rules by hand. The device takes four bytes a frame
 * at 48000 Hz, its ring holds 1024 frames, and a channel's ring four fragments of 4096 bytes. scripts/embed runs it.
 */
#include <stdio.h>
#include <string.h>

#include "dsp_engine.h"

static int wrong = 0;

#define IS(call, expected) check(#call, (long)(call), (long)(expected))

static void check(const char *call, long got, long expected) {
    if (got != expected) {
        printf("%s is %ld, and not %ld\n", call, got, expected);
        wrong += 1;
    }
}

enum { RING = 16384, FRAME = 4, ROOM = 1024 * FRAME };

static const struct dsp_device device = {
    .format = DSP_S16_LE,
    .channels = 2,
    .rate = 48000,
    .ring_frames = 1024,
    .play_slots = 2,
    .record_slots = 1,
    .map_slots = 1,
    .quality = 1,
};

/* These frames leave the device, in interrupts of 256 at most. */
static void pass(struct dsp_engine *engine, uint32_t frames) {
    uint8_t out[ROOM];
    while (frames > 0) {
        uint32_t some = frames < 256 ? frames : 256;
        IS(dsp_engine_interrupt(engine, some, NULL, 0, out, sizeof out), some * FRAME);
        frames -= some;
    }
}

static void of_no_engine(struct dsp_engine *none, long answer) {
    struct dsp_settings settings;
    struct dsp_space space;
    struct dsp_position position;
    struct dsp_errors errors;
    struct dsp_slot slot;
    uint64_t writable, readable;
    uint32_t bytes;

    IS(dsp_engine_settings(none, 0, &settings), answer);
    IS(dsp_engine_peek(none, 0, DSP_GETFMTS, 0, NULL), answer);
    IS(dsp_engine_space(none, 0, &space), answer);
    IS(dsp_engine_position(none, 0, &position), answer);
    IS(dsp_engine_delay(none, 0, &bytes), answer);
    IS(dsp_engine_errors(none, 0, &errors), answer);
    IS(dsp_engine_slot(none, DSP_PLAY, 0, &slot), answer);
    IS(dsp_engine_is_idle(none), answer);
    IS(dsp_engine_is_ready(none, 0), answer);
    IS(dsp_engine_ready(none, &writable, &readable), answer);
    IS(dsp_engine_frames_until(none, 0, 1), answer);
}

static void of_nothing(struct dsp_engine *engine) {
    struct dsp_engine none = DSP_NO_ENGINE;

    of_no_engine(&none, DSP_NOT_AN_ENGINE);
    of_no_engine(NULL, DSP_NULL_POINTER);
    IS(dsp_engine_settings(engine, 0, NULL), DSP_NULL_POINTER);
    IS(dsp_engine_space(engine, 0, NULL), DSP_NULL_POINTER);
    IS(dsp_engine_position(engine, 0, NULL), DSP_NULL_POINTER);
    IS(dsp_engine_delay(engine, 0, NULL), DSP_NULL_POINTER);
    IS(dsp_engine_errors(engine, 0, NULL), DSP_NULL_POINTER);
    IS(dsp_engine_slot(engine, DSP_PLAY, 0, NULL), DSP_NULL_POINTER);
    IS(dsp_engine_ready(engine, NULL, NULL), 0);
}

/* Before anything is open. */
static void of_a_new_engine(struct dsp_engine *engine) {
    struct dsp_settings settings;
    struct dsp_slot slot;
    uint64_t writable = 9, readable = 9;

    IS(dsp_engine_is_idle(engine), 1);
    IS(dsp_engine_ready(engine, &writable, &readable), 0);
    IS(writable, 0);
    IS(readable, 0);
    IS(dsp_engine_is_ready(engine, 0), 0);
    IS(dsp_engine_is_ready(engine, 64), DSP_WRONG_ARGUMENT);
    IS(dsp_engine_settings(engine, 0, &settings), DSP_BAD_DESCRIPTOR);
    IS(dsp_engine_settings(engine, 64, &settings), DSP_WRONG_ARGUMENT);
    IS(dsp_engine_peek(engine, 0, DSP_GETFMTS, 0, NULL), DSP_BAD_DESCRIPTOR);
    IS(dsp_engine_peek(engine, 64, DSP_GETFMTS, 0, NULL), DSP_WRONG_ARGUMENT);
    IS(dsp_engine_frames_until(engine, 0, 1), DSP_BAD_DESCRIPTOR);
    IS(dsp_engine_frames_until(engine, 64, 1), DSP_WRONG_ARGUMENT);
    IS(dsp_engine_slot(engine, DSP_PLAY, 1, &slot), 0);
    IS(slot.state, DSP_SLOT_FREE);
    IS(slot.frames, 0);
    IS(dsp_engine_slot(engine, DSP_PLAY, 2, &slot), DSP_WRONG_ARGUMENT);
    IS(dsp_engine_slot(engine, DSP_RECORD, 1, &slot), DSP_WRONG_ARGUMENT);
    IS(dsp_engine_slot(engine, DSP_MAP, 1, &slot), DSP_WRONG_ARGUMENT);
    IS(dsp_engine_slot(engine, DSP_MAP, 2, &slot), 0);
    IS(dsp_engine_slot(engine, DSP_MAP, 3, &slot), DSP_WRONG_ARGUMENT);
    IS(dsp_engine_slot(engine, (enum dsp_way)3, 0, &slot), DSP_WRONG_ARGUMENT);
}

static void settings_are(struct dsp_engine *engine, uint32_t fd, uint32_t way, uint32_t slot, uint32_t state) {
    struct dsp_settings got;

    IS(dsp_engine_settings(engine, fd, &got), 0);
    IS(got.way, way);
    IS(got.slot, slot);
    IS(got.format, DSP_S16_LE);
    IS(got.channels, 2);
    IS(got.rate, 48000);
    IS(got.fragments, 4);
    IS(got.fragment_bytes, 4096);
    IS(got.trigger, 1);
    IS(got.volume, way == DSP_RECORD ? 0 : 100 + 256 * 100);
    IS(got.group, 0);
    IS(got.state, state);
}

/* A client fills its ring, and waits for room. */
static void of_one_that_plays(struct dsp_engine *engine) {
    static const uint8_t sound[RING];
    struct dsp_space space;
    struct dsp_position position;
    struct dsp_slot slot;
    struct dsp_answer told;
    uint64_t writable, readable;
    uint32_t delay;

    IS(dsp_engine_open(engine, 7, DSP_PLAY, DSP_S16_LE, 2, 48000), 0);
    settings_are(engine, 7, DSP_PLAY, 0, DSP_SETUP);
    IS(dsp_engine_is_idle(engine), 0);
    IS(dsp_engine_frames_until(engine, 7, RING), 0);
    IS(dsp_engine_frames_until(engine, 7, RING + 1), DSP_BUSY);
    IS(dsp_engine_write(engine, 7, sound, RING), RING);
    settings_are(engine, 7, DSP_PLAY, 0, DSP_RUNNING);
    IS(dsp_engine_ready(engine, &writable, &readable), 0);
    IS(writable, 0);
    IS(dsp_engine_frames_until(engine, 7, 1), 1);
    IS(dsp_engine_frames_until(engine, 7, 4096), 1024);
    IS(dsp_engine_frames_until(engine, 7, RING), 4096);
    IS(dsp_engine_slot(engine, DSP_PLAY, 0, &slot), 0);
    IS(slot.state, DSP_SLOT_HELD);
    IS(slot.frames, 4096);

    pass(engine, 1024);
    IS(dsp_engine_ready(engine, &writable, &readable), 0);
    IS(writable, 1 << 7);
    IS(dsp_engine_is_ready(engine, 7), DSP_WRITABLE);
    IS(readable, 0);
    IS(dsp_engine_space(engine, 7, &space), 0);
    IS(space.fragments, 1);
    IS(space.all_fragments, 4);
    IS(space.fragment_bytes, 4096);
    IS(space.bytes, 4096);
    IS(dsp_engine_delay(engine, 7, &delay), 0);
    IS(delay, RING); /* 3072 frames in its ring, and 1024 in the device's */
    IS(dsp_engine_position(engine, 7, &position), 0);
    IS(dsp_engine_position(engine, 7, &position), 0);
    IS(position.bytes, 4096);
    IS(position.fragments, 1); /* a question isn't the last answer */
    IS(position.place, 4096);
    IS(dsp_engine_ioctl(engine, 7, DSP_GETOPTR, 0, &told), 0);
    IS(told.second, 1);
    IS(dsp_engine_position(engine, 7, &position), 0);
    IS(position.fragments, 0);
    IS(dsp_engine_frames_until(engine, 7, 4096), 0);
    IS(dsp_engine_frames_until(engine, 7, 4100), 1);
}

/* It is short, closes, and plays what is left. */
static void of_one_that_drains(struct dsp_engine *engine) {
    struct dsp_errors errors;
    struct dsp_settings settings;
    struct dsp_slot slot;
    uint8_t sound[400] = {0};

    pass(engine, 3328);
    IS(dsp_engine_errors(engine, 7, &errors), 0);
    IS(dsp_engine_errors(engine, 7, &errors), 0);
    IS(errors.underruns, 1);
    IS(errors.overruns, 0);
    IS(dsp_engine_write(engine, 7, sound, sizeof sound), 400);
    IS(dsp_engine_close(engine, 7), 0);
    IS(dsp_engine_settings(engine, 7, &settings), DSP_BAD_DESCRIPTOR);
    IS(dsp_engine_slot(engine, DSP_PLAY, 0, &slot), 0);
    IS(slot.state, DSP_SLOT_CLOSING);
    IS(slot.frames, 100);
    IS(dsp_engine_is_idle(engine), 0);
    pass(engine, 1123); /* 100 frames, which leave the device's ring 1024 later */
    IS(dsp_engine_is_idle(engine), 0);
    pass(engine, 1);
    IS(dsp_engine_is_idle(engine), 1);
}

/* One drains and stays open: it takes bytes once all has passed. */
static void of_one_that_syncs(struct dsp_engine *engine) {
    uint8_t sound[400] = {0};

    IS(dsp_engine_open(engine, 3, DSP_PLAY, DSP_S16_LE, 2, 48000), 0);
    IS(dsp_engine_write(engine, 3, sound, sizeof sound), 400);
    settings_are(engine, 3, DSP_PLAY, 0, DSP_PRIMED);
    IS(dsp_engine_frames_until(engine, 3, RING), DSP_BUSY); /* nothing takes what it wrote before it starts */
    IS(dsp_engine_ioctl(engine, 3, DSP_SYNC, 0, NULL), 0);
    settings_are(engine, 3, DSP_PLAY, 0, DSP_DRAINING);
    IS(dsp_engine_frames_until(engine, 3, 1), 1124);
    IS(dsp_engine_close(engine, 3), 0);
    pass(engine, 1124);
}

static void of_one_that_records(struct dsp_engine *engine) {
    struct dsp_space space;
    uint64_t writable, readable;
    uint32_t delay;

    IS(dsp_engine_open(engine, 0, DSP_RECORD, DSP_S16_LE, 2, 48000), 0);
    settings_are(engine, 0, DSP_RECORD, 0, DSP_SETUP);
    IS(dsp_engine_frames_until(engine, 0, 1), DSP_BUSY);
    IS(dsp_engine_ioctl(engine, 0, DSP_POST, 0, NULL), 0);
    settings_are(engine, 0, DSP_RECORD, 0, DSP_RUNNING);
    IS(dsp_engine_frames_until(engine, 0, 1), 1);
    IS(dsp_engine_frames_until(engine, 0, 4096), 1024);
    IS(dsp_engine_frames_until(engine, 0, RING), 4096);
    IS(dsp_engine_frames_until(engine, 0, RING + 1), DSP_BUSY);
    pass(engine, 100);
    IS(dsp_engine_ready(engine, &writable, &readable), 0);
    IS(writable, 0);
    IS(readable, 1);
    IS(dsp_engine_is_ready(engine, 0), DSP_READABLE);
    IS(dsp_engine_space(engine, 0, &space), 0);
    IS(space.bytes, 400);
    IS(dsp_engine_delay(engine, 0, &delay), DSP_INVALID);
    IS(dsp_engine_close(engine, 0), 0);
}

static void of_a_mapped_one(struct dsp_engine *engine) {
    struct dsp_position position;
    struct dsp_slot slot;
    uint64_t writable, readable;

    IS(dsp_engine_open(engine, 63, DSP_MAP, DSP_S16_LE, 2, 48000), 2);
    settings_are(engine, 63, DSP_MAP, 2, DSP_SETUP);
    IS(dsp_engine_frames_until(engine, 63, 1), DSP_INVALID);
    IS(dsp_engine_ready(engine, &writable, &readable), 0);
    IS(writable, 0);
    IS(readable, 0);
    IS(dsp_engine_ioctl(engine, 63, DSP_POST, 0, NULL), 0);
    pass(engine, 100);
    IS(dsp_engine_position(engine, 63, &position), 0);
    IS(position.place, 400);
    IS(dsp_engine_slot(engine, DSP_MAP, 2, &slot), 0);
    IS(slot.state, DSP_SLOT_HELD);
    IS(dsp_engine_close(engine, 63), 0);
    IS(dsp_engine_is_idle(engine), 1);
}

int main(void) {
    struct dsp_engine engine = DSP_NO_ENGINE;
    uint64_t left;

    IS(dsp_engine_new(&engine, &device, NULL, 0, NULL, 0, NULL, 0), 0);
    left = dsp_engine_frames_left(&engine);
    of_nothing(&engine);
    of_a_new_engine(&engine);
    IS(dsp_engine_frames_left(&engine), left); /* no question uses it up */
    of_one_that_plays(&engine);
    of_one_that_drains(&engine);
    of_one_that_syncs(&engine);
    of_one_that_records(&engine);
    of_a_mapped_one(&engine);
    dsp_engine_free(&engine);
    printf("%s\n", wrong == 0 ? "questions: all as expected" : "questions: not all as expected");
    return wrong != 0;
}
