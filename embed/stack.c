/*
 * How much stack the library's calls take, measured: a test. A thread has a stack of known bytes; before a call those below it are painted,
 * and after it those count that are no longer so. It fails where the page says less.
 */
#define _POSIX_C_SOURCE 200809L
#include <pthread.h>
#include <stdio.h>
#include <string.h>

#include "dsp_engine.h"

enum { STACK = 1 << 20, PAINT = 0xa5, NEAR = 512, MOST = 20 << 10, LOAD_MOST = 24 << 10 };

static union {
    long double most_aligned;
    unsigned char bytes[STACK];
} stack;

static bool is_cloned = false, is_loaded = false;

/* What is measured: a call, and the engine that it is of. */
struct measured {
    void (*call)(struct dsp_engine *engine);
    struct dsp_engine *engine;
    size_t taken;
};

static const struct dsp_device device = {
    .format = DSP_S24_LE,
    .channels = 8,
    .rate = 48000,
    .mix_channels = 6,
    .mix_rate = 44100,
    .ring_frames = 4096,
    .play_slots = 8,
    .record_slots = 8,
    .map_slots = 8,
    .quality = 4,
};

static void make(struct dsp_engine *engine) {
    static const struct dsp_filter filter = {.phases = 1, .taps = 64, .shift = 16, .first = 0};
    static const struct dsp_section section = {.shift = 16, .b0 = 65536};
    static const int32_t coefs[64] = {65536};
    dsp_engine_new(engine, &device, &filter, 1, coefs, 64, &section, 1);
}

static void open_and_write(struct dsp_engine *engine) {
    static const uint8_t bytes[4096] = {1};
    dsp_engine_open(engine, 0, DSP_PLAY, DSP_S16_BE, 4, 11025);
    dsp_engine_open(engine, 1, DSP_RECORD, DSP_U24_LE, 1, 96000);
    dsp_engine_open(engine, 2, DSP_MAP, DSP_S32_LE, 8, 22050);
    dsp_engine_write(engine, 0, bytes, sizeof bytes);
    dsp_engine_poke(engine, 2, 0, bytes, sizeof bytes);
    dsp_engine_ioctl(engine, 0, DSP_POST, 0, NULL);
    dsp_engine_ioctl(engine, 1, DSP_SETTRIGGER, 1, NULL);
    dsp_engine_ioctl(engine, 2, DSP_SETTRIGGER, 2, NULL);
}

static void interrupt_and_read(struct dsp_engine *engine) {
    static uint8_t bytes[4096 * 24];
    dsp_engine_interrupt(engine, 4096, NULL, 0, bytes, sizeof bytes);
    dsp_engine_read(engine, 1, bytes, 4096);
    dsp_engine_mixer(engine, DSP_GET_MASTER, 0, 0, NULL);
    dsp_engine_close(engine, 0);
}

/* Its clone, which is freed at once. */
static void clone_and_free(struct dsp_engine *engine) {
    struct dsp_engine clone = DSP_NO_ENGINE;
    is_cloned = dsp_engine_clone(engine, &clone) == 0;
    dsp_engine_free(&clone);
}

/* Its state, and the engine that is made of it and takes its place. */
static void save_and_load(struct dsp_engine *engine) {
    static uint8_t state[1 << 22];
    int64_t size = dsp_engine_save(engine, state, sizeof state);
    is_loaded = size > 0 && dsp_engine_load(engine, state, (size_t)size) == 0;
}

/* Paints what lies below this function's own frame, makes the call, and looks how far down it came. */
static void *measure(void *asked) {
    struct measured *it = asked;
    size_t here = (uintptr_t)&it - (uintptr_t)stack.bytes, lowest = 0;
    memset(stack.bytes, PAINT, here - NEAR);
    it->call(it->engine);
    while (lowest < here && stack.bytes[lowest] == PAINT) {
        lowest += 1;
    }
    it->taken = here - lowest;
    return NULL;
}

/* The stack that a call takes, or more than there is where no thread could be had. */
static size_t stack_of(void (*call)(struct dsp_engine *), struct dsp_engine *engine) {
    struct measured it = {call, engine, STACK};
    pthread_attr_t how;
    pthread_t thread;
    if (pthread_attr_init(&how) == 0 && pthread_attr_setstack(&how, stack.bytes, STACK) == 0
        && pthread_create(&thread, &how, measure, &it) == 0) {
        pthread_join(thread, NULL);
    }
    return it.taken;
}

int main(void) {
    struct dsp_engine engine = DSP_NO_ENGINE;
    size_t of_new = stack_of(make, &engine);
    bool is_made = engine.there;
    size_t of_writes = stack_of(open_and_write, &engine);
    size_t of_interrupts = stack_of(interrupt_and_read, &engine);
    size_t of_clone = stack_of(clone_and_free, &engine);
    size_t of_load = stack_of(save_and_load, &engine);
    size_t of_free = stack_of(dsp_engine_free, &engine);
    bool is_within = of_new <= MOST && of_writes <= MOST && of_interrupts <= MOST && of_clone <= MOST && of_load <= LOAD_MOST && of_free <= MOST;

    printf("bytes of stack: dsp_engine_new %lu, openings and writes %lu, interrupts and reads %lu, dsp_engine_clone %lu, "
           "dsp_engine_save and dsp_engine_load %lu, dsp_engine_free %lu\n",
           (unsigned long)of_new, (unsigned long)of_writes, (unsigned long)of_interrupts, (unsigned long)of_clone, (unsigned long)of_load,
           (unsigned long)of_free);
    return is_made && is_cloned && is_loaded && is_within ? 0 : 1;
}
