/*
 * A program that brings the library its own memory: a test. It is linked with a copy of the archive in which objcopy has put own_malloc,
 * own_realloc and own_free in the place of malloc, realloc and free, as docs/EMBEDDING.md says. They take from a pool, count, and refuse
 * one request after another.
 */
#include <stdio.h>
#include <string.h>

#include "dsp_engine.h"

enum { POOL = 8 << 20, HEAD = 16, STATE_MOST = 1 << 16 };

/* A block is its size in a head of 16 bytes, and after that its bytes: the pool's next ones. Nothing is taken back into the pool. */
static union {
    long double most_aligned;
    uint8_t bytes[POOL];
} pool;

static size_t used = 0;
static long blocks = 0;
static long requests = 0;
static long refused = -1; /* the request that is refused, or none */

void *own_malloc(size_t size);
void *own_realloc(void *block, size_t size);
void own_free(void *block);

void *own_malloc(size_t size) {
    size_t whole = (HEAD + size + 15) / 16 * 16;
    uint8_t *at = pool.bytes + used;
    requests += 1;
    if (requests - 1 == refused || size > POOL || whole > POOL - used) {
        return NULL;
    }
    memcpy(at, &size, sizeof size);
    used += whole;
    blocks += 1;
    return at + HEAD;
}

void *own_realloc(void *block, size_t size) {
    size_t old = 0;
    void *other = own_malloc(size);
    if (other != NULL && block != NULL) {
        memcpy(&old, (uint8_t *)block - HEAD, sizeof old);
        memcpy(other, block, old < size ? old : size);
        own_free(block);
    }
    return other;
}

void own_free(void *block) {
    blocks -= block != NULL;
}

/* Calls of all kinds. Answers whether none asked for memory or gave some back. */
static bool asks_for_nothing(struct dsp_engine *engine) {
    static uint8_t state[STATE_MOST];
    uint8_t bytes[64] = {0};
    long before = requests, there = blocks;
    bool is_right = dsp_engine_open(engine, 0, DSP_PLAY, DSP_U8, 1, 8000) == 0 && dsp_engine_open(engine, 1, DSP_RECORD, DSP_U8, 1, 8000) == 0
                    && dsp_engine_write(engine, 0, bytes, sizeof bytes) == (int32_t)sizeof bytes
                    && dsp_engine_ioctl(engine, 0, DSP_POST, 0, NULL) == 0 && dsp_engine_ioctl(engine, 1, DSP_SETTRIGGER, 1, NULL) == 0
                    && dsp_engine_interrupt(engine, 16, NULL, 0, bytes, sizeof bytes) == (int32_t)sizeof bytes
                    && dsp_engine_read(engine, 1, bytes, 2) == 2 && dsp_engine_mixer(engine, DSP_SET_MASTER, 0, 50, NULL) == 0
                    && dsp_engine_close(engine, 0) == 0 && dsp_engine_close(engine, 0) == DSP_BAD_DESCRIPTOR
                    && dsp_engine_save(engine, state, sizeof state) == dsp_engine_state_size(engine);
    return is_right && requests == before && blocks == there;
}

/* What was taken up to here. */
struct taken {
    long requests;
    size_t bytes;
};

static struct taken of_engine, of_both, of_all;

/*
 * Closes a descriptor, and goes back to the state that has it open. Answers what the loading was answered, or 1 where something else was
 * wrong: where it was refused the descriptor is still closed.
 */
static int32_t load_back(struct dsp_engine *engine) {
    static uint8_t state[STATE_MOST];
    int32_t slot = dsp_engine_open(engine, 0, DSP_PLAY, DSP_U8, 1, 8000), answer;
    int64_t size = dsp_engine_save(engine, state, sizeof state);
    if (slot != 0 || size <= 0 || dsp_engine_close(engine, 0) != 0) {
        return 1;
    }
    answer = dsp_engine_load(engine, state, (size_t)size);
    return dsp_engine_close(engine, 0) == (answer == 0 ? 0 : DSP_BAD_DESCRIPTOR) ? answer : 1;
}

/*
 * Makes an engine in the empty pool, clones it, loads a state into it, uses and frees both. Answers what the first of these was answered that
 * was refused, or 1 where something else was wrong: an engine goes on of which no clone was made, or into which nothing was loaded.
 */
static int32_t try_all(long refuse) {
    static const struct dsp_device device = DSP_DEVICE_DEFAULT;
    struct dsp_engine *engine = NULL, clone = DSP_NO_ENGINE;
    bool is_right;
    int32_t answer;
    used = 0;
    requests = 0;
    refused = refuse;
    answer = dsp_engine_create(&engine, &device, NULL, 0, NULL, 0, NULL, 0);
    of_engine = (struct taken){requests, used};
    answer = answer != 0 ? answer : dsp_engine_clone(engine, &clone);
    of_both = (struct taken){requests, used};
    answer = answer != 0 ? answer : load_back(engine);
    of_all = (struct taken){requests, used};
    is_right = engine == NULL || asks_for_nothing(engine);
    dsp_engine_destroy(engine);
    is_right = is_right && (!clone.there || asks_for_nothing(&clone));
    dsp_engine_free(&clone);
    return is_right && blocks == 0 ? answer : 1;
}

int main(void) {
    bool is_right = try_all(-1) == 0;
    struct taken engine = of_engine, both = of_both, all = of_all;

    for (long each = 0; each < all.requests; each += 1) {
        is_right = try_all(each) == DSP_NO_MEMORY && is_right;
    }
    printf("an engine asks the program %ld times for %lu KiB, its clone %ld times for %lu KiB, and a load %ld times for %lu KiB; %s\n",
           engine.requests, (unsigned long)(engine.bytes / 1024), both.requests - engine.requests,
           (unsigned long)((both.bytes - engine.bytes) / 1024), all.requests - both.requests,
           (unsigned long)((all.bytes - both.bytes) / 1024),
           is_right ? "refused once each, they give back all that they had" : "something is wrong");
    return is_right && engine.requests > 0 && both.requests > engine.requests && all.requests > both.requests ? 0 : 1;
}
