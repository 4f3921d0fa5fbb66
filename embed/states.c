/*
 * What a state is: a test. At each place of the events of soak_events.h an engine is saved and loaded into another one, which takes the
 * events beside it and then goes on alone. A state of several clients is turned bit by bit, cut, made longer and given to other engines:
 * it is refused and changes nothing, or it is taken and saved as just these bytes. An idle engine's state is small, and a save is quick.
 *
 *     states [EVERY]    tries each bit and length, or one of EVERY, where the program runs slowly; then the time of a save isn't judged
 *
 * scripts/embed runs it.
 */
#define _POSIX_C_SOURCE 200809L
#include <stdio.h>
#include <stdlib.h>
#include <string.h>
#include <time.h>

#include "soak_events.h"

enum { ROOM = 1 << 20, MARK = 0xa5, IDLE_MOST = 8192, SAVES = 200, MICROSECONDS_MOST = 500, CLIENTS = 6, GONE = 5, FRAMES = 16 };

/* Where a state's words begin, its version and the digest of its device; and how long the first is. */
enum { VERSION = 0, DIGEST = 8, WORD = 8 };

/* The bytes of a state, and after them one that stays. */
struct state {
    int64_t size;
    uint8_t bytes[ROOM];
};

static struct state saved, again;

static const struct dsp_device usual = DSP_DEVICE_DEFAULT;

/* A device whose engines are small, so that many can be made. */
static const struct dsp_device small = {
    .format = DSP_S16_LE,
    .channels = 2,
    .rate = 48000,
    .ring_frames = 16,
    .play_slots = 3,
    .record_slots = 1,
    .map_slots = 1,
    .quality = 2,
};

static const struct dsp_filter filter = {.phases = 2, .taps = 4, .shift = 2, .first = 0};
static const int32_t coefs[] = {0, 4, 0, 0, 0, 2, 2, 0};
static const struct dsp_section section = {.shift = 1, .b0 = 1, .b1 = 1};

static bool make(struct dsp_engine *engine, const struct dsp_device *device) {
    return dsp_engine_new(engine, device, NULL, 0, NULL, 0, NULL, 0) == 0;
}

static bool make_small(struct dsp_engine *engine) {
    return dsp_engine_new(engine, &small, &filter, 1, coefs, sizeof coefs / sizeof coefs[0], &section, 1) == 0;
}

/* Saves an engine into just the room that its state needs. Answers whether it is written there and nowhere else. */
static bool save(struct dsp_engine *engine, struct state *state) {
    state->size = dsp_engine_state_size(engine);
    if (state->size <= 0 || state->size >= ROOM) {
        return false;
    }
    state->bytes[state->size] = MARK;
    return dsp_engine_save(engine, state->bytes, (size_t)state->size) == state->size && state->bytes[state->size] == MARK;
}

static int32_t load(struct dsp_engine *engine, const struct state *state) {
    return dsp_engine_load(engine, state->bytes, (size_t)state->size);
}

/* Whether an engine is saved as a state. */
static bool is_saved_as(struct dsp_engine *engine, const struct state *state) {
    return save(engine, &again) && again.size == state->size && memcmp(again.bytes, state->bytes, (size_t)state->size) == 0;
}

static bool told(bool is_right, const char *what) {
    if (!is_right) {
        printf("%s\n", what);
    }
    return is_right;
}

/* ---- the events of the soak ---- */

/* Where a state is loaded there is a new engine, or the one that went along up to here, and then another way. */
static bool go_elsewhere(struct dsp_engine *engine, uint32_t place) {
    if (place % 2 == 0) {
        dsp_engine_free(engine);
        return make(engine, &usual);
    }
    for (uint32_t fd = 0; fd < CLIENTS; fd += 1) {
        dsp_engine_close(engine, fd);
    }
    return dsp_engine_mixer(engine, DSP_SET_MASTER, 0, 7, NULL) == 0 && dsp_engine_open(engine, 9, DSP_RECORD, DSP_U8, 1, 8000) >= 0
           && dsp_engine_ioctl(engine, 9, DSP_SETTRIGGER, 1, NULL) == 0 && dsp_engine_interrupt(engine, 100, NULL, 0, NULL, 0) == 400;
}

/* At each place the engine is saved, and loaded into another one, which is saved as the same bytes and goes on as it does. */
static bool try_soak(void) {
    struct dsp_engine engine = DSP_NO_ENGINE, other = DSP_NO_ENGINE, moved;
    struct soak soak;
    char line[TOLD];
    bool is_right = make(&engine, &usual);

    begin_soak(&soak);
    for (uint32_t place = 0; is_right && place < PLACES; place += 1) {
        is_right = go_elsewhere(&other, place) && save(&engine, &saved) && load(&other, &saved) == 0 && is_saved_as(&other, &saved)
                   && is_saved_as(&engine, &saved) && go_on(&soak, &engine, &other);
        moved = engine;
        engine = other;
        other = moved;
    }
    dsp_engine_free(&engine);
    dsp_engine_free(&other);
    is_right = is_expected(&soak, line) && is_right;
    printf("a state at each of %d places: %s, %s\n", PLACES, line, is_right ? "as expected" : "and not as expected");
    return is_right;
}

/* ---- a state of several clients ---- */

/* Descriptor 0 plays, 1 waits in a group, 2 records, and 3 is mapped. What was written to the one that is gone plays to its end. */
static bool open_all(struct dsp_engine *engine) {
    bool is_right = dsp_engine_open(engine, 0, DSP_PLAY, DSP_S16_LE, 2, 48000) == 0
                    && dsp_engine_open(engine, 1, DSP_PLAY, DSP_U8, 1, 22050) == 1
                    && dsp_engine_open(engine, 2, DSP_RECORD, DSP_S24_BE, 1, 44100) == 0
                    && dsp_engine_open(engine, 3, DSP_MAP, DSP_S16_LE, 2, 48000) == 3
                    && dsp_engine_open(engine, GONE, DSP_PLAY, DSP_S32_LE, 2, 96000) == 2;
    /* rings of four fragments of 64 bytes */
    for (uint32_t fd = 0; fd < 4; fd += 1) {
        is_right = is_right && dsp_engine_ioctl(engine, fd, DSP_SETFRAGMENT, 0x00040006, NULL) == 0;
    }
    return is_right;
}

static bool set_all(struct dsp_engine *engine) {
    return dsp_engine_mixer(engine, DSP_SET_MASTER, 0, 0x5a50, NULL) == 0 && dsp_engine_mixer(engine, DSP_SET_SLOT, 1, 0x3c64, NULL) == 0
           && dsp_engine_mixer(engine, DSP_MUTE_SLOT, 2, 1, NULL) == 0 && dsp_engine_ioctl(engine, 0, DSP_SETPLAYVOL, 0x3264, NULL) == 0
           && dsp_engine_join(engine, 1, 0, NULL) == 0;
}

static bool start_all(struct dsp_engine *engine) {
    static uint8_t bytes[160];
    for (size_t i = 0; i < sizeof bytes; i += 1) {
        bytes[i] = (uint8_t)(37 * i + 11);
    }
    return dsp_engine_write(engine, 0, bytes, 150) == 150 && dsp_engine_ioctl(engine, 0, DSP_POST, 0, NULL) == 0
           && dsp_engine_write(engine, 1, bytes, 40) == 40 && dsp_engine_ioctl(engine, 2, DSP_SETTRIGGER, 1, NULL) == 0
           && dsp_engine_poke(engine, 3, 8, bytes, sizeof bytes) == 0 && dsp_engine_ioctl(engine, 3, DSP_POST, 0, NULL) == 0
           && dsp_engine_write(engine, GONE, bytes, sizeof bytes) == (int32_t)sizeof bytes && dsp_engine_close(engine, GONE) == 0;
}

/* Frames that are captured and handed over, and a read of some. */
static bool run_all(struct dsp_engine *engine) {
    int32_t samples[2 * FRAMES];
    uint8_t bytes[4 * FRAMES];
    for (int32_t i = 0; i < 2 * FRAMES; i += 1) {
        samples[i] = (i - 9) * (1 << 24);
    }
    return dsp_engine_interrupt(engine, FRAMES, samples, 2 * FRAMES, bytes, sizeof bytes) == 4 * FRAMES
           && dsp_engine_read(engine, 2, bytes, 5) == 5 && dsp_engine_interrupt(engine, 3, samples, 6, bytes, sizeof bytes) == 12;
}

/* An engine of the small device with all of these, and its state. */
static bool make_good(struct dsp_engine *engine) {
    return told(make_small(engine) && open_all(engine) && set_all(engine) && start_all(engine) && run_all(engine) && save(engine, &saved),
                "no state of several clients is made");
}

/* Whether an engine whose state was turned answers calls as one that there is. An interrupt may find it worn out. */
static bool still_works(struct dsp_engine *engine) {
    uint8_t bytes[4 * FRAMES] = {0};
    struct dsp_answer answer;
    bool is_right = true;
    for (uint32_t fd = 0; fd < CLIENTS; fd += 1) {
        is_right = is_right && dsp_engine_write(engine, fd, bytes, sizeof bytes) >= DSP_EXISTS
                   && dsp_engine_ioctl(engine, fd, DSP_GETOPTR, 0, &answer) >= DSP_EXISTS
                   && dsp_engine_ioctl(engine, fd, DSP_SETTRIGGER, 3, &answer) >= DSP_EXISTS;
    }
    for (uint32_t turn = 0; is_right && turn < 3; turn += 1) {
        int32_t number = dsp_engine_interrupt(engine, FRAMES, NULL, 0, bytes, sizeof bytes);
        is_right = (number == 4 * FRAMES || number == DSP_WORN_OUT) && dsp_engine_read(engine, 2, bytes, sizeof bytes) >= DSP_EXISTS;
    }
    return is_right && dsp_engine_state_size(engine) > 0;
}

/* What became of turned bits: some of those that are refused are of another version or device. */
struct turns {
    unsigned long taken, refused, other;
};

/*
 * A state is loaded in which a bit is turned, into an engine that is where `saved` was saved. Either it is refused and the engine is still
 * there, or the engine is saved as it, and works; then it goes back there.
 */
static bool try_turned(struct dsp_engine *engine, size_t bit, struct turns *turns) {
    uint8_t *at = &saved.bytes[bit / 8];
    uint8_t mask = (uint8_t)(1 << bit % 8);
    int32_t number;
    bool is_right;

    *at ^= mask;
    number = load(engine, &saved);
    is_right = number != 0 || (is_saved_as(engine, &saved) && still_works(engine));
    *at ^= mask;
    if (number == 0) {
        turns->taken += 1;
        is_right = load(engine, &saved) == 0 && is_right;
    } else {
        turns->refused += 1;
        is_right = DSP_OUT_OF_ORDER <= number && number <= DSP_NOT_A_STATE;
    }
    turns->other += number == DSP_NOT_A_STATE || number == DSP_OTHER_DEVICE;
    return told(is_saved_as(engine, &saved) && is_right, "a turned bit isn't refused as it must be, or not taken as it is");
}

/* Of the first two words each bit is refused by what it is of. Of the others some are taken and some refused. */
static bool try_bits(struct dsp_engine *engine, size_t every) {
    struct turns turns = {0, 0, 0};
    size_t bits = 8 * (size_t)saved.size, of_words = (8 * 2 * WORD + every - 1) / every;
    bool is_right = true;
    for (size_t bit = 0; is_right && bit < bits; bit += every) {
        is_right = try_turned(engine, bit, &turns);
    }
    printf("a state of %ld bytes: of %lu bits that were turned %lu are taken, and %lu refused\n", (long)saved.size,
           turns.taken + turns.refused, turns.taken, turns.refused);
    return told(is_right && turns.taken > 0 && turns.refused > of_words && turns.other == of_words, "not each bit is one way or the other");
}

/* Cut anywhere it ends too early, and with a byte more too late. */
static bool try_lengths(struct dsp_engine *engine, size_t every) {
    bool is_right = true;
    for (size_t size = 0; size < (size_t)saved.size; size += every) {
        int32_t number = dsp_engine_load(engine, saved.bytes, size);
        is_right = is_right && (number == DSP_SHORT_STATE || (number == DSP_NOT_A_STATE && size < WORD));
    }
    is_right = is_right && dsp_engine_load(engine, saved.bytes, (size_t)saved.size + 1) == DSP_LONG_STATE;
    return told(is_saved_as(engine, &saved) && is_right, "a state of another length isn't refused by that");
}

/* Whether an engine refuses the state, and stays as it is. */
static bool refuses(struct dsp_engine *engine, int32_t expected) {
    static struct state before;
    return save(engine, &before) && load(engine, &saved) == expected && is_saved_as(engine, &before);
}

/* Other devices, other filters, and another version. */
static bool try_others(void) {
    struct dsp_engine slower = DSP_NO_ENGINE, plain = DSP_NO_ENGINE, alike = DSP_NO_ENGINE;
    struct dsp_device other = small;
    bool is_right;

    other.rate = 44100;
    is_right = dsp_engine_new(&slower, &other, &filter, 1, coefs, sizeof coefs / sizeof coefs[0], &section, 1) == 0 && make(&plain, &small)
               && make_small(&alike) && refuses(&slower, DSP_OTHER_DEVICE) && refuses(&plain, DSP_OTHER_DEVICE);
    saved.bytes[VERSION] += 1;
    is_right = is_right && refuses(&alike, DSP_NOT_A_STATE);
    saved.bytes[VERSION] -= 1;
    saved.bytes[DIGEST] ^= 1;
    is_right = is_right && refuses(&alike, DSP_OTHER_DEVICE);
    saved.bytes[DIGEST] ^= 1;
    is_right = is_right && load(&alike, &saved) == 0;
    dsp_engine_free(&slower);
    dsp_engine_free(&plain);
    dsp_engine_free(&alike);
    return told(is_right, "a state of another device or version isn't refused by that");
}

static bool try_refusals(size_t every) {
    struct dsp_engine engine = DSP_NO_ENGINE;
    bool is_right = make_good(&engine) && try_bits(&engine, every) && try_lengths(&engine, every) && try_others();
    dsp_engine_free(&engine);
    return is_right;
}

/* ---- what a state costs ---- */

/* Two clients play, whose rings of 16384 bytes are full but for what an interrupt took. */
static bool play_two(struct dsp_engine *engine) {
    static const uint8_t bytes[16384] = {1, 2, 3};
    return dsp_engine_open(engine, 0, DSP_PLAY, DSP_S16_LE, 2, 44100) == 0
           && dsp_engine_open(engine, 1, DSP_PLAY, DSP_S16_LE, 2, 48000) == 1
           && dsp_engine_write(engine, 0, bytes, sizeof bytes) == (int32_t)sizeof bytes
           && dsp_engine_write(engine, 1, bytes, sizeof bytes) == (int32_t)sizeof bytes
           && dsp_engine_interrupt(engine, 256, NULL, 0, NULL, 0) == 1024;
}

/* The mean time of a save, in microseconds. */
static double time_of_save(struct dsp_engine *engine) {
    struct timespec begin, end;
    clock_gettime(CLOCK_MONOTONIC, &begin);
    for (int i = 0; i < SAVES; i += 1) {
        dsp_engine_save(engine, again.bytes, ROOM);
    }
    clock_gettime(CLOCK_MONOTONIC, &end);
    return ((double)(end.tv_sec - begin.tv_sec) * 1e6 + (double)(end.tv_nsec - begin.tv_nsec) / 1e3) / SAVES;
}

static bool try_costs(bool is_judged) {
    struct dsp_engine engine = DSP_NO_ENGINE;
    bool is_right = make(&engine, &usual);
    int64_t of_idle = dsp_engine_state_size(&engine);
    bool is_played = is_right && play_two(&engine);
    double time = time_of_save(&engine);

    printf("an idle engine's state has %ld bytes; one of two clients %ld, and a save takes %.1f microseconds\n", (long)of_idle,
           (long)dsp_engine_state_size(&engine), time);
    dsp_engine_free(&engine);
    is_right = is_played && 0 < of_idle && of_idle < IDLE_MOST && (!is_judged || time <= MICROSECONDS_MOST);
    return told(is_right, "a state costs more than it may");
}

int main(int count, char **words) {
    size_t every = count > 1 ? strtoul(words[1], NULL, 10) : 1;
    bool is_right = every > 0 && try_soak();
    is_right = is_right && try_refusals(every);
    is_right = is_right && try_costs(every == 1);
    return is_right ? 0 : 1;
}
