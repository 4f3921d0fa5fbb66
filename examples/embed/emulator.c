/*
 * An emulator's sound: two chips at rates of their own, 60 pictures a second, and a wave of what the device got.
 *
 *     cc emulator.c $(pkg-config --cflags --libs dsp_engine) -o emulator && ./emulator out.wav
 */
#include <dsp_engine.h>
#include <stdio.h>

enum { PICTURES_A_SECOND = 60, PICTURES = 120, DEVICE_RATE = 48000, PERIOD = DEVICE_RATE / PICTURES_A_SECOND, FRAME = 4 };

/* A chip that gives a square wave: silence and a level by turns, each for so many frames. */
struct chip {
    uint32_t fd;
    enum dsp_format format;
    uint32_t channels, rate, half_wave;
    uint8_t silence[4], level[4]; /* a frame of each */
    uint32_t frame_bytes;
};

static const struct chip chips[] = {
    {.fd = 0, .format = DSP_U8, .channels = 1, .rate = 55930, .half_wave = 64, .silence = {128}, .level = {160}, .frame_bytes = 1},
    {.fd = 1, .format = DSP_S16_LE, .channels = 2, .rate = 53267, .half_wave = 100, .level = {0, 16, 0, 8}, .frame_bytes = 4},
};

enum { CHIPS = sizeof chips / sizeof chips[0] };

/* How many frames a chip has given before a picture. Rates aren't multiples of 60, so pictures differ by a frame. */
static uint32_t frames_before(const struct chip *chip, uint32_t picture) {
    return (uint32_t)((uint64_t)chip->rate * picture / PICTURES_A_SECOND);
}

/* Gives the engine the frames of a picture. Answers whether it took them all. */
static bool play_picture(struct dsp_engine *engine, const struct chip *chip, uint32_t picture) {
    uint8_t bytes[4096];
    uint32_t length = 0;
    for (uint32_t frame = frames_before(chip, picture); frame < frames_before(chip, picture + 1); frame += 1) {
        const uint8_t *from = frame / chip->half_wave % 2 == 0 ? chip->silence : chip->level;
        for (uint32_t i = 0; i < chip->frame_bytes; i += 1) {
            bytes[length++] = from[i];
        }
    }
    return dsp_engine_write(engine, chip->fd, bytes, length) == (int32_t)length;
}

static bool play_chips(struct dsp_engine *engine, uint32_t picture) {
    bool is_taken = true;
    for (int i = 0; i < CHIPS; i += 1) {
        is_taken = is_taken && play_picture(engine, &chips[i], picture);
    }
    return is_taken;
}

/* Opens a descriptor for each chip, and starts both once a picture waits: so they are a picture ahead, and never short. */
static bool start_chips(struct dsp_engine *engine) {
    bool is_started = true;
    for (int i = 0; i < CHIPS; i += 1) {
        const struct chip *chip = &chips[i];
        is_started = is_started && dsp_engine_open(engine, chip->fd, DSP_PLAY, chip->format, chip->channels, chip->rate) >= 0;
    }
    is_started = is_started && play_chips(engine, 0);
    for (int i = 0; i < CHIPS; i += 1) {
        is_started = is_started && dsp_engine_ioctl(engine, chips[i].fd, DSP_POST, 0, NULL) == 0;
    }
    return is_started;
}

static void put_number(FILE *out, uint32_t number, int bytes) {
    for (; bytes > 0; bytes -= 1, number >>= 8) {
        fputc((int)(number & 0xff), out);
    }
}

static void put_head(FILE *out, uint32_t length) {
    static const uint32_t shape[][2] = {{16, 4}, {1, 2}, {2, 2}, {DEVICE_RATE, 4}, {DEVICE_RATE * FRAME, 4}, {FRAME, 2}, {16, 2}};
    fputs("RIFF", out);
    put_number(out, 36 + length, 4);
    fputs("WAVEfmt ", out);
    for (size_t k = 0; k < sizeof shape / sizeof shape[0]; k += 1) {
        put_number(out, shape[k][0], (int)shape[k][1]);
    }
    fputs("data", out);
    put_number(out, length, 4);
}

static bool run(struct dsp_engine *engine, FILE *out) {
    uint8_t bytes[PERIOD * FRAME];
    struct dsp_answer shortages[CHIPS];
    bool is_right = start_chips(engine);
    put_head(out, PICTURES * sizeof bytes);
    for (uint32_t picture = 0; is_right && picture < PICTURES; picture += 1) {
        is_right = play_chips(engine, picture + 1)
                   && dsp_engine_interrupt(engine, PERIOD, NULL, 0, bytes, sizeof bytes) == (int32_t)sizeof bytes
                   && fwrite(bytes, sizeof bytes, 1, out) == 1;
    }
    for (int i = 0; is_right && i < CHIPS; i += 1) {
        is_right = dsp_engine_ioctl(engine, chips[i].fd, DSP_GETERROR, 0, &shortages[i]) == 0 && shortages[i].first == 0;
    }
    return is_right;
}

int main(int count, char **words) {
    struct dsp_device device = DSP_DEVICE_DEFAULT;
    struct dsp_engine *engine = NULL;
    FILE *out = count == 2 ? fopen(words[1], "wb") : NULL;
    if (out == NULL) {
        fputs("emulator: name a wave that can be written\n", stderr);
        return 2;
    }
    device.ring_frames = PERIOD;
    bool is_right = dsp_engine_create(&engine, &device, NULL, 0, NULL, 0, NULL, 0) == 0 && run(engine, out);
    bool is_lost = ferror(out) != 0;
    dsp_engine_destroy(engine);
    if (fclose(out) != 0 || is_lost || !is_right) {
        fprintf(stderr, "emulator: %s\n", is_right || is_lost ? "the wave can't be written" : "a call was refused, or a chip was short");
        return 1;
    }
    puts("120 pictures, no shortage");
    return 0;
}
