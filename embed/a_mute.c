/*
 * Two clients of one device: music and a voice, and the music is muted for a while. The calls are those of examples/17-a-mute, so the
 * replies that this prints and the bytes that it writes to the file of its first word are those of the example.
 */
#include <stdio.h>
#include <string.h>

#include "dsp_engine.h"

enum { FRAMES = 4, MUSIC = 0, VOICE = 1, CLIENT_FRAMES = 12 };

static int line = 0;

/* A number that a call answered, as a reply. Answers whether the call was accepted. */
static bool told(int32_t number) {
    static const char *const refusals[] = {"again", "busy", "inval", "badf", "exist"};
    line += 1;
    if (number >= 0) {
        return true;
    }
    if (number >= DSP_EXISTS) {
        printf("%d: refused %s\n", line, refusals[-1 - number]);
    } else {
        printf("%d: failed %d\n", line, (int)number);
    }
    return false;
}

static void tell_done(int32_t number) {
    if (told(number)) {
        printf("%d: ok\n", line);
    }
}

static void tell_number(int32_t number) {
    if (told(number)) {
        printf("%d: ok %d\n", line, (int)number);
    }
}

/* An interrupt: the bytes that leave the device go to the file. */
static void interrupt(struct dsp_engine *engine, FILE *out) {
    uint8_t bytes[4 * FRAMES];
    int32_t count = dsp_engine_interrupt(engine, FRAMES, NULL, 0, bytes, sizeof bytes);
    if (told(count)) {
        printf("%d: ok %d\n", line, FRAMES);
        fwrite(bytes, 1, (size_t)count, out);
    }
}

/* Two bytes of a sample, the lower one first. */
static void put_sample(uint8_t *at, unsigned sample) {
    at[0] = (uint8_t)(sample & 0xff);
    at[1] = (uint8_t)(sample >> 8);
}

/* Frame n of the music, from 1 on, is n on the left and 256 + n on the right; of the voice it is 16 times as much, and 4096 + 16 * n. */
static void put_frames(uint8_t *bytes, unsigned scale) {
    for (unsigned n = 1; n <= CLIENT_FRAMES; n += 1) {
        put_sample(bytes + 4 * (n - 1), scale * n);
        put_sample(bytes + 4 * (n - 1) + 2, scale * (256 + n));
    }
}

static void play(struct dsp_engine *engine, FILE *out) {
    uint8_t bytes[4 * CLIENT_FRAMES];
    struct dsp_answer answer;

    tell_number(dsp_engine_open(engine, MUSIC, DSP_PLAY, DSP_S16_LE, 2, 48000));
    tell_number(dsp_engine_open(engine, VOICE, DSP_PLAY, DSP_S16_LE, 2, 48000));
    put_frames(bytes, 1);
    tell_number(dsp_engine_write(engine, MUSIC, bytes, sizeof bytes));
    put_frames(bytes, 16);
    tell_number(dsp_engine_write(engine, VOICE, bytes, sizeof bytes));
    tell_done(dsp_engine_ioctl(engine, MUSIC, DSP_POST, 0, NULL));
    tell_done(dsp_engine_ioctl(engine, VOICE, DSP_POST, 0, NULL));
    interrupt(engine, out);
    tell_done(dsp_engine_mixer(engine, DSP_MUTE_SLOT, 0, 1, NULL));
    interrupt(engine, out);
    if (told(dsp_engine_ioctl(engine, MUSIC, DSP_GETOPTR, 0, &answer))) {
        printf("%d: ok bytes=%llu blocks=%llu ptr=%llu\n", line, (unsigned long long)answer.first, (unsigned long long)answer.second,
               (unsigned long long)answer.third);
    }
    if (told(dsp_engine_mixer(engine, DSP_GET_SLOT, 0, 0, &answer))) {
        printf("%d: ok %llu\n", line, (unsigned long long)answer.first);
    }
    tell_done(dsp_engine_mixer(engine, DSP_MUTE_SLOT, 0, 0, NULL));
    interrupt(engine, out);
    if (told(dsp_engine_ioctl(engine, MUSIC, DSP_GETERROR, 0, &answer))) {
        printf("%d: ok underruns=%llu overruns=%llu\n", line, (unsigned long long)answer.first, (unsigned long long)answer.second);
    }
    tell_done(dsp_engine_close(engine, MUSIC));
    tell_done(dsp_engine_close(engine, VOICE));
    interrupt(engine, out);
    interrupt(engine, out);
}

int main(int count, char **words) {
    struct dsp_device device = DSP_DEVICE_DEFAULT;
    struct dsp_engine engine = DSP_NO_ENGINE;
    FILE *out = count == 2 ? fopen(words[1], "wb") : NULL;
    int32_t answer;

    if (out == NULL) {
        fputs("usage: a_mute OUT\n", stderr);
        return 2;
    }
    device.ring_frames = 2 * FRAMES;
    answer = dsp_engine_new(&engine, &device, NULL, 0, NULL, 0, NULL, 0);
    if (answer != 0) {
        fprintf(stderr, "a_mute: %s\n", dsp_engine_error(answer));
        return 1;
    }
    play(&engine, out);
    dsp_engine_free(&engine);
    return fclose(out) == 0 ? 0 : 1;
}
