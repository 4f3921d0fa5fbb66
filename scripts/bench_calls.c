/*
 * Rounds of five calls: bench_calls ROUNDS OUT
 *
 * In each round four clients write four frames each, and an interrupt takes four. What is handed over goes to the file, as `run` writes
 * what the same lines of a script hand over.
 */
#include <stdio.h>
#include <stdlib.h>

#include "dsp_engine.h"

enum { CLIENTS = 4, FRAMES = 4, BYTES = 4 * FRAMES };

static const struct dsp_device device = DSP_DEVICE_DEFAULT;

/* Answers whether all calls of a round were accepted. */
static bool round_of_calls(struct dsp_engine *engine, const uint8_t *bytes, FILE *out) {
    uint8_t handed[BYTES];
    for (uint32_t fd = 0; fd < CLIENTS; fd += 1) {
        if (dsp_engine_write(engine, fd, bytes, BYTES) != BYTES) {
            return false;
        }
    }
    return dsp_engine_interrupt(engine, FRAMES, NULL, 0, handed, sizeof handed) == BYTES && fwrite(handed, 1, BYTES, out) == BYTES;
}

int main(int count, char **words) {
    struct dsp_engine engine = DSP_NO_ENGINE;
    uint8_t bytes[BYTES];
    FILE *out = count == 3 ? fopen(words[2], "wb") : NULL;
    bool is_right = out != NULL && dsp_engine_new(&engine, &device, NULL, 0, NULL, 0, NULL, 0) == 0;

    for (int i = 0; i < BYTES; i += 1) {
        bytes[i] = (uint8_t)i;
    }
    for (uint32_t fd = 0; is_right && fd < CLIENTS; fd += 1) {
        is_right = dsp_engine_open(&engine, fd, DSP_PLAY, DSP_S16_LE, 2, 48000) == (int32_t)fd;
    }
    for (long rounds = is_right ? atol(words[1]) : 0; is_right && rounds > 0; rounds -= 1) {
        is_right = round_of_calls(&engine, bytes, out);
    }
    dsp_engine_free(&engine);
    return is_right && fclose(out) == 0 ? 0 : 1;
}
