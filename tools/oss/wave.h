/* The header of a wave. */
#ifndef WAVE_H
#define WAVE_H

#include <stdint.h>
#include <stdio.h>

enum { WAVE_HEAD = 44 };

struct wave {
    uint32_t bits, width, channels, rate;
};

/* Writes the header of a wave whose body has size bytes; where its end isn't known yet, the header says so. */
static inline void wave_head(FILE *file, struct wave wave, uint64_t size) {
    uint32_t frame = wave.width * wave.channels, told = size > 0xffffff00 ? 0xffffffff : (uint32_t)size;
    uint32_t all = told == 0xffffffff ? told : 36 + told + told % 2;
    const uint32_t words[] = {0x46464952, all, 0x45564157, 0x20746d66, 16, 1 | wave.channels << 16, wave.rate, wave.rate * frame,
                              frame | wave.bits << 16, 0x61746164, told};
    for (unsigned k = 0; k < sizeof words / sizeof words[0]; k += 1) {
        for (unsigned at = 0; at < 32; at += 8) {
            fputc((int)(words[k] >> at & 0xff), file);
        }
    }
}

#endif
