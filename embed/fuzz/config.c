/* How a setup is written as a configuration. */
#include "config.h"

#include <inttypes.h>

enum { BLOCKS_LEAST = 2, BLOCKS_MOST = 64, BLOCK_MOST = 4096 };

static const struct {
    uint32_t code;
    const char *word;
} formats[] = {
    {DSP_U8, "u8"},        {DSP_S8, "s8"},        {DSP_S16_LE, "s16le"}, {DSP_S16_BE, "s16be"}, {DSP_U16_LE, "u16le"},
    {DSP_U16_BE, "u16be"}, {DSP_S24_LE, "s24le"}, {DSP_S24_BE, "s24be"}, {DSP_U24_LE, "u24le"}, {DSP_U24_BE, "u24be"},
    {DSP_S32_LE, "s32le"}, {DSP_S32_BE, "s32be"}, {DSP_U32_LE, "u32le"}, {DSP_U32_BE, "u32be"},
};

const char *format_word(uint32_t format) {
    for (size_t i = 0; i < sizeof formats / sizeof formats[0]; i += 1) {
        if (formats[i].code == format) {
            return formats[i].word;
        }
    }
    return "none";
}

/* How many blocks a ring has in a configuration, or 0 where it can't be cut so. */
static uint32_t blocks_of(uint32_t ring_frames) {
    for (uint32_t blocks = BLOCKS_LEAST; blocks <= BLOCKS_MOST; blocks += 1) {
        if (ring_frames % blocks == 0 && ring_frames / blocks <= BLOCK_MOST) {
            return blocks;
        }
    }
    return 0;
}

bool has_config(const struct setup *setup) {
    return blocks_of(setup->device.ring_frames) != 0 && setup->device.play_slots != 0;
}

static void put_key(FILE *to, const char *key, uint32_t number) {
    fprintf(to, "%s = %" PRIu32 "\n", key, number);
}

static void put_device(FILE *to, const struct dsp_device *device) {
    uint32_t blocks = blocks_of(device->ring_frames);
    fprintf(to, "[device]\nformat = \"%s\"\ncapture = \"capture\"\n", format_word(device->format));
    put_key(to, "channels", device->channels);
    put_key(to, "rate", device->rate);
    put_key(to, "hw_block", device->ring_frames / blocks);
    put_key(to, "hw_blocks", blocks);
    fputs("\n[vchans]\n", to);
    put_key(to, "play", device->play_slots);
    put_key(to, "record", device->record_slots);
    put_key(to, "mapped", device->map_slots);
    put_key(to, "quality", device->quality);
    if (device->mix_rate != 0) {
        put_key(to, "rate", device->mix_rate);
    }
    if (device->mix_channels != 0) {
        put_key(to, "channels", device->mix_channels);
    }
}

static void put_filter(FILE *to, const struct dsp_filter *filter, const int32_t *coefs) {
    fputs("\n[[tables]]\n", to);
    if (filter->src != 0) {
        put_key(to, "src", filter->src);
        put_key(to, "dst", filter->dst);
    }
    put_key(to, "shift", filter->shift);
    fputs("rows = [", to);
    for (uint32_t i = 0; i < filter->phases * filter->taps; i += 1) {
        fprintf(to, "%s%" PRId32 "%s", i % filter->taps == 0 ? "[" : "", coefs[filter->first + i], (i + 1) % filter->taps == 0 ? "], " : ", ");
    }
    fputs("]\n", to);
}

static void put_section(FILE *to, const struct dsp_section *section) {
    fprintf(to, "\n[[eq]]\nshift = %" PRIu32 "\nb0 = %" PRId32 "\nb1 = %" PRId32 "\nb2 = %" PRId32 "\na1 = %" PRId32 "\na2 = %" PRId32 "\n",
            section->shift, section->b0, section->b1, section->b2, section->a1, section->a2);
}

void put_config(FILE *to, const struct setup *setup) {
    put_device(to, &setup->device);
    fputs("\n[files]\ncapture = \"capture.wav\"\ndata = \"data.wav\"\n", to);
    for (size_t i = 0; i < setup->filter_count; i += 1) {
        put_filter(to, &setup->filters[i], setup->coefs);
    }
    for (size_t i = 0; i < setup->section_count; i += 1) {
        put_section(to, &setup->sections[i]);
    }
}
