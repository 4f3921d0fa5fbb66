/* How a device, its filters and its sections are taken out of an input. */
#include "setup.h"

#define COUNT_OF(list) (sizeof(list) / sizeof(list)[0])

static const uint32_t formats[] = {DSP_S16_LE, DSP_S16_LE, DSP_U8,     DSP_S8,     DSP_S16_BE, DSP_U16_LE, DSP_U16_BE, DSP_S24_LE,
                                   DSP_S24_BE, DSP_U24_LE, DSP_U24_BE, DSP_S32_LE, DSP_S32_BE, DSP_U32_LE, DSP_U32_BE, DSP_S32_LE};
static const uint32_t channel_counts[] = {2, 2, 2, 1, 1, 4, 6, 8};
static const uint32_t rates[] = {48000, 48000, 44100, 8000, 4000, 11025, 24000, 96000, 192000, 47999, 191999, 4001, 12345};
static const uint32_t mix_channels[] = {0, 0, 0, 0, 1, 2, 6, 8};
static const uint32_t rings[] = {8,  8,   16,   16,   32,   4,    64,   12,  24, 48,   96,   128,  256, 512,  1024, 4096,
                                 10, 100, 1000, 2048, 8192, 4098, 1024, 256, 2,  4096, 1023, 4097, 1,   16384, 65536, 262144};
static const uint32_t slots[] = {1, 1, 1, 2, 2, 3, 4, 8};
static const uint32_t edges[] = {0,     1,     2,      3,      4,      7,      8,       15,       16,       17,         31,         63,
                                 64,    100,   101,    255,    256,    1024,   3999,    4000,     4095,     4096,       4097,       65535,
                                 65536, 131072, 131073, 192000, 192001, 262144, 262145, 16777216, 16777217, 0x7fffffff, 0x80000000, 0xffffffff};

uint32_t take_edge(struct input *input) {
    return take_chance(input, 64) ? take_number(input) : take_one_of(input, edges, COUNT_OF(edges));
}

/* One of a list, and now and then any number. */
static uint32_t take_mostly(struct input *input, const uint32_t *list, size_t count) {
    uint32_t chosen = take_byte(input);
    return chosen < 252 ? list[chosen % count] : take_edge(input);
}

uint32_t take_format(struct input *input) {
    return take_mostly(input, formats, COUNT_OF(formats));
}

uint32_t take_channels(struct input *input) {
    return take_mostly(input, channel_counts, COUNT_OF(channel_counts));
}

uint32_t take_rate(struct input *input) {
    return take_mostly(input, rates, COUNT_OF(rates));
}

static void take_device(struct input *input, struct dsp_device *device) {
    device->format = take_format(input);
    device->channels = take_channels(input);
    device->rate = take_rate(input);
    device->mix_channels = take_one_of(input, mix_channels, COUNT_OF(mix_channels));
    device->mix_rate = take_chance(input, 64) ? take_rate(input) : 0;
    device->ring_frames = take_mostly(input, rings, COUNT_OF(rings));
    device->play_slots = take_mostly(input, slots, COUNT_OF(slots));
    device->record_slots = take_mostly(input, slots, COUNT_OF(slots));
    device->map_slots = take_mostly(input, slots, COUNT_OF(slots));
    device->quality = take_byte(input) % 5;
}

/* A number that is at most this far from 0, or now and then one further. */
static int32_t take_coef(struct input *input, int32_t most) {
    uint32_t kind = take_byte(input);
    int32_t small = (int32_t)kind - 128;
    if (kind >= 250) {
        return kind == 250 ? most + 1 : kind == 251 ? -most - 1 : kind % 2 == 0 ? most : -most;
    }
    return small * (int32_t)(1u << take_byte(input) % 16);
}

/* Coefficients that are few numbers over and over: what they are matters less than how many there are. */
static void put_coefs(struct input *input, struct setup *setup, size_t count) {
    int32_t first = take_coef(input, 1 << 24), second = take_coef(input, 1 << 24);
    for (size_t i = 0; i < count && setup->coef_count < COEFS_TRIED; i += 1) {
        setup->coefs[setup->coef_count] = i % 3 == 0 ? first : i % 3 == 1 ? second : (int32_t)(i % 7);
        setup->coef_count += 1;
    }
}

static void take_filter(struct input *input, struct setup *setup) {
    static const uint32_t phases[] = {1, 1, 2, 2, 3, 4, 16, 512};
    static const uint32_t taps[] = {2, 2, 4, 4, 8, 16, 32, 64};
    struct dsp_filter *filter = &setup->filters[setup->filter_count];

    filter->phases = take_one_of(input, phases, COUNT_OF(phases));
    filter->taps = filter->phases == 512 ? 2 : take_one_of(input, taps, COUNT_OF(taps));
    filter->shift = 1 + take_byte(input) % 30;
    filter->first = (uint32_t)setup->coef_count;
    put_coefs(input, setup, filter->phases * filter->taps);
    if (take_chance(input, 128)) {
        filter->src = take_rate(input);
        filter->dst = take_rate(input);
    }
    if (take_chance(input, 8)) {
        uint32_t *const fields[] = {&filter->src, &filter->dst, &filter->phases, &filter->taps, &filter->shift, &filter->first};
        *fields[take_byte(input) % COUNT_OF(fields)] = take_edge(input);
    }
    setup->filter_count += 1;
}

static void take_section(struct input *input, struct setup *setup) {
    struct dsp_section *section = &setup->sections[setup->section_count];
    int32_t *const coefs[] = {&section->b0, &section->b1, &section->b2, &section->a1, &section->a2};

    section->shift = take_chance(input, 8) ? take_edge(input) : 1 + take_byte(input) % 28;
    for (size_t i = 0; i < COUNT_OF(coefs); i += 1) {
        *coefs[i] = take_coef(input, 1 << 29);
    }
    setup->section_count += 1;
}

void take_setup(struct input *input, struct setup *setup) {
    static const uint32_t counts[] = {0, 0, 0, 0, 0, 0, 0, 0, 0, 1, 1, 2, 3, 4, 1, 2};
    const struct setup nothing = {0};
    uint32_t filters = 0, sections = 0;

    *setup = nothing;
    take_device(input, &setup->device);
    filters = take_chance(input, 2) ? 5 : take_one_of(input, counts, COUNT_OF(counts));
    sections = take_chance(input, 2) ? 5 : take_one_of(input, counts, COUNT_OF(counts));
    for (uint32_t i = 0; i < filters; i += 1) {
        take_filter(input, setup);
    }
    for (uint32_t i = 0; i < sections; i += 1) {
        take_section(input, setup);
    }
}
