/* What an engine of the fuzzer is made of: a device, filters and sections of the equaliser, within their limits or not. */
#ifndef FUZZ_SETUP_H
#define FUZZ_SETUP_H

#include "dsp_engine.h"
#include "input.h"

enum { FILTERS_TRIED = 5, SECTIONS_TRIED = 5, COEFS_TRIED = FILTERS_TRIED * 1024 };

struct setup {
    struct dsp_device device;
    struct dsp_filter filters[FILTERS_TRIED];
    size_t filter_count;
    int32_t coefs[COEFS_TRIED];
    size_t coef_count;
    struct dsp_section sections[SECTIONS_TRIED];
    size_t section_count;
};

/* What the front of an input says. */
void take_setup(struct input *input, struct setup *setup);

/* Settings of a stream, those that are most usual more often than others, and now and then such as there are none. */
uint32_t take_format(struct input *input);
uint32_t take_channels(struct input *input);
uint32_t take_rate(struct input *input);

/* A number at an end of some range, or any number. */
uint32_t take_edge(struct input *input);

#endif
