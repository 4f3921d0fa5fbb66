/*
 * Filters and sections that dsp_filter.c makes: those whose numbers are found by hand, and what it refuses. scripts/compare-filters compares
 * many more with those of the tools. scripts/embed runs it.
 */
#include <math.h>
#include <stdio.h>

#include "dsp_filter.h"

static int wrong = 0;

#define IS(call, expected) check(#call, (long)(call), (long)(expected))

static void check(const char *call, long got, long expected) {
    if (got != expected) {
        printf("%s is %ld, and not %ld\n", call, got, expected);
        wrong += 1;
    }
}

static void sizes(void) {
    IS(dsp_filter_size(160, 32), 5120);
    IS(dsp_filter_size(1, 2), 2);
    IS(dsp_filter_size(256, 64), 16384);
    IS(dsp_filter_size(512, 34), 0);
    IS(dsp_filter_size(0, 2), 0);
    IS(dsp_filter_size(513, 2), 0);
    IS(dsp_filter_size(1, 0), 0);
    IS(dsp_filter_size(1, 3), 0);
    IS(dsp_filter_size(1, 66), 0);
    IS(dsp_filter_size(0x80000000u, 2), 0);
}

/* Of two taps the window is 0 at the second, so the first phase is one and nothing; the second of two lies in the middle. One is 2 to the power of 24. */
static void a_filter_by_hand(void) {
    struct dsp_filter filter = {0, 0, 2, 2, 0, 1};
    int32_t coefs[6] = {7, 7, 7, 7, 7, 7};

    IS(dsp_filter_make(&filter, 0, coefs, 6), 0);
    IS(filter.shift, 24);
    IS(coefs[0], 7);
    IS(coefs[1], 16777216);
    IS(coefs[2], 0);
    IS(coefs[3], 8388608);
    IS(coefs[4], 8388608);
    IS(coefs[5], 7);
}

/* A row of a filter has the sum 2 to the power of the shift. */
static void sums(void) {
    static int32_t coefs[160 * 32];
    struct dsp_filter filter = {44100, 48000, 160, 32, 0, 0};

    IS(dsp_filter_make(&filter, 0.95, coefs, 160 * 32), 0);
    for (int r = 0; r < 160; r += 1) {
        int64_t sum = 0;
        for (int j = 0; j < 32; j += 1) {
            sum += coefs[32 * r + j];
        }
        IS(sum == (int64_t)1 << filter.shift, true);
    }
}

static int32_t made(uint32_t src, uint32_t dst, uint32_t phases, uint32_t taps, double cut) {
    struct dsp_filter filter = {src, dst, phases, taps, 0, 0};
    int32_t coefs[4] = {0, 0, 0, 0};
    return dsp_filter_make(&filter, cut, coefs, 4);
}

static void refused_filters(void) {
    struct dsp_filter filter = {0, 0, 2, 2, 9, 0};
    int32_t coefs[4] = {7, 7, 7, 7};

    IS(made(4000, 192000, 1, 2, 1), 0);
    IS(made(3999, 48000, 1, 2, 1), DSP_WRONG_ARGUMENT);
    IS(made(4000, 192001, 1, 2, 1), DSP_WRONG_ARGUMENT);
    IS(made(0, 48000, 1, 2, 1), DSP_WRONG_ARGUMENT);
    IS(made(0, 0, 0, 2, 1), DSP_WRONG_ARGUMENT);
    IS(made(0, 0, 1, 3, 1), DSP_WRONG_ARGUMENT);
    IS(made(0, 0, 1, 2, -0.1), DSP_WRONG_ARGUMENT);
    IS(made(0, 0, 1, 2, 1.1), DSP_WRONG_ARGUMENT);
    IS(made(0, 0, 1, 2, NAN), DSP_WRONG_ARGUMENT);
    IS(made(0, 0, 2, 4, 1), DSP_SHORT_ROOM);
    IS(dsp_filter_make(NULL, 0, coefs, 4), DSP_NULL_POINTER);
    IS(dsp_filter_make(&filter, 0, NULL, 4), DSP_NULL_POINTER);
    IS(dsp_filter_make(&filter, 0, coefs, 3), DSP_SHORT_ROOM);
    filter.first = 1;
    IS(dsp_filter_make(&filter, 0, coefs, 4), DSP_SHORT_ROOM);
    filter.first = 5;
    IS(dsp_filter_make(&filter, 0, coefs, 4), DSP_SHORT_ROOM);
    IS(filter.shift, 9);
    IS(coefs[0], 7);
}

static void is_section(enum dsp_section_kind kind, const struct dsp_section *expected) {
    struct dsp_section section = {0, 0, 0, 0, 0, 0};

    IS(dsp_section_make(&section, 48000, kind, 12000, 0, 0.5), 0);
    IS(section.shift, expected->shift);
    IS(section.b0, expected->b0);
    IS(section.b1, expected->b1);
    IS(section.b2, expected->b2);
    IS(section.a1, expected->a1);
    IS(section.a2, expected->a2);
    IS(dsp_section_fades(&section), true);
}

/* At a quarter of the rate the sine is 1 and the cosine 0, so with Q 0.5 a0 is 2 and both poles are 0. One is 2 to the power of 28. */
static void sections_by_hand(void) {
    static const struct dsp_section flat = {28, 1 << 28, 0, 0, 0, 0};
    static const struct dsp_section low_pass = {28, 1 << 26, 1 << 27, 1 << 26, 0, 0};
    static const struct dsp_section high_pass = {28, 1 << 26, -(1 << 27), 1 << 26, 0, 0};

    is_section(DSP_PEAK, &flat);
    is_section(DSP_LOW_PASS, &low_pass);
    is_section(DSP_HIGH_PASS, &high_pass);
}

/* With no gain what a shelf adds and what it takes away are the same. */
static void flat_shelves(void) {
    struct dsp_section section = {0, 0, 0, 0, 0, 0};

    for (int kind = DSP_LOW_SHELF; kind <= DSP_HIGH_SHELF; kind += 1) {
        IS(dsp_section_make(&section, 44100, (enum dsp_section_kind)kind, 1000, 0, 0.7), 0);
        IS(section.b0, 1 << 28);
        IS(section.b1, section.a1);
        IS(section.b2, section.a2);
    }
}

static int32_t made_section(uint32_t rate, int kind, double hertz, double decibels, double width) {
    struct dsp_section section = {0, 0, 0, 0, 0, 0};
    return dsp_section_make(&section, rate, (enum dsp_section_kind)kind, hertz, decibels, width);
}

static void refused_sections(void) {
    IS(dsp_section_make(NULL, 48000, DSP_PEAK, 1000, 6, 1), DSP_NULL_POINTER);
    IS(made_section(48000, DSP_PEAK, 1000, 120, 1000), 0);
    IS(made_section(3999, DSP_PEAK, 1000, 6, 1), DSP_WRONG_ARGUMENT);
    IS(made_section(192001, DSP_PEAK, 1000, 6, 1), DSP_WRONG_ARGUMENT);
    IS(made_section(48000, 5, 1000, 6, 1), DSP_WRONG_ARGUMENT);
    IS(made_section(48000, DSP_PEAK, 0, 6, 1), DSP_WRONG_ARGUMENT);
    IS(made_section(48000, DSP_PEAK, 24000, 6, 1), DSP_WRONG_ARGUMENT);
    IS(made_section(48000, DSP_PEAK, NAN, 6, 1), DSP_WRONG_ARGUMENT);
    IS(made_section(48000, DSP_PEAK, 1000, 121, 1), DSP_WRONG_ARGUMENT);
    IS(made_section(48000, DSP_PEAK, 1000, 6, 1001), DSP_WRONG_ARGUMENT);
    IS(made_section(48000, DSP_PEAK, 1000, 6, 0.009), DSP_WRONG_ARGUMENT);
    IS(made_section(48000, DSP_LOW_SHELF, 1000, 6, 1.1), DSP_WRONG_ARGUMENT);
    IS(made_section(48000, DSP_LOW_PASS, 1000, 6, 1), DSP_WRONG_ARGUMENT);
}

/* One is 4 with a shift of 2. Poles are inside where a2 is below one, and a1 below one and a2 together. */
static void poles(void) {
    static const struct {
        int32_t a1, a2;
        bool fades;
    } rows[] = {{0, 3, true}, {0, 4, false}, {0, -3, true}, {0, -4, false}, {3, 0, true}, {-4, 0, false}, {-6, 3, true}, {7, 3, false}};

    for (size_t k = 0; k < sizeof rows / sizeof rows[0]; k += 1) {
        struct dsp_section section = {2, 4, 0, 0, rows[k].a1, rows[k].a2};
        IS(dsp_section_fades(&section), rows[k].fades);
    }
    IS(dsp_section_fades(NULL), false);
}

/* What is made is what an engine takes. */
static void in_an_engine(void) {
    static const struct dsp_device device = {DSP_S16_LE, 2, 48000, 0, 0, 16, 1, 1, 0, 2};
    struct dsp_filter filters[] = {{0, 0, 2, 2, 0, 0}, {44100, 48000, 4, 2, 0, 4}};
    struct dsp_section section = {0, 0, 0, 0, 0, 0};
    struct dsp_engine engine = DSP_NO_ENGINE;
    int32_t coefs[12];

    IS(dsp_filter_make(&filters[0], 0, coefs, 12), 0);
    IS(dsp_filter_make(&filters[1], 0, coefs, 12), 0);
    IS(dsp_section_make(&section, 48000, DSP_LOW_SHELF, 200, 6, 1), 0);
    IS(dsp_engine_new(&engine, &device, filters, 2, coefs, 12, &section, 1), 0);
    dsp_engine_free(&engine);
}

int main(void) {
    sizes();
    a_filter_by_hand();
    sums();
    refused_filters();
    sections_by_hand();
    flat_shelves();
    refused_sections();
    poles();
    in_an_engine();
    printf("%d answers are wrong\n", wrong);
    return wrong == 0 ? 0 : 1;
}
