/*
 * Makes the numbers of filters and of the equaliser's sections in a program: those that tools/filter and tools/equaliser print, to the digit,
 * as they are made by the same formulas, and by the same C library as long as python3 uses yours. As the tools do, it counts in floating
 * point; the engine gets whole numbers alone, and judges them. Nothing of it is proved. Compile dsp_filter.c with your program, without
 * -ffast-math and the like, and link with -lm.
 */
#ifndef DSP_FILTER_H
#define DSP_FILTER_H

#include "dsp_engine.h"

#ifdef __cplusplus
extern "C" {
#endif

/*
 * These answer 0, DSP_WRONG_ARGUMENT for a number outside its limits, DSP_NULL_POINTER, and DSP_SHORT_ROOM where the array has no room for the
 * coefficients.
 */

/* How many coefficients a filter has with these phases and taps: at most 16384. 0 where there is no such filter. */
size_t dsp_filter_size(uint32_t phases, uint32_t taps);

/*
 * Makes the filter from src to dst frames per second with these phases and taps, or the one for any rates where src and dst are 0. The
 * struct has these, and in first where the coefficients are to begin in the array coefs, which has room for coef_count. What is made is its
 * shift, and the coefficients. The slope ends at half the lower rate where cut is 0. Else its middle lies at this fraction of half the lower
 * rate, above 0 and up to 1. Phases are exact where they are a multiple of dst over the greatest common divisor of src and dst. Answers 0, or
 * a number below 0, and then nothing was changed.
 */
int32_t dsp_filter_make(struct dsp_filter *filter, double cut, int32_t *coefs, size_t coef_count);

/* What a section does. */
enum dsp_section_kind {
    DSP_LOW_SHELF = 0,  /* below hertz the gain is this many decibels, and half of that at hertz. width: the slope, 0.01 to 1 */
    DSP_HIGH_SHELF = 1, /* the same above hertz */
    DSP_PEAK = 2,       /* at hertz the gain is this many decibels, and none far from it. width: Q, 0.01 to 1000 */
    DSP_LOW_PASS = 3,   /* what lies above hertz is stopped; decibels are 0. width: Q, flat with 0.7071 */
    DSP_HIGH_PASS = 4   /* the same below hertz */
};

/*
 * Makes a section for a mix of rate frames per second, 4000 to 192000. hertz lies above 0 and below half of that, and decibels are -120 to
 * 120. Answers 0, or a number below 0, and then nothing was changed.
 */
int32_t dsp_section_make(struct dsp_section *section, uint32_t rate, enum dsp_section_kind kind, double hertz, double decibels, double width);

/* Whether what a section gives fades once it gets silence: both its poles lie inside the unit circle. Rounding may have moved them out. */
bool dsp_section_fades(const struct dsp_section *section);

#ifdef __cplusplus
}
#endif

#endif
