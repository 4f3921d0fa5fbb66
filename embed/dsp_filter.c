/*
 * The numbers of filters, a windowed sinc by Kaiser's window, and of sections, by the formulas of the Cookbook: step by step as tools/filters.py
 * and tools/equalisers.py make them, so that rounding gives the same. tools/filter and tools/equaliser say whose formulas they are.
 */
#include "dsp_filter.h"

#include <math.h>

enum { RATE_LEAST = 4000, RATE_MOST = 192000, PHASES_MOST = 512, TAPS_MOST = 64, COEFS_MOST = 16384, SHIFT_MOST = 30, COEF_MOST = 1 << 24 };
enum { SECTION_SHIFT_MOST = 28, SECTION_NUMBER_MOST = 1 << 29, SECTION_NUMBERS = 5 };

static const double PI = 3.141592653589793;

/* pow of the C library, as the tools call it: a compiler would put a product or another function in its place. */
static double power(double base, double exponent) {
    volatile double of = base, to = exponent;
    return pow(of, to);
}

static bool is_rate(uint32_t rate) {
    return RATE_LEAST <= rate && rate <= RATE_MOST;
}

/* ---- filters ---- */

/* A windowed sinc. */
struct window {
    uint32_t phases;
    uint32_t taps;
    double cut;   /* a fraction of half the rate on the side of the input */
    double shape; /* Kaiser's b */
};

/* The modified Bessel function of order 0, by its series. */
static double bessel(double x) {
    double total = 1.0, term = 1.0;
    for (int k = 1; term > 1e-18 * total; k += 1) {
        term *= power(x / (2 * k), 2.0);
        total += term;
    }
    return total;
}

/* How far down a filter stops, by the taps that count. */
static double stopped(uint32_t taps, double ratio) {
    double decibels = 40 + 1.25 * taps * ratio;
    return decibels < 100.0 ? decibels : 100.0;
}

/* Kaiser's b, for a number of decibels. */
static double kaiser_shape(double decibels) {
    if (decibels > 50) {
        return 0.1102 * (decibels - 8.7);
    }
    return 0.5842 * power(decibels - 21, 0.4) + 0.07886 * (decibels - 21);
}

/* The middle of a slope that ends at half the lower rate, as a fraction of it. */
static double usual_cut(uint32_t taps, double ratio) {
    double width = (stopped(taps, ratio) - 7.95) / (2.285 * PI * (taps - 1)) / ratio;
    double cut = 1 - width / 2;
    return cut > 0.5 ? cut : 0.5;
}

/* The windowed sinc, t frames of the input from its middle. */
static double sinc_at(const struct window *window, double t) {
    double u = 2 * t / window->taps;
    double turn = PI * window->cut * t;
    if (!(-1 < u && u < 1)) {
        return 0.0;
    }
    return (turn != 0 ? sin(turn) / turn : 1.0) * bessel(window->shape * sqrt(1 - u * u));
}

/* A row with the sum 1. */
static void make_row(double *row, const struct window *window, uint32_t phase) {
    double total = 0.0, part = (double)phase / window->phases;
    int before = (int)(window->taps / 2) - 1;
    for (uint32_t j = 0; j < window->taps; j += 1) {
        row[j] = sinc_at(window, (int)j - before - part);
        total += row[j];
    }
    for (uint32_t j = 0; j < window->taps; j += 1) {
        row[j] /= total;
    }
}

/* The greatest coefficient of all rows, by its size. */
static double greatest(const struct window *window) {
    double row[TAPS_MOST], most = 0.0;
    for (uint32_t r = 0; r < window->phases; r += 1) {
        make_row(row, window, r);
        for (uint32_t j = 0; j < window->taps; j += 1) {
            most = fabs(row[j]) > most ? fabs(row[j]) : most;
        }
    }
    return most;
}

/* The greatest shift with which every coefficient is within its limit, or 0. */
static uint32_t greatest_shift(const struct window *window) {
    double most = greatest(window);
    uint32_t shift = SHIFT_MOST;
    while (shift > 0 && !(ldexp(most, (int)shift) <= COEF_MOST)) {
        shift -= 1;
    }
    return shift;
}

/* The first place of the least number. */
static uint32_t least_of(const double *numbers, uint32_t count) {
    uint32_t least = 0;
    for (uint32_t j = 1; j < count; j += 1) {
        least = numbers[j] < numbers[least] ? j : least;
    }
    return least;
}

/* A row as whole numbers with the sum 2 to the power of the shift: rounded down, and up where that leaves the greatest rest. */
static void round_row(int32_t *coefs, const double *row, uint32_t taps, uint32_t shift) {
    double behind[TAPS_MOST];
    int64_t missing = (int64_t)1 << shift;
    for (uint32_t j = 0; j < taps; j += 1) {
        double exact = ldexp(row[j], (int)shift), whole = floor(exact);
        coefs[j] = (int32_t)whole;
        behind[j] = whole - exact;
        missing -= coefs[j];
    }
    for (uint32_t k = 0; k < taps && missing > k; k += 1) {
        uint32_t j = least_of(behind, taps);
        coefs[j] += 1;
        behind[j] = 1.0;
    }
}

static struct window window_of(const struct dsp_filter *filter, double cut) {
    double quotient = filter->src != 0 ? (double)filter->dst / filter->src : 1.0;
    double ratio = quotient < 1.0 ? quotient : 1.0;
    struct window window = {filter->phases, filter->taps, 0.0, kaiser_shape(stopped(filter->taps, ratio))};
    window.cut = (cut != 0 ? cut : usual_cut(filter->taps, ratio)) * ratio;
    return window;
}

size_t dsp_filter_size(uint32_t phases, uint32_t taps) {
    bool is_shape = 1 <= phases && phases <= PHASES_MOST && 2 <= taps && taps <= TAPS_MOST && taps % 2 == 0;
    return is_shape && phases * taps <= COEFS_MOST ? (size_t)phases * taps : 0;
}

/* Whether a filter can be made of this, or why not. */
static int32_t judged(const struct dsp_filter *filter, double cut, size_t coef_count) {
    size_t size = dsp_filter_size(filter->phases, filter->taps);
    bool has_rates = (filter->src == 0 && filter->dst == 0) || (is_rate(filter->src) && is_rate(filter->dst));
    if (size == 0 || !has_rates || !(0 <= cut && cut <= 1)) {
        return DSP_WRONG_ARGUMENT;
    }
    return filter->first <= coef_count && size <= coef_count - filter->first ? 0 : DSP_SHORT_ROOM;
}

/* The coefficients of a filter, one row after another. */
static void make_rows(int32_t *coefs, const struct window *window, uint32_t shift) {
    double row[TAPS_MOST];
    for (uint32_t r = 0; r < window->phases; r += 1) {
        make_row(row, window, r);
        round_row(coefs + (size_t)r * window->taps, row, window->taps, shift);
    }
}

int32_t dsp_filter_make(struct dsp_filter *filter, double cut, int32_t *coefs, size_t coef_count) {
    struct window window;
    uint32_t shift;
    int32_t answer = filter == NULL || coefs == NULL ? DSP_NULL_POINTER : judged(filter, cut, coef_count);
    if (answer != 0) {
        return answer;
    }
    window = window_of(filter, cut);
    shift = greatest_shift(&window);
    if (shift == 0) {
        return DSP_WRONG_ARGUMENT;
    }
    make_rows(coefs + filter->first, &window, shift);
    filter->shift = shift;
    return 0;
}

/* ---- sections ---- */

/* What the formulas give: b0, b1, b2, a1 and a2, over a0. */
struct ideal {
    double numbers[SECTION_NUMBERS];
};

static struct ideal over_a0(double b0, double b1, double b2, double a0, double a1, double a2) {
    struct ideal ideal = {{b0 / a0, b1 / a0, b2 / a0, a1 / a0, a2 / a0}};
    return ideal;
}

/* A low shelf, and with the sign -1 a high shelf. */
static struct ideal shelf(double sign, double turn, double a, double slope) {
    double alpha = sin(turn) / 2 * sqrt((a + 1 / a) * (1 / slope - 1) + 2);
    double wide = 2 * sqrt(a) * alpha, turned = sign * cos(turn);
    double above = (a + 1) - (a - 1) * turned, below = (a + 1) + (a - 1) * turned;
    double b1 = 2 * a * ((a - 1) - (a + 1) * turned), a1 = -2 * ((a - 1) + (a + 1) * turned);
    return over_a0(a * (above + wide), sign * b1, a * (above - wide), below + wide, sign * a1, below - wide);
}

static struct ideal peak(double turn, double a, double q) {
    double alpha = sin(turn) / (2 * q), middle = -2 * cos(turn);
    return over_a0(1 + alpha * a, middle, 1 - alpha * a, 1 + alpha / a, middle, 1 - alpha / a);
}

/* A low pass, and with the sign -1 a high pass. */
static struct ideal pass(double sign, double turn, double q) {
    double alpha = sin(turn) / (2 * q), cosine = cos(turn), b0 = (1 - sign * cosine) / 2;
    return over_a0(b0, sign - cosine, b0, 1 + alpha, -2 * cosine, 1 - alpha);
}

static struct ideal ideal_of(uint32_t rate, enum dsp_section_kind kind, double hertz, double decibels, double width) {
    double turn = 2 * PI * hertz / rate, a = power(10.0, decibels / 40);
    switch (kind) {
        case DSP_LOW_SHELF:
            return shelf(1, turn, a, width);
        case DSP_HIGH_SHELF:
            return shelf(-1, turn, a, width);
        case DSP_PEAK:
            return peak(turn, a, width);
        case DSP_LOW_PASS:
            return pass(1, turn, width);
        default:
            return pass(-1, turn, width);
    }
}

/* The numbers times 2 to the power of the shift, to the nearest whole ones. Answers whether all are within their limit. */
static bool rounded(double *whole, const struct ideal *ideal, uint32_t shift) {
    bool fits = true;
    for (int k = 0; k < SECTION_NUMBERS; k += 1) {
        whole[k] = nearbyint(ldexp(ideal->numbers[k], (int)shift));
        fits = fits && fabs(whole[k]) <= SECTION_NUMBER_MOST;
    }
    return fits;
}

static struct dsp_section section_of(const double *whole, uint32_t shift) {
    struct dsp_section section = {shift, (int32_t)whole[0], (int32_t)whole[1], (int32_t)whole[2], (int32_t)whole[3], (int32_t)whole[4]};
    return section;
}

static bool is_section(uint32_t rate, enum dsp_section_kind kind, double hertz, double decibels, double width) {
    bool is_shelf = kind == DSP_LOW_SHELF || kind == DSP_HIGH_SHELF, has_gain = is_shelf || kind == DSP_PEAK;
    double width_most = is_shelf ? 1 : 1000, gain_most = has_gain ? 120 : 0;
    return (has_gain || kind == DSP_LOW_PASS || kind == DSP_HIGH_PASS) && is_rate(rate) && 0 < hertz && hertz < rate / 2.0
           && -gain_most <= decibels && decibels <= gain_most && 0.01 <= width && width <= width_most;
}

int32_t dsp_section_make(struct dsp_section *section, uint32_t rate, enum dsp_section_kind kind, double hertz, double decibels, double width) {
    double whole[SECTION_NUMBERS];
    struct ideal ideal;
    if (section == NULL) {
        return DSP_NULL_POINTER;
    }
    if (!is_section(rate, kind, hertz, decibels, width)) {
        return DSP_WRONG_ARGUMENT;
    }
    ideal = ideal_of(rate, kind, hertz, decibels, width);
    for (uint32_t shift = SECTION_SHIFT_MOST; shift > 0; shift -= 1) {
        if (rounded(whole, &ideal, shift)) {
            *section = section_of(whole, shift);
            return 0;
        }
    }
    return DSP_WRONG_ARGUMENT;
}

bool dsp_section_fades(const struct dsp_section *section) {
    int64_t one, a1, a2;
    if (section == NULL || section->shift > SECTION_SHIFT_MOST) {
        return false;
    }
    one = (int64_t)1 << section->shift;
    a1 = section->a1 < 0 ? -(int64_t)section->a1 : section->a1;
    a2 = section->a2;
    return -one < a2 && a2 < one && a1 < one + a2;
}
