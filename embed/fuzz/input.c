/* How numbers are taken out of an input. */
#include "input.h"

uint32_t take_byte(struct input *input) {
    if (input->left == 0) {
        return 0;
    }
    input->left -= 1;
    input->bytes += 1;
    return input->bytes[-1];
}

uint32_t take_number(struct input *input) {
    uint32_t number = 0;
    for (int shift = 0; shift < 32; shift += 8) {
        number |= take_byte(input) << shift;
    }
    return number;
}

uint32_t take_one_of(struct input *input, const uint32_t *list, size_t count) {
    return list[take_byte(input) % count];
}

bool take_chance(struct input *input, uint32_t of_256) {
    return take_byte(input) >= 256 - of_256;
}

/* The next of a row of numbers whose high bits look drawn. */
static uint32_t after(uint32_t number) {
    return number * 1664525u + 1013904223u;
}

void fill_bytes(uint8_t *bytes, size_t length, uint32_t seed) {
    for (size_t i = 0; i < length; i += 1) {
        seed = after(seed);
        bytes[i] = (uint8_t)(seed >> 24);
    }
}

void fill_samples(int32_t *samples, size_t count, uint32_t seed) {
    for (size_t i = 0; i < count; i += 1) {
        seed = after(seed);
        samples[i] = (int32_t)(seed >> 1) - (1 << 30);
    }
}
