/* The bytes of an input of the fuzzer, taken one after another. After the last one all are 0. */
#ifndef FUZZ_INPUT_H
#define FUZZ_INPUT_H

#include <stdbool.h>
#include <stddef.h>
#include <stdint.h>

struct input {
    const uint8_t *bytes;
    size_t left;
};

/* The next byte. */
uint32_t take_byte(struct input *input);

/* The next four bytes as one number, the lowest first. */
uint32_t take_number(struct input *input);

/* One of a list, by the next byte. */
uint32_t take_one_of(struct input *input, const uint32_t *list, size_t count);

/* True with a chance of of_256 in 256, by the next byte: it is one of the greatest. */
bool take_chance(struct input *input, uint32_t of_256);

/* Bytes without a pattern, the same ones for the same seed. */
void fill_bytes(uint8_t *bytes, size_t length, uint32_t seed);

/* Samples of 32 bits without a pattern, the same ones for the same seed. */
void fill_samples(int32_t *samples, size_t count, uint32_t seed);

#endif
