/* Writes a setup as a configuration. */
#ifndef FUZZ_CONFIG_H
#define FUZZ_CONFIG_H

#include <stdio.h>

#include "setup.h"

/* Whether a configuration can have it: a ring of 2 to 64 blocks, and a slot that plays. */
bool has_config(const struct setup *setup);

void put_config(FILE *to, const struct setup *setup);

/* The word of a format in a script. */
const char *format_word(uint32_t format);

#endif
