/* Prints a setup and calls as a program in C. */
#ifndef FUZZ_TOLD_H
#define FUZZ_TOLD_H

#include <stdio.h>

#include "call.h"

/* The program up to its first call. */
void tell_setup(FILE *to, const struct setup *setup);

/* A call, as an expression. */
void tell_call(FILE *to, const struct call *call);

/* All calls of an input. */
void tell_input(FILE *to, struct input input);

#endif
