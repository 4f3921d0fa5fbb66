/* Prints the calls of an input as a program in C: tell INPUT */
#include <stdio.h>

#include "told.h"

enum { INPUT_MOST = 1 << 16 };

int main(int count, char **words) {
    static uint8_t bytes[INPUT_MOST];
    FILE *file = count == 2 ? fopen(words[1], "rb") : NULL;
    struct input input = {bytes, 0};

    if (file == NULL) {
        fputs("usage: tell INPUT\n", stderr);
        return 2;
    }
    input.left = fread(bytes, 1, sizeof bytes, file);
    fclose(file);
    tell_input(stdout, input);
    return 0;
}
