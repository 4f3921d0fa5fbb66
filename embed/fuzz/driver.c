/*
 * Stands in for libFuzzer where clang isn't there: fuzz_calls [-seed=N] [-runs=N] [-max_total_time=N] [-artifact_prefix=PATH] [INPUT ..]
 *
 * It makes inputs without a pattern, the same ones for the same seed and without an end where no flag sets one, or takes those of files. The input
 * that is being tried stands in a file, PATH and after it `input`, and is left there where the process ends in the middle of it.
 */
#include <stdio.h>
#include <stdlib.h>
#include <string.h>
#include <time.h>

#include "input.h"

int LLVMFuzzerInitialize(int *count, char ***words);
int LLVMFuzzerTestOneInput(const uint8_t *bytes, size_t length);

enum { INPUT_MOST = 1 << 16, MADE_MOST = 1400, MADE_LEAST = 40, PATH_MOST = 4096 };

struct options {
    unsigned long seed;
    unsigned long runs;
    unsigned long seconds;
    const char *prefix;
};

/* The text after a flag, or none if the word is another one. */
static const char *behind(const char *word, const char *flag) {
    return strncmp(word, flag, strlen(flag)) == 0 ? word + strlen(flag) : NULL;
}

static void read_option(struct options *options, const char *word) {
    const char *found = NULL;
    if ((found = behind(word, "-seed=")) != NULL) {
        options->seed = strtoul(found, NULL, 10);
    } else if ((found = behind(word, "-runs=")) != NULL) {
        options->runs = strtoul(found, NULL, 10);
    } else if ((found = behind(word, "-max_total_time=")) != NULL) {
        options->seconds = strtoul(found, NULL, 10);
    } else if ((found = behind(word, "-artifact_prefix=")) != NULL) {
        options->prefix = found;
    }
}

/* Writes an input to a file. */
static void keep(const char *path, const uint8_t *bytes, size_t length) {
    FILE *file = fopen(path, "wb");
    if (file == NULL || fwrite(bytes, 1, length, file) != length || fclose(file) != 0) {
        fprintf(stderr, "fuzz_calls: cannot write %s\n", path);
        exit(2);
    }
}

/* Tries the input of a file. */
static void try_file(const char *path) {
    static uint8_t bytes[INPUT_MOST];
    FILE *file = fopen(path, "rb");
    size_t length = file == NULL ? 0 : fread(bytes, 1, sizeof bytes, file);
    if (file == NULL) {
        fprintf(stderr, "fuzz_calls: cannot read %s\n", path);
        exit(2);
    }
    fclose(file);
    LLVMFuzzerTestOneInput(bytes, length);
}

/* Tries inputs that are made of a seed, until as many were made, or as many seconds passed, as the flags say. */
static void try_made(const struct options *options) {
    uint8_t bytes[MADE_MOST];
    char path[PATH_MOST];
    time_t begin = time(NULL);
    uint32_t seed = (uint32_t)options->seed * 2654435761u;

    snprintf(path, sizeof path, "%sinput", options->prefix);
    for (unsigned long run = 0; options->runs == 0 || run < options->runs; run += 1) {
        size_t length = MADE_LEAST + (seed >> 8) % (MADE_MOST - MADE_LEAST);
        if (options->seconds != 0 && (unsigned long)(time(NULL) - begin) >= options->seconds) {
            break;
        }
        fill_bytes(bytes, length, seed);
        keep(path, bytes, length);
        LLVMFuzzerTestOneInput(bytes, length);
        seed = (seed ^ (uint32_t)run) * 747796405u + 2891336453u;
    }
    remove(path);
}

int main(int count, char **words) {
    struct options options = {1, 0, 0, "./"};
    bool has_files = false;

    LLVMFuzzerInitialize(&count, &words);
    for (int i = 1; i < count; i += 1) {
        if (words[i][0] == '-') {
            read_option(&options, words[i]);
        } else {
            has_files = true;
            try_file(words[i]);
        }
    }
    if (!has_files) {
        try_made(&options);
    }
    return 0;
}
