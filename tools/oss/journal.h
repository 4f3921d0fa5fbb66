/* The script of what was done, the replies that were given, and the sound that went with it. */
#ifndef JOURNAL_H
#define JOURNAL_H

#include <stdbool.h>
#include <stddef.h>
#include <stdint.h>
#include <stdio.h>

struct journal {
    FILE *script, *replies, *data;
    const char *script_path, *replies_path, *data_path;
    uint64_t events, script_bytes, data_bytes, device_bytes;
    uint64_t line_bytes; /* how many bytes of sound go into lines; what comes after them goes into the data file */
    uint64_t lined;      /* how many did */
    bool cut;            /* the next event is more than a run takes: nothing is written any more */
    bool lost;           /* a file has no room */
};

/* Begins the files. Answers whether they could be made; without a path nothing is written, and that is right. */
bool journal_begin(struct journal *journal);

/* Whether events are still written. */
bool journal_goes_on(const struct journal *journal);

/* Takes in an event: its line, and what it was answered. */
void journal_event(struct journal *journal, const char *reply, const char *form, ...) __attribute__((format(printf, 3, 4)));

/* Takes in a line of a few words with bytes after it, and its answer. */
void journal_bytes(struct journal *journal, const char *reply, const char *words, const uint8_t *bytes, size_t length);

/* Takes in bytes that descriptor d was written. */
void journal_sound(struct journal *journal, uint32_t d, const uint8_t *bytes, size_t length);

/* Takes in a read, and the bytes that it got. */
void journal_read(struct journal *journal, uint32_t d, size_t wanted, const uint8_t *bytes, size_t length);

/* Looks whether an interrupt of this many bytes of the device has room in a run, and counts it. */
bool journal_has_room(struct journal *journal, uint64_t bytes);

/* Ends the files, with the header of the data file. */
void journal_end(struct journal *journal);

#endif
