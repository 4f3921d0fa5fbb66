/* The script, its replies and its data file. The limits are those of a run. */
#include "journal.h"

#include "wave.h"

#include <inttypes.h>
#include <stdarg.h>
#include <string.h>

enum { MOST_EVENTS = 1048576, MOST_BYTES = 268435456, MOST_SCRIPT = 67108864, LINE_MOST = 4096, WORDS = 160 };

static FILE *made(const char *path) {
    return path ? fopen(path, "we") : NULL;
}

bool journal_begin(struct journal *journal) {
    journal->script = made(journal->script_path);
    journal->replies = made(journal->replies_path);
    return (journal->script && journal->replies) || !journal->script_path;
}

bool journal_goes_on(const struct journal *journal) {
    return journal->script && !journal->cut && !journal->lost;
}

/* Whether an event with a line of this many bytes has room. Where it hasn't, the script ends before it. */
static bool fits(struct journal *journal, uint64_t line) {
    if (journal->events >= MOST_EVENTS || journal->script_bytes + line > MOST_SCRIPT) {
        journal->cut = true;
    }
    return journal_goes_on(journal);
}

bool journal_has_room(struct journal *journal, uint64_t bytes) {
    if (journal->device_bytes + bytes > MOST_BYTES) {
        journal->cut = true;
    }
    if (!journal_goes_on(journal)) {
        return false;
    }
    return true;
}

static void look(struct journal *journal) {
    if (ferror(journal->script) || ferror(journal->replies) || (journal->data && ferror(journal->data))) {
        journal->lost = true;
    }
}

static void digits(FILE *file, const uint8_t *bytes, size_t length) {
    static const char signs[] = "0123456789abcdef";
    char text[2 * LINE_MOST];
    for (size_t k = 0; k < length; k += 1) {
        text[2 * k] = signs[bytes[k] >> 4];
        text[2 * k + 1] = signs[bytes[k] & 15];
    }
    fwrite(text, 1, 2 * length, file);
}

/* Writes a line of words and perhaps bytes, and its reply in the form of a run. */
static void put(struct journal *journal, const char *reply, const char *words, const uint8_t *bytes, size_t length) {
    journal->events += 1;
    journal->script_bytes += strlen(words) + 1 + (bytes ? 1 + 2 * length : 0);
    fputs(words, journal->script);
    if (bytes) {
        fputc(' ', journal->script);
        digits(journal->script, bytes, length);
    }
    fputc('\n', journal->script);
    fprintf(journal->replies, "%" PRIu64 ": %s\n", journal->events, reply);
    look(journal);
}

void journal_event(struct journal *journal, const char *reply, const char *form, ...) {
    char words[WORDS];
    va_list rest;
    va_start(rest, form);
    vsnprintf(words, sizeof words, form, rest);
    va_end(rest);
    if (fits(journal, strlen(words) + 1)) {
        put(journal, reply, words, NULL, 0);
    }
}

void journal_bytes(struct journal *journal, const char *reply, const char *words, const uint8_t *bytes, size_t length) {
    if (fits(journal, strlen(words) + 2 * length + 2)) {
        put(journal, reply, words, bytes, length);
    }
}

/* Appends to the data file, which is made with room for its header. */
static bool kept(struct journal *journal, const uint8_t *bytes, size_t length) {
    if (WAVE_HEAD + journal->data_bytes + length > MOST_BYTES) {
        journal->cut = true;
        return false;
    }
    if (!journal->data && (journal->data = made(journal->data_path)) != NULL) {
        wave_head(journal->data, (struct wave){8, 1, 1, 8000}, 0);
    }
    if (!journal->data || fwrite(bytes, 1, length, journal->data) != length) {
        journal->lost = true;
        return false;
    }
    journal->data_bytes += length;
    return true;
}

void journal_sound(struct journal *journal, uint32_t d, const uint8_t *bytes, size_t length) {
    char words[WORDS], reply[WORDS];
    snprintf(reply, sizeof reply, "ok %zu", length);
    if (length == 0) {
        journal_event(journal, reply, "write %u -", d);
        return;
    }
    if (journal->lined + length <= journal->line_bytes && length <= LINE_MOST) {
        snprintf(words, sizeof words, "write %u", d);
        journal->lined += length;
        journal_bytes(journal, reply, words, bytes, length);
        return;
    }
    uint64_t from = journal->data_bytes;
    if (fits(journal, WORDS) && kept(journal, bytes, length)) {
        journal_event(journal, reply, "send %u data %" PRIu64 " %zu", d, from, length);
    }
}

void journal_read(struct journal *journal, uint32_t d, size_t wanted, const uint8_t *bytes, size_t length) {
    char line[WORDS];
    snprintf(line, sizeof line, "read %u %zu", d, wanted);
    if (!fits(journal, strlen(line) + 1)) {
        return;
    }
    journal->events += 1;
    journal->script_bytes += strlen(line) + 1;
    fprintf(journal->script, "%s\n", line);
    fprintf(journal->replies, "%" PRIu64 ": ok %zu ", journal->events, length);
    digits(journal->replies, bytes, length);
    fputs(length ? "\n" : "-\n", journal->replies);
    look(journal);
}

static void close_file(struct journal *journal, FILE *file) {
    if (file && fclose(file) != 0) {
        journal->lost = true;
    }
}

void journal_end(struct journal *journal) {
    if (journal->data && !journal->lost) {
        rewind(journal->data);
        wave_head(journal->data, (struct wave){8, 1, 1, 8000}, journal->data_bytes);
    }
    close_file(journal, journal->data);
    close_file(journal, journal->script);
    close_file(journal, journal->replies);
    journal->data = journal->script = journal->replies = NULL;
}
