/* How calls are written as lines of a script, and how the program runs it. */
#include "script.h"

#include <inttypes.h>
#include <stdlib.h>

#include "config.h"

enum { DATA_MOST = 1 << 24, PATH_MOST = 4096, LINE_MOST = 4096, OPEN_END = -1 };

/* What a request is answered beside its number. */
enum told { DONE, NUMBER, SPACE, POINTER, ERRORS };

static const struct request {
    const char *word;
    bool has_argument;
    enum told told;
} requests[] = {
    {"setfmt", true, NUMBER},     {"speed", true, NUMBER},      {"channels", true, NUMBER},   {"getfmts", false, NUMBER},
    {"getcaps", false, NUMBER},   {"getblksize", false, NUMBER}, {"setfragment", true, NUMBER}, {"getospace", false, SPACE},
    {"getispace", false, SPACE},  {"getoptr", false, POINTER},  {"getiptr", false, POINTER},  {"getodelay", false, NUMBER},
    {"geterror", false, ERRORS},  {"settrigger", true, DONE},   {"gettrigger", false, NUMBER}, {"setplayvol", true, NUMBER},
    {"getplayvol", false, NUMBER}, {"post", false, DONE},       {"sync", false, DONE},        {"halt", false, DONE},
};

static const char *const ways[] = {"play", "rec", "map"};
static const char *const refusals[] = {"again", "busy", "inval", "badf", "exist"};

/* Opens a file of the folder. */
static FILE *file_of(const char *name, const char *mode) {
    const char *folder = getenv("FUZZ_CALLS_FOLDER");
    char path[PATH_MOST];
    int length = folder == NULL ? -1 : snprintf(path, sizeof path, "%s/%s", folder, name);
    return length > 0 && (size_t)length < sizeof path ? fopen(path, mode) : NULL;
}

static void put_little(FILE *to, uint32_t number, int bytes) {
    for (int i = 0; i < bytes; i += 1) {
        putc((int)(number >> (8 * i) & 0xff), to);
    }
}

/* The head of a wave whose body goes to the end of the file. */
static void put_wave_head(FILE *to, uint32_t channels, uint32_t rate, uint32_t bits) {
    uint32_t frame = channels * bits / 8;
    fputs("RIFF", to);
    put_little(to, (uint32_t)OPEN_END, 4);
    fputs("WAVEfmt ", to);
    put_little(to, 16, 4);
    put_little(to, 1, 2);
    put_little(to, channels, 2);
    put_little(to, rate, 4);
    put_little(to, rate * frame, 4);
    put_little(to, frame, 2);
    put_little(to, bits, 2);
    fputs("data", to);
    put_little(to, (uint32_t)OPEN_END, 4);
}

static void close_files(struct script *script) {
    FILE *const files[] = {script->lines, script->capture, script->data, script->replies, script->device};
    for (size_t i = 0; i < sizeof files / sizeof files[0]; i += 1) {
        if (files[i] != NULL) {
            fclose(files[i]);
        }
    }
}

bool begin_script(struct script *script, const struct setup *setup) {
    const struct script nothing = {setup, NULL, NULL, NULL, NULL, NULL, 0, 0, 0, true};
    FILE *config = NULL;

    *script = nothing;
    if (getenv("FUZZ_CALLS_PROGRAM") == NULL || !has_config(setup)) {
        return false;
    }
    config = file_of("config.toml", "w");
    script->lines = file_of("script", "w");
    script->capture = file_of("capture.wav", "wb");
    script->data = file_of("data.wav", "wb");
    script->replies = file_of("replies", "w");
    script->device = file_of("device", "wb");
    if (config == NULL || !script->lines || !script->capture || !script->data || !script->replies || !script->device) {
        fputs("fuzz_calls: there is no room for a script\n", stderr);
        exit(2);
    }
    put_config(config, setup);
    put_wave_head(script->capture, setup->device.channels, setup->device.rate, 32);
    put_wave_head(script->data, 1, 8000, 8);
    return fclose(config) == 0;
}

static void put_hex(FILE *to, const uint8_t *bytes, size_t length) {
    if (length == 0) {
        putc('-', to);
    }
    for (size_t i = 0; i < length; i += 1) {
        fprintf(to, "%02x", bytes[i]);
    }
}

/* A write: with its bytes, or as a send where they are too many for a line. */
static void put_write(struct script *script, const struct call *call, const uint8_t *bytes) {
    if (call->length <= LINE_MOST) {
        fprintf(script->lines, "write %" PRIu32 " ", call->numbers[FD]);
        put_hex(script->lines, bytes, call->length);
        return;
    }
    fprintf(script->lines, "send %" PRIu32 " data %zu %zu", call->numbers[FD], script->data_length, call->length);
    fwrite(bytes, 1, call->length, script->data);
    script->data_length += call->length;
}

static void put_poke(struct script *script, const struct call *call, const uint8_t *bytes) {
    fprintf(script->lines, "poke %" PRIu32 " %" PRIu32 " ", call->numbers[FD], call->numbers[OFFSET]);
    put_hex(script->lines, bytes, call->length);
}

static void put_ioctl(FILE *lines, const uint32_t *numbers) {
    const struct request *request = &requests[numbers[REQUEST]];
    fprintf(lines, "ioctl %" PRIu32 " %s", numbers[FD], request->word);
    if (request->has_argument) {
        fprintf(lines, " %" PRIu32, numbers[ARGUMENT]);
    }
}

static void put_mixer(FILE *lines, const uint32_t *numbers) {
    switch (numbers[MIXER_REQUEST]) {
    case DSP_SET_MASTER:
        fprintf(lines, "mixer master %" PRIu32, numbers[MIXER_VALUE]);
        break;
    case DSP_GET_MASTER:
        fputs("mixer master", lines);
        break;
    case DSP_GET_SLOT:
        fprintf(lines, "mixer slot %" PRIu32, numbers[MIXER_SLOT]);
        break;
    default:
        fprintf(lines, "mixer %s %" PRIu32 " %" PRIu32, numbers[MIXER_REQUEST] == DSP_SET_SLOT ? "slot" : "mute", numbers[MIXER_SLOT],
                numbers[MIXER_VALUE]);
        break;
    }
}

/* An interrupt, whose samples are the next ones of what is captured. */
static void put_interrupt(struct script *script, const struct call *call, const int32_t *samples) {
    size_t count = (size_t)call->numbers[FRAMES] * script->setup->device.channels;
    fprintf(script->lines, "intr %" PRIu32, call->numbers[FRAMES]);
    for (size_t i = 0; i < count; i += 1) {
        put_little(script->capture, (uint32_t)samples[i], 4);
    }
    script->captured += 4 * count;
}

static void put_line(struct script *script, const struct call *call, const struct brought *brought) {
    const uint32_t *numbers = call->numbers;
    FILE *lines = script->lines;
    switch (call->kind) {
    case CALL_OPEN:
        fprintf(lines, "open %" PRIu32 " %s %s %" PRIu32 " %" PRIu32, numbers[FD], ways[numbers[WAY]], format_word(numbers[FORMAT]),
                numbers[CHANNELS], numbers[RATE]);
        break;
    case CALL_WRITE:
        put_write(script, call, brought->bytes);
        break;
    case CALL_POKE:
        put_poke(script, call, brought->bytes);
        break;
    case CALL_READ:
        fprintf(lines, "read %" PRIu32 " %zu", numbers[FD], call->room < READ_MOST ? call->room : READ_MOST);
        break;
    case CALL_IOCTL:
        put_ioctl(lines, numbers);
        break;
    case CALL_JOIN:
    case CALL_START:
        fprintf(lines, "ioctl %" PRIu32 " %s %" PRIu32, numbers[FD], call->kind == CALL_JOIN ? "syncgroup" : "syncstart", numbers[GROUP]);
        break;
    case CALL_CLOSE:
        fprintf(lines, "close %" PRIu32, numbers[FD]);
        break;
    case CALL_MIXER:
        put_mixer(lines, numbers);
        break;
    default:
        put_interrupt(script, call, brought->samples);
        break;
    }
    putc('\n', lines);
}

static void put_answer(FILE *to, enum told told, const struct dsp_answer *answer) {
    switch (told) {
    case NUMBER:
        fprintf(to, " %" PRIu64, answer->first);
        break;
    case SPACE:
        fprintf(to, " fragments=%" PRIu64 " fragstotal=%" PRIu64 " fragsize=%" PRIu64 " bytes=%" PRIu64, answer->first, answer->second,
                answer->third, answer->fourth);
        break;
    case POINTER:
        fprintf(to, " bytes=%" PRIu64 " blocks=%" PRIu64 " ptr=%" PRIu64, answer->first, answer->second, answer->third);
        break;
    case ERRORS:
        fprintf(to, " underruns=%" PRIu64 " overruns=%" PRIu64, answer->first, answer->second);
        break;
    default:
        break;
    }
}

/* The reply to a call that was accepted, after `ok`. */
static void put_accepted(struct script *script, const struct call *call, const struct got *got) {
    FILE *to = script->replies;
    switch (call->kind) {
    case CALL_OPEN:
    case CALL_WRITE:
        fprintf(to, " %" PRId64, got->number);
        break;
    case CALL_READ:
        fprintf(to, " %" PRId64 " ", got->number);
        put_hex(to, got->out, (size_t)got->number);
        break;
    case CALL_IOCTL:
        put_answer(to, requests[call->numbers[REQUEST]].told, &got->answer);
        break;
    case CALL_JOIN:
        put_answer(to, NUMBER, &got->answer);
        break;
    case CALL_MIXER:
        put_answer(to, call->numbers[MIXER_REQUEST] == DSP_MUTE_SLOT ? DONE : NUMBER, &got->answer);
        break;
    case CALL_INTERRUPT:
        fprintf(to, " %" PRIu32, call->numbers[FRAMES]);
        fwrite(got->out, 1, (size_t)got->number, script->device);
        break;
    default:
        break;
    }
}

void put_call(struct script *script, const struct call *call, int64_t number, const struct brought *brought, const struct got *got) {
    /* an open is answered so for its frames alone, and no line has such */
    bool is_no_step = call->kind == CALL_OPEN && number == DSP_INVALID;
    if (number < DSP_EXISTS || is_no_step) {
        return;
    }
    script->is_whole &= script->data_length + script->captured <= DATA_MOST && !(call->kind == CALL_POKE && call->length > LINE_MOST);
    if (!script->is_whole) {
        return;
    }
    put_line(script, call, brought);
    script->events += 1;
    if (number < 0) {
        fprintf(script->replies, "%" PRIu32 ": refused %s\n", script->events, refusals[-1 - number]);
        return;
    }
    fprintf(script->replies, "%" PRIu32 ": ok", script->events);
    put_accepted(script, call, got);
    putc('\n', script->replies);
}

/* Whether two files of the folder have the same bytes. Prints the first line that differs. */
static bool are_alike(const char *one, const char *other) {
    FILE *files[] = {file_of(one, "rb"), file_of(other, "rb")};
    unsigned long at = 0, line = 1;
    bool are = files[0] != NULL && files[1] != NULL;
    for (int byte = 0; are && byte != EOF; at += 1) {
        byte = getc(files[0]);
        are = byte == getc(files[1]);
        line += are && byte == '\n' ? 1 : 0;
    }
    if (!are) {
        fprintf(stderr, "fuzz_calls: %s and %s differ at byte %lu, line %lu\n", one, other, at, line);
    }
    for (int i = 0; i < 2; i += 1) {
        if (files[i] != NULL) {
            fclose(files[i]);
        }
    }
    return are;
}

bool end_script(struct script *script) {
    int status = 0;
    close_files(script);
    if (!script->is_whole) {
        return true;
    }
    status = system("cd \"$FUZZ_CALLS_FOLDER\" && \"$FUZZ_CALLS_PROGRAM\" run script out.raw config.toml >printed");
    if (status != 0) {
        fprintf(stderr, "fuzz_calls: the program ended with status %d\n", status);
        return false;
    }
    return are_alike("replies", "printed") && are_alike("device", "out.raw");
}
