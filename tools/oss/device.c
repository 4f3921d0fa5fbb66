/* Calls of the engine, taken in as lines of a script and the replies of a run. */
#include "device.h"

#include "wave.h"

#include <inttypes.h>
#include <stdlib.h>
#include <string.h>

enum { REPLY = 160, LINE_MOST = 4096 };

/* The form of a request's answer. */
enum form { NOTHING, NUMBER, SPACE, PLACE, ERRORS };

static const struct {
    const char *name;
    bool takes;
    enum form form;
} requests[] = {
    [DSP_SETFMT] = {"setfmt", true, NUMBER},
    [DSP_SPEED] = {"speed", true, NUMBER},
    [DSP_CHANNELS] = {"channels", true, NUMBER},
    [DSP_GETFMTS] = {"getfmts", false, NUMBER},
    [DSP_GETCAPS] = {"getcaps", false, NUMBER},
    [DSP_GETBLKSIZE] = {"getblksize", false, NUMBER},
    [DSP_SETFRAGMENT] = {"setfragment", true, NUMBER},
    [DSP_GETOSPACE] = {"getospace", false, SPACE},
    [DSP_GETISPACE] = {"getispace", false, SPACE},
    [DSP_GETOPTR] = {"getoptr", false, PLACE},
    [DSP_GETIPTR] = {"getiptr", false, PLACE},
    [DSP_GETODELAY] = {"getodelay", false, NUMBER},
    [DSP_GETERROR] = {"geterror", false, ERRORS},
    [DSP_SETTRIGGER] = {"settrigger", true, NOTHING},
    [DSP_GETTRIGGER] = {"gettrigger", false, NUMBER},
    [DSP_SETPLAYVOL] = {"setplayvol", true, NUMBER},
    [DSP_GETPLAYVOL] = {"getplayvol", false, NUMBER},
    [DSP_POST] = {"post", false, NOTHING},
    [DSP_SYNC] = {"sync", false, NOTHING},
    [DSP_HALT] = {"halt", false, NOTHING},
};

uint32_t width_of(uint32_t format) {
    if (format & (DSP_U8 | DSP_S8)) {
        return 1;
    }
    if (format & (DSP_S24_LE | DSP_S24_BE | DSP_U24_LE | DSP_U24_BE)) {
        return 3;
    }
    return format & (DSP_S32_LE | DSP_S32_BE | DSP_U32_LE | DSP_U32_BE) ? 4 : 2;
}

int32_t device_begin(struct device *device) {
    const struct dsp_device *is = &device->settings;
    device->frame = is->channels * width_of(is->format);
    device->room = malloc((size_t)is->ring_frames * device->frame);
    return device->room ? dsp_engine_new(&device->engine, is, NULL, 0, NULL, 0, NULL, 0) : DSP_NO_MEMORY;
}

/* ---- the wave ---- */

static struct wave wave_of(const struct device *device) {
    uint32_t width = width_of(device->settings.format);
    return (struct wave){8 * width, width, device->settings.channels, device->settings.rate};
}

/* Bytes that nobody takes any more are dropped, and that is reported at the end. */
static void hear(struct device *device, const uint8_t *bytes, size_t length) {
    if (device->wave && !device->is_unheard) {
        if (!device->has_head) {
            wave_head(device->wave, wave_of(device), UINT32_MAX);
            device->has_head = true;
        }
        fwrite(bytes, 1, length, device->wave);
        device->is_unheard = fflush(device->wave) != 0;
        device->wave_bytes += length;
    }
}

/* The header is written again where that can be. */
static void end_wave(struct device *device) {
    if (!device->wave) {
        return;
    }
    if (!device->is_unheard && fseek(device->wave, 0, SEEK_SET) == 0) {
        wave_head(device->wave, wave_of(device), device->wave_bytes);
    }
    device->is_unheard |= ferror(device->wave) != 0;
    device->is_unheard |= fclose(device->wave) != 0;
    device->wave = NULL;
}

void device_end(struct device *device) {
    end_wave(device);
    if (device->kept && fclose(device->kept) != 0) {
        device->journal.lost = true;
    }
    device->kept = NULL;
    journal_end(&device->journal);
    dsp_engine_free(&device->engine);
    free(device->room);
}

/* ---- replies ---- */

static const char *refusal(int32_t answer) {
    switch (answer) {
    case DSP_AGAIN:
        return "refused again";
    case DSP_BUSY:
        return "refused busy";
    case DSP_BAD_DESCRIPTOR:
        return "refused badf";
    case DSP_EXISTS:
        return "refused exist";
    default:
        return "refused inval";
    }
}

/* Whether an answer is that of a step: other ones are no events. */
static bool is_step(int32_t answer) {
    return answer >= DSP_EXISTS;
}

/* What a request is answered, as a run prints it. */
static const char *told(char *text, int32_t answer, enum form form, const struct dsp_answer *is) {
    if (answer < 0) {
        return refusal(answer);
    }
    switch (form) {
    case NUMBER:
        snprintf(text, REPLY, "ok %" PRIu64, is->first);
        return text;
    case SPACE:
        snprintf(text, REPLY, "ok fragments=%" PRIu64 " fragstotal=%" PRIu64 " fragsize=%" PRIu64 " bytes=%" PRIu64, is->first, is->second, is->third,
                 is->fourth);
        return text;
    case PLACE:
        snprintf(text, REPLY, "ok bytes=%" PRIu64 " blocks=%" PRIu64 " ptr=%" PRIu64, is->first, is->second, is->third);
        return text;
    case ERRORS:
        snprintf(text, REPLY, "ok underruns=%" PRIu64 " overruns=%" PRIu64, is->first, is->second);
        return text;
    default:
        return "ok";
    }
}

static const char *numbered(char *text, int32_t answer) {
    const struct dsp_answer number = {(uint64_t)answer, 0, 0, 0};
    return told(text, answer, NUMBER, &number);
}

/* ---- calls ---- */

/* The name of a format as scripts have it. */
static const char *format_name(uint32_t format) {
    static const struct {
        uint32_t format;
        const char *name;
    } names[] = {
        {DSP_U8, "u8"},        {DSP_S8, "s8"},        {DSP_S16_LE, "s16le"}, {DSP_S16_BE, "s16be"}, {DSP_U16_LE, "u16le"},
        {DSP_U16_BE, "u16be"}, {DSP_S24_LE, "s24le"}, {DSP_S24_BE, "s24be"}, {DSP_U24_LE, "u24le"}, {DSP_U24_BE, "u24be"},
        {DSP_S32_LE, "s32le"}, {DSP_S32_BE, "s32be"}, {DSP_U32_LE, "u32le"}, {DSP_U32_BE, "u32be"},
    };
    for (size_t k = 0; k < sizeof names / sizeof names[0]; k += 1) {
        if (names[k].format == format) {
            return names[k].name;
        }
    }
    return "u8";
}

int32_t device_open(struct device *device, uint32_t d, enum dsp_way way, uint32_t format, uint32_t channels, uint32_t rate) {
    static const char *const ways[] = {[DSP_PLAY] = "play", [DSP_RECORD] = "rec", [DSP_MAP] = "map"};
    char reply[REPLY];
    int32_t answer = dsp_engine_open(&device->engine, d, way, format, channels, rate);
    device->changes += 1;
    if (is_step(answer) && format == DSP_U8 && channels == 1 && rate == 8000) {
        journal_event(&device->journal, numbered(reply, answer), "open %u %s", d, ways[way]);
    } else if (is_step(answer)) {
        journal_event(&device->journal, numbered(reply, answer), "open %u %s %s %u %u", d, ways[way], format_name(format), channels, rate);
    }
    return answer;
}

int32_t device_write(struct device *device, uint32_t d, const uint8_t *bytes, size_t length) {
    const size_t most = device->journal.lined < device->journal.line_bytes && length > LINE_MOST ? LINE_MOST : length;
    int32_t answer = dsp_engine_write(&device->engine, d, bytes, most);
    if (answer >= 0) {
        device->changes += 1;
        journal_sound(&device->journal, d, bytes, (size_t)answer);
    } else if (is_step(answer)) {
        /* what is refused is refused of one byte as well, and none is kept of it */
        journal_event(&device->journal, refusal(answer), "write %u 00", d);
    }
    return answer;
}

int32_t device_read(struct device *device, uint32_t d, uint8_t *bytes, size_t length) {
    int32_t answer = dsp_engine_read(&device->engine, d, bytes, length);
    size_t wanted = length < LINE_MOST ? length : LINE_MOST;
    if (answer >= 0) {
        device->changes += 1;
        journal_read(&device->journal, d, wanted, bytes, (size_t)answer);
    } else if (is_step(answer)) {
        journal_event(&device->journal, refusal(answer), "read %u %zu", d, wanted);
    }
    return answer;
}

int32_t device_poke(struct device *device, uint32_t d, uint32_t offset, const uint8_t *bytes, size_t length) {
    char words[REPLY];
    int32_t answer = dsp_engine_poke(&device->engine, d, offset, bytes, length);
    if (is_step(answer)) {
        snprintf(words, sizeof words, "poke %u %u", d, offset);
        journal_bytes(&device->journal, answer < 0 ? refusal(answer) : "ok", words, bytes, length);
    }
    return answer;
}

int32_t device_close(struct device *device, uint32_t d) {
    int32_t answer = dsp_engine_close(&device->engine, d);
    device->changes += 1;
    if (is_step(answer)) {
        journal_event(&device->journal, answer < 0 ? refusal(answer) : "ok", "close %u", d);
    }
    return answer;
}

int32_t device_mixer(struct device *device, enum dsp_mixer_request request, uint32_t slot, uint32_t value, uint32_t *told_volume) {
    struct dsp_answer is = {0, 0, 0, 0};
    char reply[REPLY], words[REPLY] = "";
    int32_t answer = dsp_engine_mixer(&device->engine, request, slot, value, &is);
    switch (request) {
    case DSP_SET_MASTER:
        snprintf(words, sizeof words, "mixer master %u", value);
        break;
    case DSP_GET_MASTER:
        snprintf(words, sizeof words, "mixer master");
        break;
    case DSP_GET_SLOT:
        snprintf(words, sizeof words, "mixer slot %u", slot);
        break;
    default:
        snprintf(words, sizeof words, "mixer %s %u %u", request == DSP_SET_SLOT ? "slot" : "mute", slot, value);
    }
    if (is_step(answer)) {
        journal_event(&device->journal, told(reply, answer, request == DSP_MUTE_SLOT ? NOTHING : NUMBER, &is), "%s", words);
    }
    *told_volume = (uint32_t)is.first;
    return answer;
}

void device_interrupt(struct device *device, uint32_t frames) {
    const size_t channels = device->settings.channels;
    uint64_t left = device->frames < device->captured_frames ? device->captured_frames - device->frames : 0;
    size_t brought = left < frames ? (size_t)left : frames;
    const int32_t *samples = brought ? device->captured + device->frames * channels : NULL;
    bool is_told = journal_has_room(&device->journal, (uint64_t)frames * device->frame);
    char reply[REPLY];
    int32_t count = dsp_engine_interrupt(&device->engine, frames, samples, brought * channels, device->room,
                                         (size_t)device->settings.ring_frames * device->frame);
    device->frames += frames;
    device->changes += 1;
    if (count < 0) {
        return;
    }
    snprintf(reply, sizeof reply, "ok %u", frames);
    journal_event(&device->journal, reply, "intr %u", frames);
    if (is_told && journal_goes_on(&device->journal)) {
        device->journal.device_bytes += (uint64_t)count;
        if (device->kept && fwrite(device->room, 1, (size_t)count, device->kept) != (size_t)count) {
            device->journal.lost = true;
        }
    }
    hear(device, device->room, (size_t)count);
}

/* ---- requests of OSS ---- */

static struct device *device_of(struct dsp_engine *engine) {
    return (struct device *)engine;
}

int32_t device_ioctl(struct dsp_engine *engine, uint32_t d, enum dsp_request request, uint32_t argument, struct dsp_answer *answer) {
    struct device *device = device_of(engine);
    struct dsp_answer is = {0, 0, 0, 0};
    char reply[REPLY];
    int32_t number = dsp_engine_ioctl(engine, d, request, argument, &is);
    device->changes += requests[request].takes || requests[request].form == NOTHING;
    if (is_step(number) && requests[request].takes) {
        journal_event(&device->journal, told(reply, number, requests[request].form, &is), "ioctl %u %s %u", d, requests[request].name, argument);
    } else if (is_step(number)) {
        journal_event(&device->journal, told(reply, number, requests[request].form, &is), "ioctl %u %s", d, requests[request].name);
    }
    if (answer) {
        *answer = is;
    }
    return number;
}

int32_t device_join(struct dsp_engine *engine, uint32_t d, uint32_t group, struct dsp_answer *answer) {
    struct dsp_answer is = {0, 0, 0, 0};
    char reply[REPLY];
    int32_t number = dsp_engine_join(engine, d, group, &is);
    if (is_step(number)) {
        journal_event(&device_of(engine)->journal, told(reply, number, NUMBER, &is), "ioctl %u syncgroup %u", d, group);
    }
    if (answer) {
        *answer = is;
    }
    return number;
}

int32_t device_start(struct dsp_engine *engine, uint32_t d, uint32_t group) {
    int32_t number = dsp_engine_start(engine, d, group);
    if (is_step(number)) {
        journal_event(&device_of(engine)->journal, number < 0 ? refusal(number) : "ok", "ioctl %u syncstart %u", d, group);
    }
    return number;
}

struct dsp_answer device_ask(struct device *device, uint32_t d, enum dsp_request request) {
    struct dsp_answer is = {0, 0, 0, 0};
    dsp_engine_ioctl(&device->engine, d, request, 0, &is);
    return is;
}
