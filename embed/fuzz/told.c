/* How calls are printed as a program in C. */
#include "told.h"

#include <inttypes.h>

#include "limits.h"

static const char *const ways[] = {"DSP_PLAY", "DSP_RECORD", "DSP_MAP"};
static const char *const requests[] = {
    "DSP_SETFMT",    "DSP_SPEED",     "DSP_CHANNELS",   "DSP_GETFMTS",   "DSP_GETCAPS",    "DSP_GETBLKSIZE", "DSP_SETFRAGMENT",
    "DSP_GETOSPACE", "DSP_GETISPACE", "DSP_GETOPTR",    "DSP_GETIPTR",   "DSP_GETODELAY",  "DSP_GETERROR",   "DSP_SETTRIGGER",
    "DSP_GETTRIGGER", "DSP_SETPLAYVOL", "DSP_GETPLAYVOL", "DSP_POST",    "DSP_SYNC",       "DSP_HALT",
};
static const char *const mixer_requests[] = {"DSP_SET_MASTER", "DSP_GET_MASTER", "DSP_SET_SLOT", "DSP_GET_SLOT", "DSP_MUTE_SLOT"};

/* What stands in front of the calls: buffers, what calls bring, and what is printed of each. */
static const char head[] =
    "/* The calls of an input of scripts/fuzz-calls: cc -Iembed calls.c bin/libdsp_engine.a */\n"
    "#include <stdio.h>\n"
    "#include <stdlib.h>\n\n"
    "#include \"dsp_engine.h\"\n\n"
    "enum { MOST = 1 << 24 };\n\n"
    "static uint8_t *bytes, *out;\n"
    "static int32_t *samples;\n"
    "static struct dsp_answer answer;\n"
    "static struct {\n"
    "    struct dsp_settings settings;\n"
    "    struct dsp_slot slot;\n"
    "    struct dsp_space space;\n"
    "    struct dsp_position position;\n"
    "    struct dsp_errors errors;\n"
    "    uint64_t writable, readable;\n"
    "    uint32_t delay;\n"
    "} asked;\n\n"
    "static const uint8_t *some_bytes(size_t length, uint32_t seed) {\n"
    "    for (size_t i = 0; i < length; i += 1) {\n"
    "        seed = seed * 1664525u + 1013904223u;\n"
    "        bytes[i] = (uint8_t)(seed >> 24);\n"
    "    }\n"
    "    return bytes;\n"
    "}\n\n"
    "static const int32_t *some_samples(size_t count, uint32_t seed) {\n"
    "    for (size_t i = 0; i < count; i += 1) {\n"
    "        seed = seed * 1664525u + 1013904223u;\n"
    "        samples[i] = (int32_t)(seed >> 1) - (1 << 30);\n"
    "    }\n"
    "    return samples;\n"
    "}\n\n"
    "static int32_t make_way(struct dsp_engine *engine, struct dsp_engine *other, int32_t number) {\n"
    "    dsp_engine_free(number == 0 ? engine : other);\n"
    "    *engine = number == 0 ? *other : *engine;\n"
    "    return number;\n"
    "}\n\n"
    "static int32_t clone_engine(struct dsp_engine *engine) {\n"
    "    struct dsp_engine clone = DSP_NO_ENGINE;\n"
    "    int32_t number = dsp_engine_clone(engine, &clone);\n"
    "    return make_way(engine, &clone, number);\n"
    "}\n\n"
    "static int32_t load_engine(struct dsp_engine *engine, uint32_t seed) {\n"
    "    struct dsp_engine other = DSP_NO_ENGINE;\n"
    "    int64_t size = dsp_engine_save(engine, bytes, MOST);\n"
    "    int32_t number = dsp_engine_clone(engine, &other);\n"
    "    bytes[seed / 8 % size] ^= (uint8_t)(1 << seed % 8);\n"
    "    printf(\"turned: %ld\\n\", (long)dsp_engine_load(&other, bytes, (size_t)size));\n"
    "    bytes[seed / 8 % size] ^= (uint8_t)(1 << seed % 8);\n"
    "    for (uint32_t fd = 0; fd < DSP_DESCRIPTORS; fd += 1) {\n"
    "        dsp_engine_close(&other, fd);\n"
    "    }\n"
    "    number = number == 0 ? dsp_engine_load(&other, bytes, (size_t)size) : number;\n"
    "    return make_way(engine, &other, number);\n"
    "}\n\n"
    "static void told(int64_t number) {\n"
    "    printf(\"%lld: %llu %llu %llu %llu\\n\", (long long)number, (unsigned long long)answer.first, (unsigned long long)answer.second,\n"
    "           (unsigned long long)answer.third, (unsigned long long)answer.fourth);\n"
    "    answer = (struct dsp_answer){0, 0, 0, 0};\n"
    "}\n\n";

static void tell_filters(FILE *to, const struct setup *setup) {
    fputs("    static const struct dsp_filter filters[] = {\n", to);
    for (size_t i = 0; i < setup->filter_count; i += 1) {
        const struct dsp_filter *filter = &setup->filters[i];
        fprintf(to, "        {%" PRIu32 ", %" PRIu32 ", %" PRIu32 ", %" PRIu32 ", %" PRIu32 ", %" PRIu32 "},\n", filter->src, filter->dst,
                filter->phases, filter->taps, filter->shift, filter->first);
    }
    fputs("    };\n    static const int32_t coefs[] = {", to);
    for (size_t i = 0; i < setup->coef_count; i += 1) {
        fprintf(to, "%s%" PRId32 ",", i % 16 == 0 ? "\n        " : " ", setup->coefs[i]);
    }
    fputs("\n    };\n", to);
}

static void tell_sections(FILE *to, const struct setup *setup) {
    fputs("    static const struct dsp_section sections[] = {\n", to);
    for (size_t i = 0; i < setup->section_count; i += 1) {
        const struct dsp_section *section = &setup->sections[i];
        fprintf(to, "        {%" PRIu32 ", %" PRId32 ", %" PRId32 ", %" PRId32 ", %" PRId32 ", %" PRId32 "},\n", section->shift, section->b0,
                section->b1, section->b2, section->a1, section->a2);
    }
    fputs("    };\n", to);
}

static void tell_device(FILE *to, const struct dsp_device *device) {
    const uint32_t numbers[] = {device->channels,   device->rate,         device->mix_channels, device->mix_rate, device->ring_frames,
                                device->play_slots, device->record_slots, device->map_slots,    device->quality};
    fprintf(to, "    static const struct dsp_device device = {0x%" PRIx32, device->format);
    for (size_t i = 0; i < sizeof numbers / sizeof numbers[0]; i += 1) {
        fprintf(to, ", %" PRIu32, numbers[i]);
    }
    fputs("};\n", to);
}

void tell_setup(FILE *to, const struct setup *setup) {
    bool has_filters = setup->filter_count != 0, has_sections = setup->section_count != 0;

    fprintf(to, "%sint main(void) {\n    struct dsp_engine engine = DSP_NO_ENGINE;\n", head);
    tell_device(to, &setup->device);
    if (has_filters) {
        tell_filters(to, setup);
    }
    if (has_sections) {
        tell_sections(to, setup);
    }
    fputs("\n    bytes = calloc(MOST, 1);\n    out = calloc(MOST, 1);\n    samples = calloc(MOST, sizeof *samples);\n", to);
    fputs("    if (bytes == NULL || out == NULL || samples == NULL) {\n        return 1;\n    }\n", to);
    fprintf(to, "    told(dsp_engine_new(&engine, &device, %s, %zu, %s, %zu, %s, %zu));\n", has_filters ? "filters" : "NULL",
            setup->filter_count, has_filters ? "coefs" : "NULL", has_filters ? setup->coef_count : 0, has_sections ? "sections" : "NULL",
            setup->section_count);
}

/* A number by its name, where it has one. */
static void tell_named(FILE *to, const char *kind, const char *const *names, uint32_t count, uint32_t number) {
    if (number < count) {
        fputs(names[number], to);
    } else {
        fprintf(to, "(enum %s)%" PRIu32, kind, number);
    }
}

static void tell_bytes(FILE *to, const struct call *call) {
    if (call->is_null || call->length == 0) {
        fprintf(to, "%s, %zu", call->is_null ? "NULL" : "bytes", call->length);
    } else {
        fprintf(to, "some_bytes(%zu, %" PRIu32 "u), %zu", call->length, call->seed, call->length);
    }
}

static void tell_asked(FILE *to, const struct call *call) {
    const uint32_t *numbers = call->numbers;
    const char *answer = call->is_null ? "NULL" : "&answer";
    if (call->kind == CALL_IOCTL) {
        fprintf(to, "dsp_engine_ioctl(&engine, %" PRIu32 ", ", numbers[FD]);
        tell_named(to, "dsp_request", requests, sizeof requests / sizeof requests[0], numbers[REQUEST]);
        fprintf(to, ", %" PRIu32 "u, %s)", numbers[ARGUMENT], answer);
    } else if (call->kind == CALL_MIXER) {
        fputs("dsp_engine_mixer(&engine, ", to);
        tell_named(to, "dsp_mixer_request", mixer_requests, sizeof mixer_requests / sizeof mixer_requests[0], numbers[MIXER_REQUEST]);
        fprintf(to, ", %" PRIu32 "u, %" PRIu32 "u, %s)", numbers[MIXER_SLOT], numbers[MIXER_VALUE], answer);
    } else {
        fprintf(to, "dsp_engine_join(&engine, %" PRIu32 ", %" PRIu32 ", %s)", numbers[FD], numbers[GROUP], answer);
    }
}

/* A question that has a number or none beside its descriptor. */
static void tell_question(FILE *to, const struct call *call) {
    static const char *const names[QUESTIONS] = {"settings", "peek", "slot", "is_idle", "is_ready", "ready", "frames_until", "space", "position", "delay", "errors"};
    static const char *const told[QUESTIONS] = {"&asked.settings", "&answer", "&asked.slot", NULL, NULL, "&asked.writable, &asked.readable", NULL,
                                                "&asked.space", "&asked.position", "&asked.delay", "&asked.errors"};
    const uint32_t *numbers = call->numbers, question = numbers[QUESTION];
    fprintf(to, "dsp_engine_%s(&engine", names[question]);
    if (question == ASK_SLOT) {
        fputs(", ", to);
        tell_named(to, "dsp_way", ways, sizeof ways / sizeof ways[0], numbers[WAY]);
        fprintf(to, ", %" PRIu32 "u", numbers[SLOT]);
    } else if (question != ASK_IS_IDLE && question != ASK_READY) {
        fprintf(to, ", %" PRIu32 "u", numbers[FD]);
    }
    if (question == ASK_PEEK) {
        fputs(", ", to);
        tell_named(to, "dsp_request", requests, sizeof requests / sizeof requests[0], numbers[REQUEST]);
    }
    if (question == ASK_PEEK || question == ASK_FRAMES_UNTIL) {
        fprintf(to, ", %" PRIu32 "u", numbers[question == ASK_PEEK ? ARGUMENT : UNTIL]);
    }
    if (told[question] != NULL) {
        fprintf(to, ", %s", !call->is_null ? told[question] : question == ASK_READY ? "NULL, NULL" : "NULL");
    }
    fputs(")", to);
}

static void tell_open(FILE *to, const uint32_t *numbers) {
    fprintf(to, "dsp_engine_open(&engine, %" PRIu32 ", ", numbers[FD]);
    tell_named(to, "dsp_way", ways, sizeof ways / sizeof ways[0], numbers[WAY]);
    fprintf(to, ", 0x%" PRIx32 ", %" PRIu32 "u, %" PRIu32 "u)", numbers[FORMAT], numbers[CHANNELS], numbers[RATE]);
}

void tell_call(FILE *to, const struct call *call) {
    const uint32_t *numbers = call->numbers;
    switch (call->kind) {
    case CALL_OPEN:
        tell_open(to, numbers);
        break;
    case CALL_WRITE:
        fprintf(to, "dsp_engine_write(&engine, %" PRIu32 ", ", numbers[FD]);
        tell_bytes(to, call);
        fputs(")", to);
        break;
    case CALL_POKE:
        fprintf(to, "dsp_engine_poke(&engine, %" PRIu32 ", %" PRIu32 "u, ", numbers[FD], numbers[OFFSET]);
        tell_bytes(to, call);
        fputs(")", to);
        break;
    case CALL_READ:
        fprintf(to, "dsp_engine_read(&engine, %" PRIu32 ", %s, %zu)", numbers[FD], call->is_null ? "NULL" : "out", call->room);
        break;
    case CALL_START:
        fprintf(to, "dsp_engine_start(&engine, %" PRIu32 ", %" PRIu32 ")", numbers[FD], numbers[GROUP]);
        break;
    case CALL_CLOSE:
        fprintf(to, "dsp_engine_close(&engine, %" PRIu32 ")", numbers[FD]);
        break;
    case CALL_INTERRUPT:
        fprintf(to, "dsp_engine_interrupt(&engine, %" PRIu32 ", some_samples(%zu, %" PRIu32 "u), %zu, %s, %zu)", numbers[FRAMES],
                call->length, call->seed, call->length, call->is_null ? "NULL" : "out", call->room);
        break;
    case CALL_ASK:
        tell_question(to, call);
        break;
    case CALL_CLONE:
        fputs("clone_engine(&engine)", to);
        break;
    case CALL_LOAD:
        fprintf(to, "load_engine(&engine, %" PRIu32 "u)", call->seed);
        break;
    case CALL_NEW:
        fputs("dsp_engine_new(&engine, &device, NULL, 0, NULL, 0, NULL, 0)", to);
        break;
    default:
        tell_asked(to, call);
        break;
    }
}

void tell_input(FILE *to, struct input input) {
    struct setup setup;
    struct calls calls;
    struct call call;

    take_setup(&input, &setup);
    tell_setup(to, &setup);
    if (setup_is_right(&setup)) {
        begin_calls(&calls, input, &setup);
        while (next_call(&calls, &call)) {
            fputs("    told(", to);
            tell_call(to, &call);
            fputs(");\n", to);
        }
    }
    fputs("    dsp_engine_free(&engine);\n    return 0;\n}\n", to);
}
