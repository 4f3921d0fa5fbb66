/* How calls are taken out of an input. */
#include "call.h"

#define COUNT_OF(list) (sizeof(list) / sizeof(list)[0])

/* FRAMES_TRIED are what interrupts of an input take together, and MADE_MOST how many calls an input says at most. */
enum { FRAMES_TRIED = 4096, MADE_MOST = 256, CLIENTS = 6, WAYS = 3, GROUPS_ASKED = 2, RINGS_ASKED = 3, FRAMES_ASKED = 128 };

uint32_t sample_bytes(uint32_t format) {
    switch (format) {
    case DSP_U8:
    case DSP_S8:
        return 1;
    case DSP_S16_LE:
    case DSP_S16_BE:
    case DSP_U16_LE:
    case DSP_U16_BE:
        return 2;
    case DSP_S24_LE:
    case DSP_S24_BE:
    case DSP_U24_LE:
    case DSP_U24_BE:
        return 3;
    case DSP_S32_LE:
    case DSP_S32_BE:
    case DSP_U32_LE:
    case DSP_U32_BE:
        return 4;
    default:
        return 0;
    }
}

uint32_t frame_bytes(const struct dsp_device *device) {
    return device->channels * sample_bytes(device->format);
}

static uint32_t lesser(uint32_t one, uint32_t other) {
    return one < other ? one : other;
}

/* The way of the descriptors that a call mostly goes to, or WAYS for one that goes to all. */
static uint32_t way_of(enum call_kind kind) {
    return kind == CALL_WRITE ? DSP_PLAY : kind == CALL_READ ? DSP_RECORD : kind == CALL_POKE ? DSP_MAP : WAYS;
}

/* One of a few descriptors, so that they are open more often than not, and of the call's way; now and then another, or none. */
static uint32_t take_descriptor(struct input *input, uint32_t way) {
    uint32_t chosen = take_byte(input);
    if (chosen < 200 && way < WAYS) {
        return chosen % (CLIENTS / WAYS) * WAYS + way;
    }
    if (chosen < 244) {
        return chosen % CLIENTS;
    }
    return chosen < 250 ? take_byte(input) % DESCRIPTORS : take_edge(input);
}

static void take_open(struct calls *calls, struct call *call) {
    struct input *input = &calls->input;
    uint32_t way = take_byte(input);

    call->numbers[WAY] = way < 200 ? call->numbers[FD] % WAYS : way < 250 ? way % WAYS : way - 247;
    call->numbers[FORMAT] = calls->device->format;
    call->numbers[CHANNELS] = calls->device->channels;
    call->numbers[RATE] = calls->device->rate;
    if (take_chance(input, 150)) {
        call->numbers[FORMAT] = take_format(input);
        call->numbers[CHANNELS] = take_channels(input);
        call->numbers[RATE] = take_rate(input);
    }
}

/* How many bytes are written: few, whole fragments, or up to more than any ring has. */
static size_t take_length(struct input *input) {
    uint32_t chosen = take_byte(input);
    if (chosen < 100) {
        return chosen % 50 * 4;
    }
    if (chosen < 180) {
        return take_byte(input) * 16 + chosen % 16;
    }
    if (chosen < 240) {
        return READ_MOST * (1 + chosen % 4);
    }
    return chosen < 248 ? take_number(input) % ((1 << 17) + 2) : chosen % 2;
}

static void take_write(struct input *input, struct call *call) {
    call->length = take_length(input);
    call->seed = take_byte(input) * 2654435761u;
    call->is_null = take_chance(input, 4);
}

static void take_poke(struct input *input, struct call *call) {
    static const uint32_t offsets[] = {0, 0, 0, 1, 4, 8, 16, 28, 31, 32, 100, 4096, 12288, 16380, 16383, 16384, 131071};
    call->numbers[OFFSET] = take_chance(input, 16) ? take_edge(input) : take_one_of(input, offsets, COUNT_OF(offsets));
    take_write(input, call);
    if (call->length > READ_MOST && !take_chance(input, 16)) {
        call->length %= READ_MOST + 1;
    }
}

static void take_read(struct input *input, struct call *call) {
    uint32_t chosen = take_byte(input);
    call->room = chosen < 128 ? chosen * 4 : chosen < 200 ? READ_MOST : chosen < 220 ? take_byte(input) : take_number(input) % ROOM_MOST;
    call->is_null = take_chance(input, 4);
}

/* A volume of each side, now and then one that is too much. */
static uint32_t take_volume(struct input *input) {
    uint32_t left = take_byte(input) % 103, right = take_byte(input) % 103;
    return left + 256 * right;
}

static uint32_t take_argument(struct input *input, uint32_t request) {
    static const uint32_t fragments[] = {0x00020004, 0x00020004, 0x00040005, 0x0004000c, 0x00080006, 0x7fff0010, 0, 0x0003000a, 0x00100004};
    if (take_chance(input, 16)) {
        return take_edge(input);
    }
    switch (request) {
    case DSP_SETFMT:
        return take_format(input);
    case DSP_SPEED:
        return take_rate(input);
    case DSP_CHANNELS:
        return take_channels(input);
    case DSP_SETFRAGMENT:
        return take_one_of(input, fragments, COUNT_OF(fragments));
    case DSP_SETTRIGGER:
        return take_byte(input) % 5;
    case DSP_SETPLAYVOL:
        return take_volume(input);
    default:
        return 0;
    }
}

/* A request: those that start and end something more often than the others, and now and then none. */
static void take_ioctl(struct input *input, struct call *call) {
    static const uint32_t often[] = {DSP_POST,        DSP_SYNC,  DSP_HALT,   DSP_SETTRIGGER, DSP_POST,
                                     DSP_SETFRAGMENT, DSP_SPEED, DSP_SETFMT, DSP_CHANNELS,   DSP_SETTRIGGER};
    uint32_t chosen = take_byte(input);
    call->numbers[REQUEST] = chosen < 100 ? chosen % (DSP_HALT + 1) : chosen < 252 ? often[chosen % COUNT_OF(often)] : take_edge(input);
    call->numbers[ARGUMENT] = take_argument(input, call->numbers[REQUEST]);
    call->is_null = take_chance(input, 8);
}

static void take_group(struct input *input, struct call *call) {
    static const uint32_t joined[] = {0, 0, 0, 1, 1, 2, 3, 8}, started[] = {1, 1, 1, 1, 2, 2, 3, 0};
    const uint32_t *groups = call->kind == CALL_JOIN ? joined : started;
    call->numbers[GROUP] = take_chance(input, 8) ? take_edge(input) : take_one_of(input, groups, COUNT_OF(joined));
    call->is_null = take_chance(input, 8);
}

static void take_mixer(struct input *input, struct call *call) {
    uint32_t chosen = take_byte(input), slot = take_byte(input);
    call->numbers[MIXER_REQUEST] = chosen < 250 ? chosen % (DSP_MUTE_SLOT + 1) : take_edge(input);
    call->numbers[MIXER_SLOT] = slot < 240 ? slot % 8 : take_edge(input);
    call->numbers[MIXER_VALUE] = call->numbers[MIXER_REQUEST] == DSP_MUTE_SLOT ? take_byte(input) % 3 : take_volume(input);
    call->is_null = take_chance(input, 8);
}

/* How many frames an interrupt takes, within what is left of those of an input. */
static uint32_t take_frames(struct calls *calls) {
    uint32_t chosen = take_byte(&calls->input), ring = calls->device->ring_frames;
    uint32_t frames = chosen < 150 ? 1 + chosen % lesser(ring, 16) : chosen < 220 ? 1 + take_number(&calls->input) % ring : ring;
    frames = chosen < 246 ? frames : chosen < 250 ? ring + 1 : take_edge(&calls->input);
    return frames > calls->frames_left && frames <= ring ? 1 : frames;
}

/* Samples and room of an interrupt: mostly as many as its frames need, and now and then one too many or too few. */
static void take_interrupt(struct calls *calls, struct call *call) {
    struct input *input = &calls->input;
    uint32_t frames = take_frames(calls), some = lesser(frames, 64), kind = take_byte(input), room = take_byte(input);
    bool is_large = frames == 0 || frames > calls->device->ring_frames;

    call->numbers[FRAMES] = frames;
    call->length = (size_t)(is_large ? some : frames) * calls->device->channels;
    call->room = (size_t)(is_large ? some : frames) * frame_bytes(calls->device);
    call->length = kind < 140 ? call->length : kind < 200 ? take_byte(input) % (call->length + 1) : kind < 252 ? 0 : call->length + 1;
    call->room += room < 200 ? 0 : room < 250 ? room % 4 : 0;
    call->room -= room >= 250 && call->room > 0 ? 1 : 0;
    call->seed = take_byte(input) * 2654435761u;
    call->is_null = take_chance(input, 2) && call->room != 0;
    calls->frames_left -= is_large ? 0 : lesser(frames, calls->frames_left);
}

/* After a question of what a request would answer comes that request, and after one of a wait an interrupt. */
static void take_next(struct calls *calls, const struct call *call) {
    const struct call interrupt = {CALL_INTERRUPT, {0, 0, 0, 0, 0}, 0, 0, 0, false};
    bool is_peek = call->numbers[QUESTION] == ASK_PEEK, is_wait = call->numbers[QUESTION] == ASK_FRAMES_UNTIL;

    calls->has_next = (is_peek || is_wait) && take_chance(&calls->input, 160);
    calls->next = is_peek ? *call : interrupt;
    if (calls->has_next && is_wait) {
        take_interrupt(calls, &calls->next);
    }
    if (is_peek) {
        calls->next.kind = CALL_IOCTL;
        calls->next.numbers[QUESTION] = 0;
    }
}

/* How many bytes are waited for: few, fragments, or up to more than any ring has. */
static uint32_t take_awaited(struct input *input) {
    uint32_t chosen = take_byte(input);
    return chosen < 140 ? 1 + chosen % 70 : chosen < 250 ? (uint32_t)take_length(input) : take_edge(input);
}

static void take_question(struct calls *calls, struct call *call) {
    struct input *input = &calls->input;
    call->numbers[QUESTION] = take_byte(input) % QUESTIONS;
    switch (call->numbers[QUESTION]) {
    case ASK_PEEK:
        take_ioctl(input, call);
        break;
    case ASK_SLOT:
        call->numbers[WAY] = take_chance(input, 8) ? take_edge(input) : take_byte(input) % WAYS;
        call->numbers[SLOT] = take_chance(input, 8) ? take_edge(input) : take_byte(input) % 4;
        break;
    case ASK_FRAMES_UNTIL:
        call->numbers[UNTIL] = take_awaited(input);
        break;
    default:
        call->is_null = take_chance(input, 8);
        break;
    }
    call->seed = take_byte(input);
    take_next(calls, call);
}

static void take_numbers(struct calls *calls, struct call *call) {
    struct input *input = &calls->input;
    switch (call->kind) {
    case CALL_OPEN:
        take_open(calls, call);
        break;
    case CALL_WRITE:
        take_write(input, call);
        break;
    case CALL_POKE:
        take_poke(input, call);
        break;
    case CALL_READ:
        take_read(input, call);
        break;
    case CALL_IOCTL:
        take_ioctl(input, call);
        break;
    case CALL_JOIN:
    case CALL_START:
        take_group(input, call);
        break;
    case CALL_MIXER:
        take_mixer(input, call);
        break;
    case CALL_INTERRUPT:
        take_interrupt(calls, call);
        break;
    case CALL_ASK:
        take_question(calls, call);
        break;
    case CALL_LOAD:
        call->seed = take_number(input);
        break;
    default:
        break;
    }
}

/* Whether a call's first number is a descriptor. */
static bool has_descriptor(enum call_kind kind) {
    return kind != CALL_MIXER && kind != CALL_INTERRUPT && kind != CALL_NEW && kind != CALL_CLONE && kind != CALL_LOAD;
}

static void take_call(struct calls *calls, struct call *call) {
    static const uint32_t kinds[] = {
        CALL_OPEN,  CALL_OPEN,  CALL_OPEN,  CALL_OPEN,  CALL_WRITE, CALL_WRITE, CALL_WRITE,     CALL_WRITE,     CALL_WRITE,
        CALL_WRITE, CALL_POKE,  CALL_POKE,  CALL_READ,  CALL_READ,  CALL_READ,  CALL_IOCTL,     CALL_IOCTL,     CALL_IOCTL,
        CALL_IOCTL, CALL_IOCTL, CALL_IOCTL, CALL_IOCTL, CALL_JOIN,  CALL_START, CALL_CLOSE,     CALL_MIXER,     CALL_MIXER,
        CALL_JOIN,  CALL_START, CALL_NEW,   CALL_INTERRUPT, CALL_INTERRUPT, CALL_INTERRUPT, CALL_INTERRUPT, CALL_INTERRUPT, CALL_INTERRUPT,
        CALL_ASK,   CALL_ASK,   CALL_ASK,   CALL_ASK,   CALL_ASK,   CALL_ASK,   CALL_ASK,       CALL_ASK,       CALL_LOAD,
        CALL_CLONE,
    };
    call->kind = (enum call_kind)take_one_of(&calls->input, kinds, COUNT_OF(kinds));
    if (has_descriptor(call->kind)) {
        call->numbers[FD] = take_descriptor(&calls->input, way_of(call->kind));
    }
    take_numbers(calls, call);
}

/* What a descriptor is asked after the calls of an input: all that it answers, and to start. */
static const struct {
    uint32_t request, argument;
} asked[] = {
    {DSP_GETERROR, 0},   {DSP_GETOSPACE, 0},  {DSP_GETISPACE, 0}, {DSP_GETOPTR, 0}, {DSP_GETIPTR, 0},  {DSP_GETODELAY, 0}, {DSP_GETTRIGGER, 0},
    {DSP_GETPLAYVOL, 0}, {DSP_GETBLKSIZE, 0}, {DSP_SETFMT, 0},    {DSP_SPEED, 0},   {DSP_CHANNELS, 0}, {DSP_SETTRIGGER, 3},
};
/* And the questions that it is asked first. */
static const uint32_t questions[] = {ASK_SETTINGS, ASK_IS_READY, ASK_POSITION, ASK_FRAMES_UNTIL};
enum { REQUESTS_ASKED = COUNT_OF(asked), QUESTIONS_ASKED = COUNT_OF(questions), OF_DESCRIPTOR = QUESTIONS_ASKED + REQUESTS_ASKED + GROUPS_ASKED + 1 };

/* Asks a descriptor one of these, then to start a group, and for what it has recorded. */
static void ask_descriptor(uint32_t number, struct call *call) {
    const uint32_t requests = QUESTIONS_ASKED, groups = requests + REQUESTS_ASKED, reads = groups + GROUPS_ASKED;
    call->kind = number < requests ? CALL_ASK : number < groups ? CALL_IOCTL : number < reads ? CALL_START : CALL_READ;
    if (call->kind == CALL_ASK) {
        call->numbers[QUESTION] = questions[number];
        call->numbers[UNTIL] = questions[number] == ASK_FRAMES_UNTIL ? READ_MOST : 0;
    } else if (call->kind == CALL_IOCTL) {
        call->numbers[REQUEST] = asked[number - requests].request;
        call->numbers[ARGUMENT] = asked[number - requests].argument;
    } else if (call->kind == CALL_START) {
        call->numbers[GROUP] = 1 + number - groups;
    }
    call->room = call->kind == CALL_READ ? READ_MOST : 0;
}

/* Asks a few descriptors and the mixer device for all that they answer, and then hears what is left. */
static bool ask_call(uint32_t number, const struct dsp_device *device, struct call *call) {
    const uint32_t of_descriptors = CLIENTS * OF_DESCRIPTOR, of_mixer = of_descriptors + 1 + CLIENTS;

    if (number < of_descriptors) {
        call->numbers[FD] = number % CLIENTS;
        ask_descriptor(number / CLIENTS, call);
    } else if (number < of_mixer) {
        call->kind = CALL_MIXER;
        call->numbers[MIXER_REQUEST] = number == of_descriptors ? DSP_GET_MASTER : DSP_GET_SLOT;
        call->numbers[MIXER_SLOT] = number == of_descriptors ? 0 : number - of_descriptors - 1;
    } else {
        call->kind = CALL_INTERRUPT;
        call->numbers[FRAMES] = lesser(device->ring_frames, FRAMES_ASKED);
        call->room = (size_t)call->numbers[FRAMES] * frame_bytes(device);
    }
    return number < of_mixer + RINGS_ASKED;
}

void begin_calls(struct calls *calls, struct input input, const struct setup *setup) {
    const struct dsp_device *device = &setup->device;
    bool is_light = setup->filter_count == 0 && setup->section_count == 0 && device->mix_rate == 0
                    && (uint64_t)device->play_slots + device->map_slots <= 4;
    calls->input = input;
    calls->device = device;
    calls->frames_left = is_light && device->ring_frames > FRAMES_TRIED ? device->ring_frames : FRAMES_TRIED;
    calls->made = 0;
    calls->asked = 0;
    calls->has_next = false;
}

bool next_call(struct calls *calls, struct call *call) {
    const struct call nothing = {CALL_NEW, {0, 0, 0, 0, 0}, 0, 0, 0, false};
    *call = calls->has_next ? calls->next : nothing;
    if (calls->has_next) {
        calls->has_next = false;
        return true;
    }
    if (calls->input.left > 0 && calls->made < MADE_MOST) {
        calls->made += 1;
        take_call(calls, call);
        return true;
    }
    calls->asked += 1;
    return ask_call(calls->asked - 1, calls->device, call);
}
