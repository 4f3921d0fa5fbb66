/* The limits of dsp_engine.h and of docs/SCRIPTS.md, as they stand there. */
#include "limits.h"

enum { SLOTS = 16, RING_MOST = 262144, MIX_AHEAD = 33, TABLES = 4, QUALITIES = 5, REQUESTS = 20, MIXER_REQUESTS = 5, WAYS = 3 };

static bool is_within(uint32_t number, uint32_t least, uint32_t most) {
    return least <= number && number <= most;
}

static bool is_around_zero(int32_t number, int32_t most) {
    return -most <= number && number <= most;
}

static bool is_rate(uint32_t rate) {
    return is_within(rate, 4000, 192000);
}

static bool is_layout(uint32_t channels) {
    return channels == 1 || (channels <= 8 && channels != 0 && channels % 2 == 0);
}

static bool is_stream(uint32_t format, uint32_t channels, uint32_t rate) {
    return sample_bytes(format) != 0 && is_layout(channels) && is_rate(rate);
}

/* What an interrupt mixes at most fits where it is mixed. */
static bool fits_mix(const struct dsp_device *device) {
    uint64_t ring = device->ring_frames;
    return device->mix_rate == 0 || device->mix_rate == device->rate
           || ring * device->mix_rate / device->rate + MIX_AHEAD <= RING_MOST;
}

static bool device_is_right(const struct dsp_device *device) {
    return is_stream(device->format, device->channels, device->rate) && (device->mix_channels == 0 || is_layout(device->mix_channels))
           && (device->mix_rate == 0 || is_rate(device->mix_rate)) && is_within(device->ring_frames, 1, RING_MOST) && fits_mix(device)
           && (uint64_t)device->play_slots + device->map_slots <= SLOTS && device->record_slots <= SLOTS && device->quality < QUALITIES;
}

static bool filter_is_right(const struct dsp_filter *filter, const struct setup *setup) {
    uint64_t count = (uint64_t)filter->phases * filter->taps;
    bool has_rates = (filter->src == 0 && filter->dst == 0) || (is_rate(filter->src) && is_rate(filter->dst));
    bool has_shape = is_within(filter->phases, 1, 512) && is_within(filter->taps, 2, 64) && filter->taps % 2 == 0 && count <= 16384;
    if (!has_rates || !has_shape || !is_within(filter->shift, 1, 30) || filter->first + count > setup->coef_count) {
        return false;
    }
    for (uint64_t i = filter->first; i < filter->first + count; i += 1) {
        if (!is_around_zero(setup->coefs[i], 1 << 24)) {
            return false;
        }
    }
    return true;
}

static bool section_is_right(const struct dsp_section *section) {
    const int32_t most = 1 << 29;
    return is_within(section->shift, 1, 28) && is_around_zero(section->b0, most) && is_around_zero(section->b1, most)
           && is_around_zero(section->b2, most) && is_around_zero(section->a1, most) && is_around_zero(section->a2, most);
}

bool setup_is_right(const struct setup *setup) {
    bool is_right = device_is_right(&setup->device) && setup->filter_count <= TABLES && setup->section_count <= TABLES;
    for (size_t i = 0; is_right && i < setup->filter_count; i += 1) {
        is_right = filter_is_right(&setup->filters[i], setup);
    }
    for (size_t i = 0; is_right && i < setup->section_count; i += 1) {
        is_right = section_is_right(&setup->sections[i]);
    }
    return is_right;
}

/* Whether an interrupt has as many frames as the ring may give, no more samples than these and whole frames of them, and room for them. */
static bool interrupt_is_right(const struct call *call, const struct dsp_device *device) {
    uint64_t frames = call->numbers[FRAMES];
    return frames != 0 && frames <= device->ring_frames && call->length <= frames * device->channels && call->length % device->channels == 0
           && call->room >= frames * frame_bytes(device) && !call->is_null;
}

/* Whether there is a slot of a way with a number. */
static bool is_slot(uint32_t way, uint32_t number, const struct dsp_device *device) {
    uint64_t mapped = (uint64_t)device->play_slots + device->map_slots;
    switch (way) {
    case DSP_PLAY:
        return number < device->play_slots;
    case DSP_RECORD:
        return number < device->record_slots;
    case DSP_MAP:
        return device->play_slots <= number && number < mapped;
    default:
        return false;
    }
}

/* Whether a question is of a descriptor, a request or a slot that there is, and has a place for its answer. */
static bool question_is_right(const struct call *call, const struct dsp_device *device) {
    const uint32_t *numbers = call->numbers;
    switch (numbers[QUESTION]) {
    case ASK_IS_IDLE:
    case ASK_READY:
        return true;
    case ASK_SLOT:
        return is_slot(numbers[WAY], numbers[SLOT], device) && !call->is_null;
    case ASK_PEEK:
        return numbers[FD] < DESCRIPTORS && numbers[REQUEST] < REQUESTS;
    case ASK_IS_READY:
    case ASK_FRAMES_UNTIL:
        return numbers[FD] < DESCRIPTORS;
    default:
        return numbers[FD] < DESCRIPTORS && !call->is_null;
    }
}

bool call_is_right(const struct call *call, const struct dsp_device *device) {
    const uint32_t *numbers = call->numbers;
    switch (call->kind) {
    case CALL_ASK:
        return question_is_right(call, device);
    case CALL_NEW:
        return false;
    case CALL_CLONE:
    case CALL_LOAD:
        return true;
    case CALL_INTERRUPT:
        return interrupt_is_right(call, device);
    case CALL_MIXER:
        return numbers[MIXER_REQUEST] < MIXER_REQUESTS;
    case CALL_OPEN:
        /* frames that no channel can have are refused, as the requests for them are */
        return !is_stream(numbers[FORMAT], numbers[CHANNELS], numbers[RATE]) || (numbers[FD] < DESCRIPTORS && numbers[WAY] < WAYS);
    case CALL_IOCTL:
        return numbers[FD] < DESCRIPTORS && numbers[REQUEST] < REQUESTS;
    case CALL_WRITE:
    case CALL_POKE:
        return numbers[FD] < DESCRIPTORS && !(call->is_null && call->length != 0);
    case CALL_READ:
        return numbers[FD] < DESCRIPTORS && !(call->is_null && call->room != 0);
    default:
        return numbers[FD] < DESCRIPTORS;
    }
}
