/* Requests of OSS on a descriptor, which may be two of the engine. */
#include "holder.h"

#include "dsp_oss.h"

#include <errno.h>
#include <string.h>

enum { ARGUMENT_MOST = 256 };

static bool is_of_input(uint32_t request) {
    return request == DSP_OSS_LINUX_GETISPACE || request == DSP_OSS_LINUX_GETIPTR;
}

/* What is set of both ways at once. */
static bool is_of_both(uint32_t request) {
    switch (request) {
    case DSP_OSS_LINUX_SPEED:
    case DSP_OSS_LINUX_SETFMT:
    case DSP_OSS_LINUX_CHANNELS:
    case DSP_OSS_LINUX_STEREO:
    case DSP_OSS_LINUX_SETFRAGMENT:
    case DSP_OSS_LINUX_SETTRIGGER:
    case DSP_OSS_LINUX_RESET:
    case DSP_OSS_LINUX_POST:
        return true;
    default:
        return false;
    }
}

static bool is_setting(uint32_t request) {
    return request == DSP_OSS_LINUX_SETFMT || request == DSP_OSS_LINUX_CHANNELS || request == DSP_OSS_LINUX_STEREO ||
           request == DSP_OSS_LINUX_SETFRAGMENT;
}

/* The settings of a channel that make another area of it, in one number. */
static uint64_t shape_of(struct holder *holder, const struct token *token) {
    struct dsp_answer format = device_ask(&holder->device, (uint32_t)token->play, DSP_SETFMT);
    return format.first << 8 | device_ask(&holder->device, (uint32_t)token->play, DSP_CHANNELS).first;
}

/* An area is silent again where the format, the channels or the fragments are others. */
static void look_at_area(struct holder *holder, struct token *token, uint64_t before, uint32_t request, const void *argument) {
    uint32_t fragments = token->fragments;
    if (request == DSP_OSS_LINUX_SETFRAGMENT) {
        memcpy(&fragments, argument, sizeof fragments);
    }
    if (shape_of(holder, token) != before || fragments != token->fragments) {
        token->fragments = fragments;
        token->ring = (fragments >> 16) << (fragments & 0xffff);
        token_is_silent(holder, token);
    }
}

/* What a request leaves of what is known of a descriptor. */
static void look(struct token *token, uint32_t request) {
    if (request == DSP_OSS_LINUX_RESET || request == DSP_OSS_LINUX_SETTRIGGER) {
        token->is_recording = false;
    }
    if (request == DSP_OSS_LINUX_RESET) {
        token->drains = false;
    }
    if (request == DSP_OSS_LINUX_SYNC && token->play >= 0 && !token->maps) {
        token->drains = true;
    }
}

int oss_request(struct holder *holder, struct token *token, uint32_t request, void *argument, size_t size) {
    struct dsp_engine *engine = &holder->device.engine;
    uint8_t other[ARGUMENT_MOST] = {0};
    int rec = is_of_input(request) ? token_rec(holder, token) : token->rec;
    int d = token->play < 0 || (is_of_input(request) && rec >= 0) ? rec : token->play;
    /* step by step nothing is moved to what is near */
    unsigned flags = holder->pace == PACE_STEP ? 0 : DSP_OSS_NEAR;
    uint64_t shape = token->maps ? shape_of(holder, token) : 0;
    if (size > sizeof other || d < 0) {
        return -EINVAL;
    }
    if (argument) {
        memcpy(other, argument, size);
    }
    token_poke(holder, token);
    int answer = dsp_oss_ioctl(engine, (uint32_t)d, request, argument, flags);
    if (answer == 0 && rec >= 0 && d != rec && is_of_both(request)) {
        dsp_oss_ioctl(engine, (uint32_t)rec, request, argument ? other : NULL, flags);
    }
    if (answer == 0) {
        look(token, request);
    }
    if (answer == 0 && token->maps && is_setting(request)) {
        look_at_area(holder, token, shape, request, argument);
    }
    return answer;
}
