/* The time of the device: by the clock, or as fast as programs wait for it. */
#define _GNU_SOURCE
#include "holder.h"

#include <time.h>

enum { SECOND = 1000000000, MILLISECOND = 1000000, GRACE = 100 * MILLISECOND };

static int64_t now(void) {
    struct timespec at;
    clock_gettime(CLOCK_MONOTONIC, &at);
    return (int64_t)at.tv_sec * SECOND + at.tv_nsec;
}

void interrupt(struct holder *holder, uint32_t frames) {
    for (struct token *it = holder->tokens; it < holder->tokens + TOKENS; it += 1) {
        if (it->used) {
            token_poke(holder, it);
        }
    }
    device_interrupt(&holder->device, frames);
}

/* How long an interrupt lasts. */
static int64_t block_lasts(const struct holder *holder) {
    return (int64_t)holder->device.block * SECOND / holder->device.settings.rate;
}

static int milliseconds(int64_t left) {
    return left <= 0 ? 0 : (int)((left + MILLISECOND - 1) / MILLISECOND);
}

/* Whether somebody has the device, or something of it is still to be heard. */
static bool is_in_use(const struct holder *holder) {
    bool is_so = holder->device.frames < holder->tail;
    for (const struct token *it = holder->tokens; it < holder->tokens + TOKENS; it += 1) {
        is_so |= it->used && it->kind == KIND_DSP;
    }
    return is_so;
}

/* One interrupt, if it is due. Of a device that stood still for long the time begins again. */
static int by_clock(struct holder *holder) {
    int64_t lasts = block_lasts(holder), at = now();
    if (!is_in_use(holder)) {
        holder->clock_at = 0;
        return -1;
    }
    if (holder->clock_at == 0 || at - holder->clock_at > SECOND + lasts) {
        holder->clock_at = at;
    }
    if (at - holder->clock_at >= lasts) {
        interrupt(holder, holder->device.block);
        holder->clock_at += lasts;
        return 0;
    }
    return milliseconds(holder->clock_at + lasts - at);
}

/* ---- as fast as programs wait ---- */

static bool any_moves(struct holder *holder) {
    for (struct token *it = holder->tokens; it < holder->tokens + TOKENS; it += 1) {
        if (it->used && it->kind == KIND_DSP && token_moves(holder, it)) {
            return true;
        }
    }
    return holder->device.frames < holder->tail;
}

/* Whether one of the descriptors that a poll waits for moves. */
static bool polled_moves(struct holder *holder, const struct call *call) {
    const struct wire_polled *polled = (const struct wire_polled *)(const void *)call->bytes;
    for (size_t k = 0; k < call->head.length / sizeof *polled; k += 1) {
        struct token *token = token_of(holder, polled[k].token);
        if (token && token->kind == KIND_DSP && token_moves(holder, token)) {
            return true;
        }
    }
    return false;
}

/* Whether time helps a call that waits. */
static bool moves(struct holder *holder, const struct call *call) {
    struct token *token = token_of(holder, call->head.token);
    switch (call->head.op) {
    case WIRE_OPEN:
    case WIRE_CLOSED:
    case WIRE_SLEEP:
        return any_moves(holder);
    case WIRE_POLL:
        return polled_moves(holder, call);
    default:
        return token && token->kind == KIND_DSP && token_moves(holder, token);
    }
}

/* Whether a call waits until the device has done something, and not for a change alone. */
static bool is_long(const struct call *call) {
    bool waits = call->head.flags & WIRE_WAITS;
    return call->head.op != WIRE_SLEEP && (call->head.op == WIRE_IOCTL ? call->is_begun : call->head.op == WIRE_POLL || waits);
}

/* Whether a thread waits until the device has gone on, so that it can bring nothing before. */
static bool is_waiting(const struct holder *holder, uint32_t thread) {
    for (size_t k = 0; k < CALLS; k += 1) {
        const struct call *call = holder->calls[k];
        if (call && call->is_whole && call->head.thread == thread && is_long(call)) {
            return true;
        }
    }
    return false;
}

/* For how many frames of the device a descriptor is neither short nor full. */
static uint64_t frames_left(struct holder *holder, struct token *token) {
    if (token->kind != KIND_DSP || is_waiting(holder, token->thread)) {
        return UINT64_MAX;
    }
    uint64_t left = UINT64_MAX;
    if (token_plays(holder, token) && !token_drains(holder, token)) {
        left = token_lasts(holder, token, token_waiting(holder, token));
    }
    if (token->is_recording && token->rec >= 0) {
        struct dsp_answer is = device_ask(&holder->device, (uint32_t)token->rec, DSP_GETISPACE);
        uint64_t room = token_lasts(holder, token, is.second * is.third - is.fourth);
        left = room < left ? room : left;
    }
    return left;
}

/* How many frames the device may take at once, so that no program that is busy is short. */
static uint32_t frames_allowed(struct holder *holder) {
    uint64_t allowed = holder->device.block;
    for (struct token *it = holder->tokens; it < holder->tokens + TOKENS; it += 1) {
        uint64_t left = it->used ? frames_left(holder, it) : UINT64_MAX;
        allowed = left < allowed ? left : allowed;
    }
    return (uint32_t)allowed;
}

/* Whether some call waits that time helps, and one of these but a sleep. */
static bool someone_waits(struct holder *holder, bool *is_awake) {
    bool waits = holder->device.frames < holder->tail;
    *is_awake = false;
    for (size_t k = 0; k < CALLS; k += 1) {
        const struct call *call = holder->calls[k];
        if (call && call->is_whole && moves(holder, call)) {
            waits = true;
            *is_awake |= call->head.op != WIRE_SLEEP;
        }
    }
    return waits;
}

/* Where a program is too busy to bring more, the device waits for it, and goes on by the clock once that lasts long. */
static int held(struct holder *holder) {
    int64_t at = now(), due = holder->held_from + GRACE;
    if (holder->held_from == 0) {
        holder->held_from = at;
        return milliseconds(GRACE);
    }
    if (at < due) {
        return milliseconds(due - at);
    }
    interrupt(holder, holder->device.block);
    holder->held_from += block_lasts(holder);
    return 0;
}

static int by_waits(struct holder *holder) {
    bool is_awake;
    if (!someone_waits(holder, &is_awake)) {
        holder->held_from = 0;
        return -1;
    }
    uint32_t allowed = frames_allowed(holder);
    if (allowed > 0) {
        holder->held_from = 0;
        interrupt(holder, allowed);
        return 0;
    }
    return is_awake ? held(holder) : -1;
}

int time_goes(struct holder *holder) {
    switch (holder->pace) {
    case PACE_CLOCK:
        return by_clock(holder);
    case PACE_FAST:
        return by_waits(holder);
    default:
        return -1;
    }
}
