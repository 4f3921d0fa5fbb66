/* Calls of programs: each is served as far as it can be, and waits else. */
#define _GNU_SOURCE
#include "holder.h"

#include "dsp_oss.h"

#include <errno.h>
#include <poll.h>
#include <string.h>
#include <sys/socket.h>
#include <unistd.h>

enum { LINE_MOST = 4096, MILLION = 1000000 };

static bool waits(const struct call *call) {
    return call->head.flags & WIRE_WAITS;
}

void call_answer(struct call *call, int32_t number, const void *bytes, uint32_t length) {
    const struct wire_answer head = {number, length};
    uint8_t whole[sizeof head + WIRE_MOST];
    memcpy(whole, &head, sizeof head);
    if (length) {
        memcpy(whole + sizeof head, bytes, length);
    }
    /* who is gone needs no answer */
    send(call->fd, whole, sizeof head + length, MSG_NOSIGNAL);
}

static bool answered(struct call *call, int32_t number) {
    call_answer(call, number, NULL, 0);
    return true;
}

static int32_t refused(int32_t answer) {
    return answer < 0 ? -dsp_engine_errno(answer) : answer;
}

/* Where interrupts come as the program waits, what was asked before, or refused, with no change since, waits for one. */
static bool waits_for_change(struct holder *holder, struct token *token, int question) {
    return question >= 0 && holder->pace == PACE_FAST && token_moves(holder, token) && token->asked[question] == holder->device.changes;
}

/* Whether a call that was refused for now, as one before it, waits for a change. */
static bool is_refused_again(struct holder *holder, struct token *token, const struct call *call, int question) {
    return !waits(call) && !call->done && waits_for_change(holder, token, question);
}

/* ---- writes and reads ---- */

/* How many bytes a descriptor takes now. */
static uint64_t room_of(struct holder *holder, struct token *token) {
    return token_drains(holder, token) ? 0 : device_ask(&holder->device, (uint32_t)token->play, DSP_GETOSPACE).fourth;
}

/* Writes what has room. Answers what the program gets, or 0 where the call waits. */
static int32_t written(struct holder *holder, struct token *token, struct call *call) {
    while (call->done < call->head.length) {
        uint64_t room = room_of(holder, token), left = call->head.length - call->done;
        if (room == 0 && !token->maps && (waits(call) || call->done > 0)) {
            return waits(call) ? 0 : (int32_t)call->done;
        }
        int32_t taken = device_write(&holder->device, (uint32_t)token->play, call->bytes + call->done, left);
        if (taken < 0) {
            return call->done ? (int32_t)call->done : refused(taken);
        }
        token->has_sound = true;
        call->done += (size_t)taken;
    }
    return (int32_t)call->done;
}

/* What a write or a read is answered that a descriptor wasn't opened for: as by a system, and step by step as by the rules. */
static int wrong_way(const struct holder *holder, const struct token *token) {
    return token->kind == KIND_DSP && holder->pace != PACE_STEP ? -EBADF : -EINVAL;
}

static bool serve_write(struct holder *holder, struct token *token, struct call *call) {
    if (token->kind == KIND_STEP) {
        call->bytes[call->head.length < WIRE_MOST ? call->head.length : WIRE_MOST - 1] = 0;
        token_step(holder, (const char *)call->bytes);
        return answered(call, (int32_t)call->head.length);
    }
    if (token->play < 0) {
        return answered(call, wrong_way(holder, token));
    }
    if (call->head.length == 0) {
        return answered(call, refused(device_write(&holder->device, (uint32_t)token->play, call->bytes, 0)));
    }
    if (is_refused_again(holder, token, call, ASKED_WRITE)) {
        return false;
    }
    int32_t answer = written(holder, token, call);
    token->asked[ASKED_WRITE] = answer == -EAGAIN ? holder->device.changes : UINT64_MAX;
    return answer != 0 && answered(call, answer);
}

/* How many bytes a read takes at once, so that one that waits gets whole pieces. */
static uint64_t piece_of(struct holder *holder, int rec, uint64_t left) {
    struct dsp_answer is = device_ask(&holder->device, (uint32_t)rec, DSP_GETISPACE);
    uint64_t half = is.second * is.third / 2, most = half < LINE_MOST ? half : LINE_MOST;
    return left < most ? left : most;
}

/* Reads what is there, and where the call waits whole pieces alone. Answers whether it is done. */
static bool serve_read(struct holder *holder, struct token *token, struct call *call) {
    int rec = token_rec(holder, token);
    uint64_t wanted = call->head.number < WIRE_MOST ? call->head.number : WIRE_MOST;
    if (rec < 0) {
        return answered(call, wrong_way(holder, token));
    }
    token_start_recording(holder, token);
    if (is_refused_again(holder, token, call, ASKED_READ)) {
        return false;
    }
    if (wanted == 0) {
        return answered(call, refused(device_read(&holder->device, (uint32_t)rec, call->bytes, 0)));
    }
    while (call->done < wanted) {
        uint64_t there = device_ask(&holder->device, (uint32_t)rec, DSP_GETISPACE).fourth, piece = piece_of(holder, rec, wanted - call->done);
        if (there < piece && waits(call)) {
            return false;
        }
        int32_t got = there || !call->done ? device_read(&holder->device, (uint32_t)rec, call->bytes + call->done, piece) : 0;
        if (got <= 0) {
            token->asked[ASKED_READ] = got == DSP_AGAIN ? holder->device.changes : UINT64_MAX;
            call_answer(call, call->done || got == 0 ? (int32_t)call->done : refused(got), call->bytes, (uint32_t)call->done);
            return true;
        }
        call->done += (size_t)got;
    }
    call_answer(call, (int32_t)call->done, call->bytes, (uint32_t)call->done);
    return true;
}

/* ---- requests ---- */

/* The place of a question that is asked again and again by a program that waits, or -1. */
static int question_of(uint32_t request) {
    static const uint32_t questions[] = {DSP_OSS_LINUX_GETOSPACE, DSP_OSS_LINUX_GETISPACE, DSP_OSS_LINUX_GETOPTR, DSP_OSS_LINUX_GETIPTR,
                                              DSP_OSS_LINUX_GETODELAY};
    for (int k = 0; k < (int)(sizeof questions / sizeof questions[0]); k += 1) {
        if (questions[k] == request) {
            return k;
        }
    }
    return -1;
}


static int request_of(struct holder *holder, struct token *token, struct call *call) {
    uint32_t request = (uint32_t)call->head.number;
    void *argument = call->head.flags & WIRE_HAS_ARGUMENT ? call->bytes : NULL;
    if (is_mixer_request(request)) {
        return mixer_request(holder, request, argument, call->head.length);
    }
    if (token->kind == KIND_MIXER && request == DSP_OSS_LINUX_GETVERSION && argument) {
        const uint32_t version = DSP_OSS_VERSION;
        memcpy(argument, &version, sizeof version);
        return 0;
    }
    return token->kind == KIND_DSP ? oss_request(holder, token, request, argument, call->head.length) : -EINVAL;
}

static bool serve_ioctl(struct holder *holder, struct token *token, struct call *call) {
    uint32_t request = (uint32_t)call->head.number;
    if (!call->is_begun) {
        if (waits_for_change(holder, token, question_of(request))) {
            return false;
        }
        call->is_begun = true;
        call->until = (uint64_t)(int64_t)request_of(holder, token, call);
    }
    if (request == DSP_OSS_LINUX_SYNC && waits(call) && token_drains(holder, token)) {
        return false;
    }
    if (question_of(request) >= 0) {
        token->asked[question_of(request)] = holder->device.changes;
    }
    call_answer(call, (int32_t)(int64_t)call->until, call->bytes, call->head.flags & WIRE_HAS_ARGUMENT ? call->head.length : 0);
    return true;
}

/* ---- mapped memory ---- */

/* Answers with a descriptor of memory. */
static bool serve_map(struct holder *holder, struct token *token, struct call *call) {
    int answer = token_map(holder, token, call->head.number);
    if (answer < 0) {
        return answered(call, answer);
    }
    struct wire_answer head = {0, 0};
    union {
        struct cmsghdr head;
        char bytes[CMSG_SPACE(sizeof(int))];
    } room = {.head = {.cmsg_len = CMSG_LEN(sizeof(int)), .cmsg_level = SOL_SOCKET, .cmsg_type = SCM_RIGHTS}};
    struct iovec part = {&head, sizeof head};
    struct msghdr message = {.msg_iov = &part, .msg_iovlen = 1, .msg_control = &room, .msg_controllen = sizeof room.bytes};
    memcpy(CMSG_DATA(&room.head), &token->memory, sizeof(int));
    sendmsg(call->fd, &message, MSG_NOSIGNAL);
    return true;
}

/* ---- waits ---- */

static bool serve_poll(struct holder *holder, struct call *call) {
    struct wire_polled *polled = (struct wire_polled *)(void *)call->bytes;
    int32_t ready = 0;
    for (size_t k = 0; k < call->head.length / sizeof *polled; k += 1) {
        struct token *token = token_of(holder, polled[k].token);
        if (!token) {
            polled[k].revents = POLLNVAL;
            ready += 1;
        } else {
            uint32_t never = token_is_clear(holder, token) ? 0 : POLLOUT | POLLWRNORM;
            token->thread = call->head.thread;
            ready += token_is_ready(holder, token, polled[k].events & ~never, &polled[k].revents);
        }
    }
    if (ready || !waits(call)) {
        call_answer(call, ready, call->bytes, call->head.length);
        return true;
    }
    return false;
}

/* A call after the last close waits until all is played. A copy that is left waits for nothing. */
static bool serve_closed(struct holder *holder, struct call *call) {
    struct token *token = token_of(holder, call->head.token);
    if (token && token_is_clear(holder, token) && !token->is_hung) {
        return answered(call, 0);
    }
    if (token && (!token->is_hung || token->native_size)) {
        return false;
    }
    if (token) {
        token_close(holder, token);
    }
    bool is_played = holder->pace == PACE_STEP || holder->device.frames >= holder->tail;
    return (!waits(call) || is_played) && answered(call, 0);
}

static bool serve_sleep(struct holder *holder, struct call *call) {
    if (!call->is_begun) {
        call->is_begun = true;
        call->until = holder->device.frames + call->head.number * holder->device.settings.rate / MILLION;
    }
    return holder->device.frames >= call->until && answered(call, 0);
}

static bool someone_has_it(const struct holder *holder) {
    for (const struct token *it = holder->tokens; it < holder->tokens + TOKENS; it += 1) {
        if (it->used && it->kind == KIND_DSP) {
            return true;
        }
    }
    return false;
}

/* Where nobody has the device, an open waits until what was closed is played. The connection is kept where it is one. */
static bool serve_open(struct holder *holder, struct call *call) {
    if (call->head.kind == KIND_DSP && holder->pace != PACE_STEP && holder->device.frames < holder->tail && !someone_has_it(holder)) {
        return false;
    }
    int answer = token_open(holder, call);
    call_answer(call, answer, NULL, 0);
    if (answer == 0) {
        call->fd = -1;
    }
    return true;
}

/* ---- all of them ---- */

void call_end(struct call *call) {
    bool has_bytes = call->head.op == WIRE_READ;
    call_answer(call, call->done ? (int32_t)call->done : -EINTR, call->bytes, has_bytes ? (uint32_t)call->done : 0);
}

static bool serve_of_token(struct holder *holder, struct token *token, struct call *call) {
    token->thread = call->head.thread;
    switch (call->head.op) {
    case WIRE_WRITE:
        return serve_write(holder, token, call);
    case WIRE_READ:
        return serve_read(holder, token, call);
    case WIRE_IOCTL:
        return serve_ioctl(holder, token, call);
    default:
        return serve_map(holder, token, call);
    }
}

bool call_serve(struct holder *holder, struct call *call) {
    switch (call->head.op) {
    case WIRE_OPEN:
        return serve_open(holder, call);
    case WIRE_POLL:
        return serve_poll(holder, call);
    case WIRE_CLOSED:
        return serve_closed(holder, call);
    case WIRE_SLEEP:
        return serve_sleep(holder, call);
    default:
        break;
    }
    struct token *token = token_of(holder, call->head.token);
    if (!token || call->head.op > WIRE_SLEEP) {
        return answered(call, -EBADF);
    }
    return token_is_clear(holder, token) && serve_of_token(holder, token, call);
}
