/* Descriptors: how they are opened, mapped and closed, and what of the engine they stand for. */
#define _GNU_SOURCE
#include "holder.h"

#include <errno.h>
#include <fcntl.h>
#include <poll.h>
#include <stdlib.h>
#include <string.h>
#include <sys/mman.h>
#include <sys/socket.h>
#include <unistd.h>

enum { DESCRIPTORS = 64, LINE_MOST = 4096, GAP = 16, RATE = 8000 };

struct token *token_of(struct holder *holder, uint64_t ino) {
    for (struct token *it = holder->tokens; it < holder->tokens + TOKENS; it += 1) {
        if (it->used && it->ino == ino) {
            return it;
        }
    }
    return NULL;
}

/* The least descriptor of the engine that is free. */
static uint32_t free_descriptor(const struct holder *holder) {
    uint64_t taken = 0;
    for (const struct token *it = holder->tokens; it < holder->tokens + TOKENS; it += 1) {
        taken |= it->used && it->play >= 0 ? 1ull << it->play : 0;
        taken |= it->used && it->rec >= 0 ? 1ull << it->rec : 0;
    }
    uint32_t d = 0;
    while (d < DESCRIPTORS - 1 && taken >> d & 1) {
        d += 1;
    }
    return d;
}

static int refused(int32_t answer) {
    return answer < 0 ? -dsp_engine_errno(answer) : 0;
}

/* The files are made as a device is opened, and stay as they were where none is. */
static int begin_files(struct holder *holder) {
    struct device *device = &holder->device;
    if (holder->was_opened) {
        return 0;
    }
    holder->was_opened = true;
    if (holder->wave_path) {
        device->wave = strcmp(holder->wave_path, "-") == 0 ? fdopen(dup(STDOUT_FILENO), "w") : fopen(holder->wave_path, "we");
    }
    device->kept = holder->kept_path ? fopen(holder->kept_path, "we") : NULL;
    if (!journal_begin(&device->journal) || (holder->wave_path && !device->wave) || (holder->kept_path && !device->kept)) {
        holder->has_failed = true;
    }
    return 0;
}

/* Opens the ways of flags of open: both are one that plays, and that may record. */
static int open_ways(struct holder *holder, struct token *token, int flags) {
    const bool records = (flags & O_ACCMODE) == O_RDONLY;
    uint32_t d = free_descriptor(holder);
    int32_t answer = device_open(&holder->device, d, records ? DSP_RECORD : DSP_PLAY, DSP_U8, 1, RATE);
    if (answer >= 0 && records) {
        token->rec = (int)d;
    } else if (answer >= 0) {
        token->play = (int)d;
    }
    token->may_record = (flags & O_ACCMODE) == O_RDWR;
    return refused(answer);
}

int token_open(struct holder *holder, struct call *call) {
    struct token *token = holder->tokens;
    while (token < holder->tokens + TOKENS && token->used) {
        token += 1;
    }
    if (token == holder->tokens + TOKENS) {
        return -EMFILE;
    }
    *token = (struct token){.kind = (enum wire_kind)call->head.kind, .fd = call->fd, .ino = call->head.token, .play = -1, .rec = -1, .memory = -1,
                            .thread = call->head.thread};
    memset(token->asked, 0xff, sizeof token->asked);
    int answer = token->kind == KIND_STEP ? 0 : begin_files(holder);
    if (answer == 0 && token->kind == KIND_DSP) {
        answer = open_ways(holder, token, (int)call->head.number);
    }
    token->used = answer == 0;
    return answer;
}

/* ---- what came by no call ---- */

void token_step(struct holder *holder, const char *text) {
    long frames = strtol(text, NULL, 10);
    if (frames >= 1 && frames <= (long)holder->device.settings.ring_frames) {
        interrupt(holder, (uint32_t)frames);
    }
}

/* Takes bytes out of the connection, where all of those before went on. */
static void receive(struct token *token) {
    if (token->native_size == 0 && !token->is_hung) {
        ssize_t got = recv(token->fd, token->native, NATIVE - 1, MSG_DONTWAIT);
        token->is_hung = got == 0 || (got < 0 && errno != EAGAIN && errno != EINTR);
        token->native_size = got > 0 ? (uint32_t)got : 0;
        token->native_at = 0;
    }
}

bool token_is_clear(struct holder *holder, struct token *token) {
    for (receive(token); token->native_size > 0; receive(token)) {
        if (token->kind == KIND_STEP) {
            token->native[token->native_size] = 0;
            token_step(holder, (const char *)token->native);
            token->native_size = 0;
        } else if (token->play < 0 || token->maps) {
            token->native_size = 0;
        } else {
            uint64_t room = device_ask(&holder->device, (uint32_t)token->play, DSP_GETOSPACE).fourth, left = token->native_size - token->native_at;
            if (room == 0 || token_drains(holder, token)) {
                return false;
            }
            int32_t taken = device_write(&holder->device, (uint32_t)token->play, token->native + token->native_at, left < room ? left : room);
            token->has_sound = true;
            token->native_at += taken > 0 ? (uint32_t)taken : (uint32_t)left;
            token->native_size = token->native_at == token->native_size ? 0 : token->native_size;
        }
    }
    return true;
}

/* ---- what a channel has ---- */

static uint32_t told(struct holder *holder, int d, enum dsp_request request) {
    return (uint32_t)device_ask(&holder->device, (uint32_t)d, request).first;
}

static uint32_t frame_of(struct holder *holder, int d) {
    return told(holder, d, DSP_CHANNELS) * width_of(told(holder, d, DSP_SETFMT));
}

uint64_t token_waiting(struct holder *holder, const struct token *token) {
    struct dsp_answer space = device_ask(&holder->device, (uint32_t)token->play, DSP_GETOSPACE);
    return space.second * space.third - space.fourth;
}

uint64_t token_lasts(struct holder *holder, const struct token *token, uint64_t bytes) {
    int d = token->play >= 0 ? token->play : token->rec;
    uint64_t rate = told(holder, d, DSP_SPEED), frames = bytes / frame_of(holder, d);
    if (rate == holder->device.settings.rate) {
        return frames;
    }
    return frames > 1 ? (frames - 1) * holder->device.settings.rate / rate : 0;
}

/* The delay of a channel that has started includes the device's ring. */
bool token_plays(struct holder *holder, const struct token *token) {
    return token->play >= 0 && !token->maps &&
           device_ask(&holder->device, (uint32_t)token->play, DSP_GETODELAY).first > token_waiting(holder, token);
}

bool token_drains(struct holder *holder, struct token *token) {
    if (token->drains && device_ask(&holder->device, (uint32_t)token->play, DSP_GETODELAY).first == 0) {
        token->drains = token->has_sound = false;
    }
    return token->drains;
}

bool token_moves(struct holder *holder, struct token *token) {
    return token->maps || token_drains(holder, token) || token->is_recording || token_plays(holder, token);
}

/* ---- recordings ---- */

int token_rec(struct holder *holder, struct token *token) {
    if (token->rec >= 0 || !token->may_record || token->maps) {
        return token->rec;
    }
    uint32_t d = free_descriptor(holder);
    if (device_open(&holder->device, d, DSP_RECORD, told(holder, token->play, DSP_SETFMT), told(holder, token->play, DSP_CHANNELS),
                    told(holder, token->play, DSP_SPEED)) >= 0) {
        token->rec = (int)d;
    }
    return token->rec;
}

/* A post starts a recording whose trigger is on, and changes nothing of one that runs. Step by step none starts by itself. */
void token_start_recording(struct holder *holder, struct token *token) {
    if (holder->pace != PACE_STEP && token->rec >= 0 && !token->is_recording && told(holder, token->rec, DSP_GETTRIGGER)) {
        token->is_recording = device_ioctl(&holder->device.engine, (uint32_t)token->rec, DSP_POST, 0, NULL) == 0;
    }
}

/* ---- mapped areas ---- */

/* The bytes of silence: an area's samples begin at its begin. */
static void put_silence(struct holder *holder, const struct token *token, uint8_t *bytes, uint32_t length) {
    uint32_t format = told(holder, token->play, DSP_SETFMT), width = width_of(format);
    bool first = format == DSP_U8 || format == DSP_U16_BE || format == DSP_U24_BE || format == DSP_U32_BE;
    bool last = format == DSP_U16_LE || format == DSP_U24_LE || format == DSP_U32_LE;
    for (uint32_t at = 0; at < length; at += 1) {
        bytes[at] = (first && at % width == 0) || (last && at % width == width - 1) ? 0x80 : 0;
    }
}

void token_is_silent(struct holder *holder, struct token *token) {
    put_silence(holder, token, token->area, AREA_MOST);
    memcpy(token->poked, token->area, AREA_MOST);
}

/* The number that asks for the fragments of a ring. */
static uint32_t fragments_of(uint32_t count, uint32_t size) {
    uint32_t power = 0;
    while (size >> power > 1) {
        power += 1;
    }
    return count << 16 | power;
}

/* Opens a mapped channel that has what another was set to. Answers its descriptor of the engine, or minus an errno. */
static int open_mapped(struct holder *holder, const struct token *token) {
    struct dsp_engine *engine = &holder->device.engine;
    struct dsp_answer space = device_ask(&holder->device, (uint32_t)token->play, DSP_GETOSPACE);
    uint32_t d = free_descriptor(holder), volume = told(holder, token->play, DSP_GETPLAYVOL);
    int32_t answer = device_open(&holder->device, d, DSP_MAP, told(holder, token->play, DSP_SETFMT), told(holder, token->play, DSP_CHANNELS),
                                 told(holder, token->play, DSP_SPEED));
    if (answer < 0) {
        return refused(answer);
    }
    device_ioctl(engine, d, DSP_SETFRAGMENT, fragments_of((uint32_t)space.second, (uint32_t)space.third), NULL);
    if (volume != told(holder, (int)d, DSP_GETPLAYVOL)) {
        device_ioctl(engine, d, DSP_SETPLAYVOL, volume, NULL);
    }
    if (!told(holder, token->play, DSP_GETTRIGGER)) {
        device_ioctl(engine, d, DSP_SETTRIGGER, 0, NULL);
    }
    return (int)d;
}

/* Memory that the program and the holder share. */
static bool has_memory(struct token *token) {
    token->memory = memfd_create("dsp", MFD_CLOEXEC);
    token->poked = malloc(AREA_MOST);
    if (token->memory < 0 || !token->poked || ftruncate(token->memory, AREA_MOST) != 0) {
        return false;
    }
    token->area = mmap(NULL, AREA_MOST, PROT_READ | PROT_WRITE, MAP_SHARED, token->memory, 0);
    return token->area != MAP_FAILED;
}

int token_map(struct holder *holder, struct token *token, uint64_t length) {
    if (token->play < 0 || token->has_sound || length > AREA_MOST) {
        return -EINVAL;
    }
    if (token->maps) {
        return 0;
    }
    struct dsp_answer space = device_ask(&holder->device, (uint32_t)token->play, DSP_GETOSPACE);
    int d = open_mapped(holder, token);
    if (d < 0) {
        return d;
    }
    device_close(&holder->device, (uint32_t)token->play);
    token->play = d;
    token->maps = true;
    token->fragments = fragments_of((uint32_t)space.second, (uint32_t)space.third);
    token->ring = (uint32_t)(space.second * space.third);
    if (!has_memory(token)) {
        return -ENOMEM;
    }
    token_is_silent(holder, token);
    return 0;
}

/* Where a poke that begins at a place ends: after the last byte that differs, with no more than a few equal ones between. */
static uint32_t poke_end(const struct token *token, uint32_t at) {
    uint32_t end = at + 1, most = token->ring - at < LINE_MOST ? token->ring : at + LINE_MOST;
    for (uint32_t next = end; next < most && next - end < GAP; next += 1) {
        if (token->area[next] != token->poked[next]) {
            end = next + 1;
        }
    }
    return end;
}

void token_poke(struct holder *holder, struct token *token) {
    if (!token->maps || memcmp(token->area, token->poked, token->ring) == 0) {
        return;
    }
    for (uint32_t at = 0; at < token->ring; at += 1) {
        if (token->area[at] != token->poked[at]) {
            uint32_t end = poke_end(token, at);
            memcpy(token->poked + at, token->area + at, end - at);
            device_poke(&holder->device, (uint32_t)token->play, at, token->poked + at, end - at);
            at = end - 1;
        }
    }
}

/* ---- the end of a descriptor ---- */

/* What is still to be played of a descriptor: what waits, and the device's ring after it. */
static uint64_t rest_of(struct holder *holder, const struct token *token) {
    const struct device *device = &holder->device;
    if (token->play < 0 || (!token->maps && !token->has_sound)) {
        return 0;
    }
    uint64_t waiting = token->maps ? 0 : token_waiting(holder, token), rate = told(holder, token->play, DSP_SPEED);
    return device->settings.ring_frames + waiting / frame_of(holder, token->play) * device->settings.rate / rate + 2;
}

static void forget_memory(struct token *token) {
    if (token->area && token->area != MAP_FAILED) {
        munmap(token->area, AREA_MOST);
    }
    if (token->memory >= 0) {
        close(token->memory);
    }
    free(token->poked);
}

void token_close(struct holder *holder, struct token *token) {
    struct device *device = &holder->device;
    if (token->play >= 0) {
        token_poke(holder, token);
        uint64_t until = device->frames + rest_of(holder, token);
        holder->tail = until > device->frames && until > holder->tail ? until : holder->tail;
        device_close(device, (uint32_t)token->play);
    }
    if (token->rec >= 0) {
        device_close(device, (uint32_t)token->rec);
    }
    forget_memory(token);
    close(token->fd);
    token->used = false;
}

/* ---- what may be done now ---- */

/* A mapped one is ready each time that a fragment was taken. */
static bool is_mapped_ready(struct holder *holder, struct token *token) {
    struct device *device = &holder->device;
    uint64_t fragment = told(holder, token->play, DSP_GETBLKSIZE) / frame_of(holder, token->play);
    bool is_ready = (device->frames - token->ready_at) * told(holder, token->play, DSP_SPEED) >= fragment * device->settings.rate;
    token->ready_at = is_ready ? device->frames : token->ready_at;
    return is_ready;
}

/* Whether a write of a byte would be taken. */
static bool is_writable(struct holder *holder, struct token *token) {
    if (token->play < 0 || token_drains(holder, token)) {
        return false;
    }
    return token->maps ? is_mapped_ready(holder, token) : device_ask(&holder->device, (uint32_t)token->play, DSP_GETOSPACE).fourth > 0;
}

bool token_is_ready(struct holder *holder, struct token *token, uint32_t events, uint32_t *revents) {
    struct device *device = &holder->device;
    *revents = 0;
    if (token->kind != KIND_DSP) {
        *revents = events & POLLOUT;
        return *revents;
    }
    int rec = events & (POLLIN | POLLRDNORM) ? token_rec(holder, token) : -1;
    if (rec >= 0) {
        token_start_recording(holder, token);
    }
    if (rec >= 0 && device_ask(device, (uint32_t)rec, DSP_GETISPACE).fourth > 0) {
        *revents |= events & (POLLIN | POLLRDNORM);
    }
    if (events & (POLLOUT | POLLWRNORM) && is_writable(holder, token)) {
        *revents |= events & (POLLOUT | POLLWRNORM);
    }
    return *revents;
}
