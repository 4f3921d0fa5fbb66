/*
 * The requests of OSS on an engine: a table of their numbers, and of each what it asks the engine. dsp_oss.h says what a caller gets.
 */
#include "dsp_oss.h"

#include <errno.h>
#include <string.h>

enum { DESCRIPTORS = 64, RATE_LEAST = 4000, RATE_MOST = 192000, VOLUME_MOST = 100, ENABLE_INPUT = 1, ENABLE_OUTPUT = 2 };

struct call;

/* What a request does. */
struct row {
    uint32_t on_linux;
    uint32_t on_freebsd;
    int (*serve)(const struct call *call);
    enum dsp_request asks;                /* what serve asks the engine, if it asks by this table */
    bool takes;                           /* whether the number of the argument goes with it */
    size_t told;                          /* how many numbers of the answer go into the argument */
    uint32_t (*near_to)(uint32_t number); /* what a number is moved to that is refused, or null */
};

/* A request that is made. */
struct call {
    struct dsp_engine *engine;
    uint32_t fd;
    const struct row *row;
    void *argument;
    bool moves;
};

/* What ioctl answers where the engine answers so. */
static int answer_of(int32_t number) {
    switch (number) {
        case DSP_BUSY:
            return -EBUSY;
        case DSP_BAD_DESCRIPTOR:
            return -EBADF;
        default:
            return number < 0 ? -EINVAL : 0;
    }
}

static int ask(const struct call *call, enum dsp_request request, uint32_t argument, struct dsp_answer *answer) {
    return answer_of(dsp_engine_ioctl(call->engine, call->fd, request, argument, answer));
}

/* Answers so of a descriptor that is open. The request that is made for it changes nothing. */
static int if_open(const struct call *call, int answer) {
    int refused = ask(call, DSP_GETFMTS, 0, NULL);
    return refused != 0 ? refused : answer;
}

/* ---- arguments ---- */

static uint32_t number_in(const void *argument) {
    uint32_t number;
    memcpy(&number, argument, sizeof number);
    return number;
}

static void put_number(void *argument, uint32_t number) {
    memcpy(argument, &number, sizeof number);
}

/* How many bytes an argument has: both systems say it in the same bits of a request's number. */
static size_t size_of(const struct row *row) {
    return row->on_linux >> 16 & 0x1fff;
}

/* Fills the argument with what the engine answered, one int after another, and with zeros after that. */
static void put_told(const struct call *call, const struct dsp_answer *answer) {
    const uint32_t numbers[] = {(uint32_t)answer->first, (uint32_t)answer->second, (uint32_t)answer->third, (uint32_t)answer->fourth};
    if (call->row->told != 0) {
        memset(call->argument, 0, size_of(call->row));
        memcpy(call->argument, numbers, call->row->told * sizeof numbers[0]);
    }
}

/* ---- numbers that are moved ---- */

static bool is_negative(uint32_t number) {
    return number > INT32_MAX;
}

static uint32_t near_rate(uint32_t rate) {
    return is_negative(rate) || rate < RATE_LEAST ? RATE_LEAST : RATE_MOST;
}

static uint32_t near_channels(uint32_t channels) {
    static const uint32_t counts[] = {8, 6, 4, 2};
    for (size_t k = 0; k < sizeof counts / sizeof counts[0]; k += 1) {
        if (channels > counts[k] && !is_negative(channels)) {
            return counts[k];
        }
    }
    return 1;
}

/* 0 asks for the format that is set. */
static uint32_t near_format(uint32_t format) {
    (void)format;
    return 0;
}

static uint32_t near_side(uint32_t side) {
    return side > VOLUME_MOST ? VOLUME_MOST : side;
}

static uint32_t near_volume(uint32_t volume) {
    return near_side(volume & 0xff) | near_side(volume >> 8 & 0xff) << 8;
}

static uint32_t near_trigger(uint32_t trigger) {
    return trigger & (ENABLE_INPUT | ENABLE_OUTPUT);
}

/* ---- what requests do ---- */

/* Asks the engine what the table says. */
static int asked(const struct call *call) {
    const struct row *row = call->row;
    struct dsp_answer answer = {0, 0, 0, 0};
    uint32_t number = row->takes ? number_in(call->argument) : 0;
    int answered = ask(call, row->asks, number, &answer);
    if (answered == -EINVAL && call->moves && row->near_to != NULL) {
        answered = ask(call, row->asks, row->near_to(number), &answer);
    }
    if (answered == 0) {
        put_told(call, &answer);
    }
    return answered;
}

static int version(const struct call *call) {
    int answered = if_open(call, 0);
    if (answered == 0) {
        put_number(call->argument, DSP_OSS_VERSION);
    }
    return answered;
}

static int stereo(const struct call *call) {
    struct dsp_answer answer = {0, 0, 0, 0};
    uint32_t number = number_in(call->argument);
    int answered;
    if (number > 1 && !call->moves) {
        return if_open(call, -EINVAL);
    }
    answered = ask(call, DSP_CHANNELS, number == 0 ? 1 : 2, &answer);
    if (answered == 0) {
        put_number(call->argument, answer.first > 1);
    }
    return answered;
}

/* How many bits a sample of a format has. */
static uint32_t bits_of(uint64_t format) {
    if (format & (DSP_U8 | DSP_S8)) {
        return 8;
    }
    if (format & (DSP_S16_LE | DSP_S16_BE | DSP_U16_LE | DSP_U16_BE)) {
        return 16;
    }
    return format & (DSP_S24_LE | DSP_S24_BE | DSP_U24_LE | DSP_U24_BE) ? 24 : 32;
}

static int bits(const struct call *call) {
    struct dsp_answer answer = {0, 0, 0, 0};
    int answered = ask(call, DSP_SETFMT, 0, &answer);
    if (answered == 0) {
        put_number(call->argument, bits_of(answer.first));
    }
    return answered;
}

/* The way that a descriptor has. Only a recording answers what waits for a read. */
static uint32_t mode_of(const struct call *call) {
    return ask(call, DSP_GETISPACE, 0, NULL) == 0 ? ENABLE_INPUT : ENABLE_OUTPUT;
}

static int join(const struct call *call) {
    struct dsp_answer answer = {0, 0, 0, 0};
    uint32_t mode = number_in((const char *)call->argument + offsetof(struct dsp_oss_group, mode));
    int answered;
    if (mode != mode_of(call)) {
        return if_open(call, -EINVAL);
    }
    answered = answer_of(dsp_engine_join(call->engine, call->fd, number_in(call->argument), &answer));
    if (answered == 0) {
        put_number(call->argument, (uint32_t)answer.first);
    }
    return answered;
}

static int start(const struct call *call) {
    return answer_of(dsp_engine_start(call->engine, call->fd, number_in(call->argument)));
}

/* ---- the table ---- */

static const struct row rows[] = {
    {DSP_OSS_LINUX_RESET, DSP_OSS_FREEBSD_RESET, asked, DSP_HALT, false, 0, NULL},
    {DSP_OSS_LINUX_SYNC, DSP_OSS_FREEBSD_SYNC, asked, DSP_SYNC, false, 0, NULL},
    {DSP_OSS_LINUX_SPEED, DSP_OSS_FREEBSD_SPEED, asked, DSP_SPEED, true, 1, near_rate},
    {DSP_OSS_LINUX_STEREO, DSP_OSS_FREEBSD_STEREO, stereo, DSP_CHANNELS, true, 1, NULL},
    {DSP_OSS_LINUX_GETBLKSIZE, DSP_OSS_FREEBSD_GETBLKSIZE, asked, DSP_GETBLKSIZE, false, 1, NULL},
    {DSP_OSS_LINUX_SETFMT, DSP_OSS_FREEBSD_SETFMT, asked, DSP_SETFMT, true, 1, near_format},
    {DSP_OSS_LINUX_CHANNELS, DSP_OSS_FREEBSD_CHANNELS, asked, DSP_CHANNELS, true, 1, near_channels},
    {DSP_OSS_LINUX_POST, DSP_OSS_FREEBSD_POST, asked, DSP_POST, false, 0, NULL},
    {DSP_OSS_LINUX_SETFRAGMENT, DSP_OSS_FREEBSD_SETFRAGMENT, asked, DSP_SETFRAGMENT, true, 1, NULL},
    {DSP_OSS_LINUX_GETFMTS, DSP_OSS_FREEBSD_GETFMTS, asked, DSP_GETFMTS, false, 1, NULL},
    {DSP_OSS_LINUX_GETOSPACE, DSP_OSS_FREEBSD_GETOSPACE, asked, DSP_GETOSPACE, false, 4, NULL},
    {DSP_OSS_LINUX_GETISPACE, DSP_OSS_FREEBSD_GETISPACE, asked, DSP_GETISPACE, false, 4, NULL},
    {DSP_OSS_LINUX_NONBLOCK, DSP_OSS_FREEBSD_NONBLOCK, asked, DSP_GETFMTS, false, 0, NULL},
    {DSP_OSS_LINUX_GETCAPS, DSP_OSS_FREEBSD_GETCAPS, asked, DSP_GETCAPS, false, 1, NULL},
    {DSP_OSS_LINUX_GETTRIGGER, DSP_OSS_FREEBSD_GETTRIGGER, asked, DSP_GETTRIGGER, false, 1, NULL},
    {DSP_OSS_LINUX_SETTRIGGER, DSP_OSS_FREEBSD_SETTRIGGER, asked, DSP_SETTRIGGER, true, 0, near_trigger},
    {DSP_OSS_LINUX_GETIPTR, DSP_OSS_FREEBSD_GETIPTR, asked, DSP_GETIPTR, false, 3, NULL},
    {DSP_OSS_LINUX_GETOPTR, DSP_OSS_FREEBSD_GETOPTR, asked, DSP_GETOPTR, false, 3, NULL},
    {DSP_OSS_LINUX_SETDUPLEX, DSP_OSS_FREEBSD_SETDUPLEX, asked, DSP_GETFMTS, false, 0, NULL},
    {DSP_OSS_LINUX_GETODELAY, DSP_OSS_FREEBSD_GETODELAY, asked, DSP_GETODELAY, false, 1, NULL},
    {DSP_OSS_LINUX_GETPLAYVOL, DSP_OSS_FREEBSD_GETPLAYVOL, asked, DSP_GETPLAYVOL, false, 1, NULL},
    {DSP_OSS_LINUX_SETPLAYVOL, DSP_OSS_FREEBSD_SETPLAYVOL, asked, DSP_SETPLAYVOL, true, 1, near_volume},
    {DSP_OSS_LINUX_GETERROR, DSP_OSS_FREEBSD_GETERROR, asked, DSP_GETERROR, false, 2, NULL},
    {DSP_OSS_LINUX_GETERROR_LONG, DSP_OSS_FREEBSD_GETERROR_LONG, asked, DSP_GETERROR, false, 2, NULL},
    {DSP_OSS_LINUX_SYNCGROUP, DSP_OSS_FREEBSD_SYNCGROUP, join, DSP_GETISPACE, true, 1, NULL},
    {DSP_OSS_LINUX_SYNCSTART, DSP_OSS_FREEBSD_SYNCSTART, start, DSP_GETFMTS, true, 0, NULL},
    {DSP_OSS_LINUX_READ_RATE, DSP_OSS_FREEBSD_READ_RATE, asked, DSP_SPEED, false, 1, NULL},
    {DSP_OSS_LINUX_READ_BITS, DSP_OSS_FREEBSD_READ_BITS, bits, DSP_SETFMT, false, 1, NULL},
    {DSP_OSS_LINUX_READ_CHANNELS, DSP_OSS_FREEBSD_READ_CHANNELS, asked, DSP_CHANNELS, false, 1, NULL},
    {DSP_OSS_LINUX_GETVERSION, DSP_OSS_FREEBSD_GETVERSION, version, DSP_GETFMTS, false, 1, NULL},
};

/* What the request of a number does, or null. */
static const struct row *row_of(uint32_t request, bool is_freebsd) {
    for (size_t k = 0; k < sizeof rows / sizeof rows[0]; k += 1) {
        if (request == (is_freebsd ? rows[k].on_freebsd : rows[k].on_linux)) {
            return &rows[k];
        }
    }
    return NULL;
}

int dsp_oss_ioctl(struct dsp_engine *engine, uint32_t fd, unsigned long request, void *argument, unsigned flags) {
    const struct call call = {
        engine, fd, row_of((uint32_t)(request & 0xffffffff), (flags & DSP_OSS_FREEBSD) != 0), argument, (flags & DSP_OSS_NEAR) != 0,
    };
    if (engine == NULL) {
        return -EFAULT;
    }
    if ((flags & ~(DSP_OSS_NEAR | DSP_OSS_FREEBSD)) != 0) {
        return -EINVAL;
    }
    if (fd >= DESCRIPTORS) {
        return -EBADF;
    }
    if (call.row == NULL) {
        return if_open(&call, -EINVAL);
    }
    if (argument == NULL && size_of(call.row) != 0) {
        return if_open(&call, -EFAULT);
    }
    return call.row->serve(&call);
}
