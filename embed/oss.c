/*
 * What dsp_oss_ioctl answers to the requests of <sys/soundcard.h>, with the numbers that docs/SCRIPTS.md gives their likes, and to those that it
 * refuses. It needs that header as Linux has it. scripts/embed runs it.
 */
#include <errno.h>
#include <stdio.h>
#include <string.h>
#include <sys/soundcard.h>

#include "dsp_oss.h"

#define COUNT(rows) (sizeof(rows) / sizeof (rows)[0])
#define IS(call, expected) check(#call, (long)(call), (long)(expected))

static int wrong = 0;

static void check(const char *call, long got, long expected) {
    if (got != expected) {
        printf("%s is %ld, and not %ld\n", call, got, expected);
        wrong += 1;
    }
}

/* Whether a struct of ints begins with these. */
static void check_fields(const char *name, const void *got, const int *expected, size_t count) {
    if (memcmp(got, expected, count * sizeof expected[0]) != 0) {
        printf("%s has other fields\n", name);
        wrong += 1;
    }
}

/* s16le, two channels, 48000 Hz, a ring of 16 frames; one client plays, one records, one is mapped. */
static const struct dsp_device device = {DSP_S16_LE, 2, 48000, 0, 0, 16, 1, 1, 1, 1};

enum { PLAYER = 0, RECORDER = 2, MAPPED = 3, CLOSED = 9 };

/* ---- numbers ---- */

static const struct {
    unsigned long of_header;
    uint32_t on_linux, on_freebsd;
} numbers[] = {
    {SNDCTL_DSP_RESET, DSP_OSS_LINUX_RESET, DSP_OSS_FREEBSD_RESET},
    {SNDCTL_DSP_SYNC, DSP_OSS_LINUX_SYNC, DSP_OSS_FREEBSD_SYNC},
    {SNDCTL_DSP_SPEED, DSP_OSS_LINUX_SPEED, DSP_OSS_FREEBSD_SPEED},
    {SNDCTL_DSP_STEREO, DSP_OSS_LINUX_STEREO, DSP_OSS_FREEBSD_STEREO},
    {SNDCTL_DSP_SETFMT, DSP_OSS_LINUX_SETFMT, DSP_OSS_FREEBSD_SETFMT},
    {SNDCTL_DSP_CHANNELS, DSP_OSS_LINUX_CHANNELS, DSP_OSS_FREEBSD_CHANNELS},
    {SNDCTL_DSP_POST, DSP_OSS_LINUX_POST, DSP_OSS_FREEBSD_POST},
    {SNDCTL_DSP_SETFRAGMENT, DSP_OSS_LINUX_SETFRAGMENT, DSP_OSS_FREEBSD_SETFRAGMENT},
    {SNDCTL_DSP_GETFMTS, DSP_OSS_LINUX_GETFMTS, DSP_OSS_FREEBSD_GETFMTS},
    {SNDCTL_DSP_GETOSPACE, DSP_OSS_LINUX_GETOSPACE, DSP_OSS_FREEBSD_GETOSPACE},
    {SNDCTL_DSP_GETISPACE, DSP_OSS_LINUX_GETISPACE, DSP_OSS_FREEBSD_GETISPACE},
    {SNDCTL_DSP_NONBLOCK, DSP_OSS_LINUX_NONBLOCK, DSP_OSS_FREEBSD_NONBLOCK},
    {SNDCTL_DSP_GETCAPS, DSP_OSS_LINUX_GETCAPS, DSP_OSS_FREEBSD_GETCAPS},
    {SNDCTL_DSP_GETTRIGGER, DSP_OSS_LINUX_GETTRIGGER, DSP_OSS_FREEBSD_GETTRIGGER},
    {SNDCTL_DSP_SETTRIGGER, DSP_OSS_LINUX_SETTRIGGER, DSP_OSS_FREEBSD_SETTRIGGER},
    {SNDCTL_DSP_GETIPTR, DSP_OSS_LINUX_GETIPTR, DSP_OSS_FREEBSD_GETIPTR},
    {SNDCTL_DSP_GETOPTR, DSP_OSS_LINUX_GETOPTR, DSP_OSS_FREEBSD_GETOPTR},
    {SNDCTL_DSP_SETDUPLEX, DSP_OSS_LINUX_SETDUPLEX, DSP_OSS_FREEBSD_SETDUPLEX},
    {SNDCTL_DSP_GETODELAY, DSP_OSS_LINUX_GETODELAY, DSP_OSS_FREEBSD_GETODELAY},
    {_SIOR('P', 24, int), DSP_OSS_LINUX_GETPLAYVOL, DSP_OSS_FREEBSD_GETPLAYVOL},
    {_SIOWR('P', 24, int), DSP_OSS_LINUX_SETPLAYVOL, DSP_OSS_FREEBSD_SETPLAYVOL},
    {_SIOR('P', 25, struct dsp_oss_errors), DSP_OSS_LINUX_GETERROR, DSP_OSS_FREEBSD_GETERROR},
    {_SIOR('P', 25, char[112]), DSP_OSS_LINUX_GETERROR_LONG, DSP_OSS_FREEBSD_GETERROR_LONG},
    {_SIOWR('P', 28, struct dsp_oss_group), DSP_OSS_LINUX_SYNCGROUP, DSP_OSS_FREEBSD_SYNCGROUP},
    {_SIOW('P', 29, int), DSP_OSS_LINUX_SYNCSTART, DSP_OSS_FREEBSD_SYNCSTART},
    {SOUND_PCM_READ_RATE, DSP_OSS_LINUX_READ_RATE, DSP_OSS_FREEBSD_READ_RATE},
    {SOUND_PCM_READ_BITS, DSP_OSS_LINUX_READ_BITS, DSP_OSS_FREEBSD_READ_BITS},
    {SOUND_PCM_READ_CHANNELS, DSP_OSS_LINUX_READ_CHANNELS, DSP_OSS_FREEBSD_READ_CHANNELS},
    {OSS_GETVERSION, DSP_OSS_LINUX_GETVERSION, DSP_OSS_FREEBSD_GETVERSION},
};

/* FreeBSD's number of a request: the two upper bits are the other way round, and a request without an argument has the third. */
static uint32_t freebsd_number(uint32_t on_linux) {
    static const uint32_t ways[] = {0x20000000u, 0x80000000u, 0x40000000u, 0xc0000000u};
    return ways[on_linux >> 30] | (on_linux & 0x1fffffff);
}

static void numbers_of_requests(void) {
    for (size_t k = 0; k < COUNT(numbers); k += 1) {
        IS(numbers[k].on_linux, numbers[k].of_header & 0xffffffff);
        IS(numbers[k].on_freebsd, freebsd_number(numbers[k].on_linux));
    }
    IS(DSP_OSS_LINUX_GETBLKSIZE, SNDCTL_DSP_GETBLKSIZE);
    IS(DSP_OSS_FREEBSD_GETBLKSIZE, 0x40045004);
    IS(sizeof(struct dsp_oss_space), sizeof(audio_buf_info));
    IS(sizeof(struct dsp_oss_position), sizeof(count_info));
}

/* ---- requests with a number ---- */

/* A request with a number, what it is answered, and the number that its argument is then. */
struct row {
    unsigned long request;
    unsigned flags;
    int given, answer, told;
};

/* One line after another, after `open 0 play`. */
static const struct row settings[] = {
    {OSS_GETVERSION, 0, 7, 0, 0x040000},
    {SOUND_PCM_READ_RATE, 0, 7, 0, 8000},
    {SOUND_PCM_READ_CHANNELS, 0, 7, 0, 1},
    {SOUND_PCM_READ_BITS, 0, 7, 0, 8},
    {SNDCTL_DSP_GETBLKSIZE, 0, 7, 0, 4096},

    {SNDCTL_DSP_SPEED, 0, 44100, 0, 44100},
    {SNDCTL_DSP_SPEED, 0, 0, 0, 44100},
    {SNDCTL_DSP_SPEED, 0, 3999, -EINVAL, 3999},
    {SNDCTL_DSP_SPEED, DSP_OSS_NEAR, 3999, 0, 4000},
    {SNDCTL_DSP_SPEED, DSP_OSS_NEAR, 192001, 0, 192000},
    {SNDCTL_DSP_SPEED, 0, -1, -EINVAL, -1},
    {SNDCTL_DSP_SPEED, DSP_OSS_NEAR, -1, 0, 4000},
    {SNDCTL_DSP_SPEED, DSP_OSS_NEAR, 0, 0, 4000},
    {SNDCTL_DSP_SPEED, DSP_OSS_NEAR, 48000, 0, 48000},
    {SOUND_PCM_READ_RATE, 0, 7, 0, 48000},

    {SNDCTL_DSP_CHANNELS, 0, 6, 0, 6},
    {SNDCTL_DSP_CHANNELS, 0, 0, 0, 6},
    {SNDCTL_DSP_CHANNELS, 0, 3, -EINVAL, 3},
    {SNDCTL_DSP_CHANNELS, DSP_OSS_NEAR, 3, 0, 2},
    {SNDCTL_DSP_CHANNELS, DSP_OSS_NEAR, 5, 0, 4},
    {SNDCTL_DSP_CHANNELS, DSP_OSS_NEAR, 7, 0, 6},
    {SNDCTL_DSP_CHANNELS, DSP_OSS_NEAR, 9, 0, 8},
    {SNDCTL_DSP_CHANNELS, DSP_OSS_NEAR, -1, 0, 1},

    {SNDCTL_DSP_STEREO, 0, 1, 0, 1},
    {SOUND_PCM_READ_CHANNELS, 0, 7, 0, 2},
    {SNDCTL_DSP_STEREO, 0, 0, 0, 0},
    {SOUND_PCM_READ_CHANNELS, 0, 7, 0, 1},
    {SNDCTL_DSP_STEREO, 0, 2, -EINVAL, 2},
    {SNDCTL_DSP_STEREO, DSP_OSS_NEAR, 2, 0, 1},
    {SNDCTL_DSP_CHANNELS, 0, 0, 0, 2},

    {SNDCTL_DSP_SETFMT, 0, AFMT_QUERY, 0, AFMT_U8},
    {SNDCTL_DSP_SETFMT, 0, DSP_S24_BE, 0, DSP_S24_BE},
    {SOUND_PCM_READ_BITS, 0, 7, 0, 24},
    {SNDCTL_DSP_SETFMT, 0, DSP_U32_LE, 0, DSP_U32_LE},
    {SOUND_PCM_READ_BITS, 0, 7, 0, 32},
    {SNDCTL_DSP_SETFMT, 0, AFMT_S16_LE, 0, AFMT_S16_LE},
    {SNDCTL_DSP_SETFMT, 0, AFMT_MU_LAW, -EINVAL, AFMT_MU_LAW},
    {SNDCTL_DSP_SETFMT, DSP_OSS_NEAR, AFMT_MU_LAW, 0, AFMT_S16_LE},
    {SNDCTL_DSP_SETFMT, DSP_OSS_NEAR, -1, 0, AFMT_S16_LE},
    {SOUND_PCM_READ_BITS, 0, 7, 0, 16},
    {SNDCTL_DSP_GETFMTS, 0, 7, 0, 1044984},

    {SNDCTL_DSP_SETFRAGMENT, 0, 0, 0, 536870916},
    {SNDCTL_DSP_SETFRAGMENT, 0, 0x7fff0010, 0, 131088},
    {SNDCTL_DSP_SETFRAGMENT, 0, 0x00020004, 0, 131076},
    {SNDCTL_DSP_GETBLKSIZE, 0, 7, 0, 16},
    {SNDCTL_DSP_GETCAPS, 0, 7, 0, DSP_CAP_TRIGGER | DSP_CAP_REALTIME},
    {SNDCTL_DSP_GETODELAY, 0, 7, 0, 0},

    {SNDCTL_DSP_GETTRIGGER, 0, 7, 0, PCM_ENABLE_OUTPUT},
    {SNDCTL_DSP_SETTRIGGER, 0, ~PCM_ENABLE_OUTPUT, -EINVAL, ~PCM_ENABLE_OUTPUT},
    {SNDCTL_DSP_GETTRIGGER, 0, 7, 0, PCM_ENABLE_OUTPUT},
    {SNDCTL_DSP_SETTRIGGER, DSP_OSS_NEAR, ~PCM_ENABLE_OUTPUT, 0, ~PCM_ENABLE_OUTPUT},
    {SNDCTL_DSP_GETTRIGGER, 0, 7, 0, 0},
    {SNDCTL_DSP_SETTRIGGER, DSP_OSS_NEAR, ~PCM_ENABLE_INPUT, 0, ~PCM_ENABLE_INPUT},
    {SNDCTL_DSP_GETTRIGGER, 0, 7, 0, PCM_ENABLE_OUTPUT},
    {SNDCTL_DSP_SETTRIGGER, 0, 0, 0, 0},
    {SNDCTL_DSP_SETTRIGGER, 0, PCM_ENABLE_OUTPUT, 0, PCM_ENABLE_OUTPUT},
    {SNDCTL_DSP_GETTRIGGER, 0, 7, 0, PCM_ENABLE_OUTPUT},

    {DSP_OSS_LINUX_GETPLAYVOL, 0, 7, 0, 25700},
    {DSP_OSS_LINUX_SETPLAYVOL, 0, 0x3264, 0, 12900},
    {DSP_OSS_LINUX_GETPLAYVOL, 0, 7, 0, 12900},
    {DSP_OSS_LINUX_SETPLAYVOL, 0, 0x0065, -EINVAL, 0x0065},
    {DSP_OSS_LINUX_SETPLAYVOL, DSP_OSS_NEAR, 0x0065, 0, 0x0064},
    {DSP_OSS_LINUX_SETPLAYVOL, DSP_OSS_NEAR, 0xff00, 0, 0x6400},
    {DSP_OSS_LINUX_SETPLAYVOL, 0, 0x10132, -EINVAL, 0x10132},
    {DSP_OSS_LINUX_SETPLAYVOL, DSP_OSS_NEAR, 0x10132, 0, 0x0132},

    {SNDCTL_DSP_NONBLOCK, 0, 7, 0, 7},
    {SNDCTL_DSP_SETDUPLEX, 0, 7, 0, 7},
    {SNDCTL_DSP_POST, 0, 7, 0, 7},
    {SNDCTL_DSP_SYNC, 0, 7, 0, 7},
    {SNDCTL_DSP_RESET, 0, 7, 0, 7},
    {SNDCTL_DSP_SUBDIVIDE, 0, 7, -EINVAL, 7},
    {SNDCTL_DSP_SETSYNCRO, DSP_OSS_NEAR, 7, -EINVAL, 7},
    {0, 0, 7, -EINVAL, 7},
    {SNDCTL_DSP_SPEED, 4, 48000, -EINVAL, 48000},
};

/* Of a channel that is Primed, and of one in Running. */
static const struct row settings_while_busy[] = {
    {SNDCTL_DSP_CHANNELS, 0, 2, -EBUSY, 2},
    {SNDCTL_DSP_CHANNELS, 0, 3, -EINVAL, 3},
    {SNDCTL_DSP_CHANNELS, DSP_OSS_NEAR, 3, -EBUSY, 3},
    {SNDCTL_DSP_STEREO, 0, 1, -EBUSY, 1},
    {SNDCTL_DSP_SPEED, DSP_OSS_NEAR, 300000, -EBUSY, 300000},
    {SNDCTL_DSP_SETFMT, DSP_OSS_NEAR, AFMT_U8, -EBUSY, AFMT_U8},
    {SNDCTL_DSP_SETFMT, DSP_OSS_NEAR, AFMT_MU_LAW, 0, AFMT_S16_LE},
    {SNDCTL_DSP_SETFRAGMENT, 0, 0x00020004, -EBUSY, 0x00020004},
    {SNDCTL_DSP_SPEED, 0, 0, 0, 48000},
};

/* Of a descriptor that isn't open, whatever is asked. */
static const struct row closed[] = {
    {SNDCTL_DSP_SPEED, 0, 48000, -EBADF, 48000},
    {SNDCTL_DSP_SPEED, DSP_OSS_NEAR, 1, -EBADF, 1},
    {SNDCTL_DSP_STEREO, 0, 2, -EBADF, 2},
    {SNDCTL_DSP_NONBLOCK, 0, 7, -EBADF, 7},
    {SNDCTL_DSP_GETCAPS, 0, 7, -EBADF, 7},
    {SOUND_PCM_READ_BITS, 0, 7, -EBADF, 7},
    {OSS_GETVERSION, 0, 7, -EBADF, 7},
    {DSP_OSS_LINUX_SYNCSTART, 0, 1, -EBADF, 1},
    {SNDCTL_DSP_SUBDIVIDE, 0, 1, -EBADF, 1},
};

/* FreeBSD's numbers, and Linux' under its flag, where both read one number another way. */
static const struct row on_freebsd[] = {
    {DSP_OSS_FREEBSD_SPEED, DSP_OSS_FREEBSD, 44100, 0, 44100},
    {DSP_OSS_FREEBSD_READ_RATE, DSP_OSS_FREEBSD, 7, 0, 44100},
    {DSP_OSS_FREEBSD_SPEED, DSP_OSS_FREEBSD | DSP_OSS_NEAR, 500, 0, 4000},
    {DSP_OSS_FREEBSD_SPEED, DSP_OSS_FREEBSD, 48000, 0, 48000},
    {DSP_OSS_FREEBSD_GETBLKSIZE, DSP_OSS_FREEBSD, 7, 0, 16},
    {DSP_OSS_FREEBSD_SETTRIGGER, DSP_OSS_FREEBSD, 0, 0, 0},
    {DSP_OSS_FREEBSD_GETTRIGGER, DSP_OSS_FREEBSD, 7, 0, 0},
    {DSP_OSS_FREEBSD_GETTRIGGER, 0, 2, 0, 2},
    {DSP_OSS_FREEBSD_SETTRIGGER, 0, 7, 0, 2},
    {DSP_OSS_FREEBSD_RESET, DSP_OSS_FREEBSD, 7, 0, 7},
    {DSP_OSS_FREEBSD_RESET, 0, 7, -EINVAL, 7},
    {DSP_OSS_LINUX_RESET, DSP_OSS_FREEBSD, 7, -EINVAL, 7},
};

static void ask_all(struct dsp_engine *engine, uint32_t fd, const char *name, const struct row *rows, size_t count) {
    for (size_t k = 0; k < count; k += 1) {
        int number = rows[k].given;
        int answer = dsp_oss_ioctl(engine, fd, rows[k].request, &number, rows[k].flags);
        if (answer != rows[k].answer || number != rows[k].told) {
            printf("%s, row %d: answers %d and gives %d, and not %d and %d\n", name, (int)k, answer, number, rows[k].answer, rows[k].told);
            wrong += 1;
        }
    }
}

/* ---- pointers ---- */

static void pointers(struct dsp_engine *engine) {
    struct dsp_engine none = DSP_NO_ENGINE;
    int number = 8000;

    IS(dsp_oss_ioctl(NULL, PLAYER, SNDCTL_DSP_SPEED, &number, 0), -EFAULT);
    IS(dsp_oss_ioctl(&none, PLAYER, SNDCTL_DSP_SPEED, &number, 0), -EINVAL);
    IS(dsp_oss_ioctl(engine, PLAYER, SNDCTL_DSP_SPEED, NULL, 0), -EFAULT);
    IS(dsp_oss_ioctl(engine, PLAYER, DSP_OSS_LINUX_SYNCGROUP, NULL, 0), -EFAULT);
    IS(dsp_oss_ioctl(engine, PLAYER, SNDCTL_DSP_SUBDIVIDE, NULL, 0), -EINVAL);
    IS(dsp_oss_ioctl(engine, CLOSED, SNDCTL_DSP_SPEED, NULL, 0), -EBADF);
    IS(dsp_oss_ioctl(engine, 64, SNDCTL_DSP_SPEED, &number, 0), -EBADF);
    IS(dsp_oss_ioctl(engine, PLAYER, SNDCTL_DSP_NONBLOCK, NULL, 0), 0);
    IS(dsp_oss_ioctl(engine, PLAYER, SNDCTL_DSP_POST, NULL, 0), 0);
    IS(dsp_oss_ioctl(engine, PLAYER, SNDCTL_DSP_SYNC, NULL, 0), 0);
    IS(dsp_oss_ioctl(engine, PLAYER, SNDCTL_DSP_RESET, NULL, 0), 0);
}

/* ---- structs ---- */

static void is_space(struct dsp_engine *engine, uint32_t fd, unsigned long request, int fragments, int bytes) {
    const int expected[] = {fragments, 2, 16, bytes};
    audio_buf_info info;
    IS(dsp_oss_ioctl(engine, fd, request, &info, 0), 0);
    check_fields("audio_buf_info", &info, expected, COUNT(expected));
}

static void is_position(struct dsp_engine *engine, uint32_t fd, unsigned long request, int bytes, int blocks, int ptr) {
    const int expected[] = {bytes, blocks, ptr};
    count_info info;
    IS(dsp_oss_ioctl(engine, fd, request, &info, 0), 0);
    check_fields("count_info", &info, expected, COUNT(expected));
}

/* The counts of shortages stand at the front, and all else of the struct is 0; what lies after it is as it was. */
static void is_short(struct dsp_engine *engine, uint32_t fd, unsigned long request, int underruns, int overruns) {
    int told[32], expected[32] = {underruns, overruns};
    size_t size = request >> 16 & 0x1fff;

    memset(told, 0x55, sizeof told);
    memset((char *)expected + size, 0x55, sizeof expected - size);
    IS(dsp_oss_ioctl(engine, fd, request, told, 0), 0);
    check_fields("audio_errinfo", told, expected, COUNT(expected));
}

/* A request that is refused leaves its struct as it is. */
static void is_refused(struct dsp_engine *engine, uint32_t fd, unsigned long request) {
    const int expected[] = {7, 7, 7, 7};
    int fields[] = {7, 7, 7, 7};
    IS(dsp_oss_ioctl(engine, fd, request, fields, DSP_OSS_NEAR), -EINVAL);
    check_fields("what is refused", fields, expected, COUNT(expected));
}

static void interrupt(struct dsp_engine *engine, uint32_t frames, const int32_t *samples, size_t count) {
    uint8_t out[64];
    IS(dsp_engine_interrupt(engine, frames, samples, count, out, sizeof out), 4 * frames);
}

/* After the settings: two fragments of 16 bytes, and a frame of four. */
static void playing(struct dsp_engine *engine) {
    static const uint8_t bytes[16] = {0};
    int delay = 0;

    IS(dsp_engine_write(engine, PLAYER, bytes, 12), 12);
    is_space(engine, PLAYER, SNDCTL_DSP_GETOSPACE, 1, 20);
    ask_all(engine, PLAYER, "primed", settings_while_busy, COUNT(settings_while_busy));
    IS(dsp_engine_write(engine, PLAYER, bytes, 4), 4);
    IS(dsp_oss_ioctl(engine, PLAYER, SNDCTL_DSP_GETODELAY, &delay, 0), 0);
    IS(delay, 16 + 4 * 16);
    interrupt(engine, 4, NULL, 0);
    is_position(engine, PLAYER, SNDCTL_DSP_GETOPTR, 16, 1, 16);
    is_position(engine, PLAYER, SNDCTL_DSP_GETOPTR, 16, 0, 16);
    interrupt(engine, 1, NULL, 0);
    is_short(engine, PLAYER, DSP_OSS_LINUX_GETERROR, 1, 0);
    is_short(engine, PLAYER, DSP_OSS_LINUX_GETERROR_LONG, 0, 0);
    ask_all(engine, PLAYER, "running", settings_while_busy, COUNT(settings_while_busy));
    is_refused(engine, PLAYER, SNDCTL_DSP_GETISPACE);
    is_refused(engine, PLAYER, SNDCTL_DSP_GETIPTR);
    IS(dsp_oss_ioctl(engine, PLAYER, SNDCTL_DSP_RESET, NULL, 0), 0);
    is_position(engine, PLAYER, SNDCTL_DSP_GETOPTR, 0, 0, 0);
    is_space(engine, PLAYER, SNDCTL_DSP_GETOSPACE, 2, 32);
}

/* Below a fragment it is the post that starts. After a sync nothing more is taken. */
static void starting_and_draining(struct dsp_engine *engine) {
    static const uint8_t frame[4] = {0};

    IS(dsp_engine_write(engine, PLAYER, frame, sizeof frame), 4);
    IS(dsp_oss_ioctl(engine, PLAYER, SNDCTL_DSP_POST, NULL, 0), 0);
    interrupt(engine, 1, NULL, 0);
    is_position(engine, PLAYER, SNDCTL_DSP_GETOPTR, 4, 0, 4);
    IS(dsp_engine_write(engine, PLAYER, frame, sizeof frame), 4);
    IS(dsp_oss_ioctl(engine, PLAYER, SNDCTL_DSP_SYNC, NULL, 0), 0);
    IS(dsp_engine_write(engine, PLAYER, frame, sizeof frame), DSP_BUSY);
    IS(dsp_oss_ioctl(engine, PLAYER, SNDCTL_DSP_RESET, NULL, 0), 0);
}

/* Ten frames are captured, of which eight have room, and then four more. */
static void recording(struct dsp_engine *engine) {
    static const int32_t samples[20] = {0};
    uint8_t bytes[64];
    int number = 0x00020004;

    IS(dsp_engine_open(engine, RECORDER, DSP_RECORD, DSP_S16_LE, 2, 48000), 0);
    IS(dsp_oss_ioctl(engine, RECORDER, SNDCTL_DSP_SETFRAGMENT, &number, 0), 0);
    number = PCM_ENABLE_INPUT;
    IS(dsp_oss_ioctl(engine, RECORDER, SNDCTL_DSP_SETTRIGGER, &number, 0), 0);
    interrupt(engine, 6, samples, 12);
    is_position(engine, RECORDER, SNDCTL_DSP_GETIPTR, 24, 1, 24);
    interrupt(engine, 4, samples, 8);
    is_short(engine, RECORDER, DSP_OSS_LINUX_GETERROR, 0, 1);
    interrupt(engine, 4, samples, 8);
    is_short(engine, RECORDER, DSP_OSS_LINUX_GETERROR_LONG, 0, 1);
    is_space(engine, RECORDER, SNDCTL_DSP_GETISPACE, 2, 32);
    IS(dsp_engine_read(engine, RECORDER, bytes, sizeof bytes), 32);
    is_space(engine, RECORDER, SNDCTL_DSP_GETISPACE, 0, 0);
    is_position(engine, RECORDER, SNDCTL_DSP_GETIPTR, 32, 1, 0);
    is_refused(engine, RECORDER, SNDCTL_DSP_GETOSPACE);
    is_refused(engine, RECORDER, SNDCTL_DSP_GETOPTR);
    is_refused(engine, RECORDER, SNDCTL_DSP_GETODELAY);
    is_refused(engine, RECORDER, DSP_OSS_LINUX_SETPLAYVOL);
    IS(dsp_oss_ioctl(engine, RECORDER, SNDCTL_DSP_RESET, NULL, 0), 0);
}

/* ---- groups ---- */

/* A request to join a group, what it is answered, and the number of the group that it answers. */
static void is_joined(struct dsp_engine *engine, uint32_t fd, int id, int mode, int answer, int told) {
    struct dsp_oss_group group = {id, mode, {7}};
    IS(dsp_oss_ioctl(engine, fd, DSP_OSS_LINUX_SYNCGROUP, &group, 0), answer);
    IS(group.id, told);
    IS(group.mode, mode);
    IS(group.filler[0], 7);
}

static void is_started(struct dsp_engine *engine, uint32_t fd, int id, int answer) {
    IS(dsp_oss_ioctl(engine, fd, DSP_OSS_LINUX_SYNCSTART, &id, 0), answer);
}

static void groups(struct dsp_engine *engine) {
    static const uint8_t frame[4] = {0};

    IS(dsp_engine_open(engine, MAPPED, DSP_MAP, DSP_S16_LE, 2, 48000), 1);
    is_joined(engine, CLOSED, 0, PCM_ENABLE_OUTPUT, -EBADF, 0);
    is_joined(engine, CLOSED, 0, PCM_ENABLE_INPUT, -EBADF, 0);
    is_joined(engine, MAPPED, 0, PCM_ENABLE_OUTPUT, -EINVAL, 0);
    is_joined(engine, PLAYER, 0, PCM_ENABLE_INPUT, -EINVAL, 0);
    is_joined(engine, PLAYER, 0, PCM_ENABLE_INPUT | PCM_ENABLE_OUTPUT, -EINVAL, 0);
    is_joined(engine, PLAYER, 5, PCM_ENABLE_OUTPUT, -EINVAL, 5);
    is_joined(engine, PLAYER, 0, PCM_ENABLE_OUTPUT, 0, 1);
    is_joined(engine, PLAYER, 0, PCM_ENABLE_OUTPUT, -EBUSY, 0);
    is_joined(engine, RECORDER, 1, PCM_ENABLE_OUTPUT, -EINVAL, 1);
    is_joined(engine, RECORDER, 1, PCM_ENABLE_INPUT, 0, 1);
    is_started(engine, RECORDER, 1, -EBUSY);
    IS(dsp_engine_write(engine, PLAYER, frame, sizeof frame), 4);
    is_started(engine, MAPPED, 1, -EINVAL);
    is_started(engine, RECORDER, 1, 0);
    is_started(engine, RECORDER, 1, -EINVAL);
}

int main(void) {
    struct dsp_engine engine = DSP_NO_ENGINE;

    numbers_of_requests();
    IS(dsp_engine_new(&engine, &device, NULL, 0, NULL, 0, NULL, 0), 0);
    IS(dsp_engine_open(&engine, PLAYER, DSP_PLAY, DSP_U8, 1, 8000), 0);
    ask_all(&engine, PLAYER, "settings", settings, COUNT(settings));
    ask_all(&engine, CLOSED, "closed", closed, COUNT(closed));
    pointers(&engine);
    playing(&engine);
    starting_and_draining(&engine);
    ask_all(&engine, PLAYER, "on FreeBSD", on_freebsd, COUNT(on_freebsd));
    recording(&engine);
    groups(&engine);
    dsp_engine_free(&engine);
    printf("%d answers are wrong\n", wrong);
    return wrong == 0 ? 0 : 1;
}
