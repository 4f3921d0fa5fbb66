/*
 * Performs the lines of a script as calls on /dev/dsp, and prints what each is answered as `dsp_replay run` prints it:
 *
 *     perform [--step-file FILE] [--block N] [--wait N] SCRIPT [DEVICE [NAME=WAVE]..]
 *
 * All descriptors are opened without waiting. An interrupt of N frames of 48000 a second is a wait for as long, or, with --step-file, the
 * number N written into FILE, where something moves the time of a card by it. NAME=WAVE is a wave that lines send. What a system doesn't
 * answer, the slot of an open, is the least one that isn't open, and what it has no call for is printed as `not performed`.
 *
 * A system has calls that wait all the same, as a close until all is played. With --wait such a call goes on beside the next lines once it
 * took N milliseconds. It is answered `waits`, and where it ended before the script did, `waits, then` and its answer. All replies come at
 * the end then.
 *
 * It is for Linux and FreeBSD, and needs no more than their C libraries: cc -pthread -Iembed tools/perform.c -o perform
 */
#define _GNU_SOURCE
#include "dsp_oss.h"

#include <errno.h>
#include <fcntl.h>
#include <poll.h>
#include <pthread.h>
#include <stdbool.h>
#include <stdint.h>
#include <stdio.h>
#include <stdlib.h>
#include <string.h>
#include <sys/ioctl.h>
#include <sys/mman.h>
#include <sys/soundcard.h>
#include <time.h>
#include <unistd.h>

#ifdef __FreeBSD__
#define REQUEST(name) DSP_OSS_FREEBSD_##name
#else
#define REQUEST(name) DSP_OSS_LINUX_##name
#endif

enum { DESCRIPTORS = 64, WORDS = 8, RATE = 48000, BLOCK = 256, RING = 16384, FRAGMENTS = 0x4000c, LINE_MOST = 16384, WAVES = 64, MOST = 131072,
       SETTLES = 500000 };
enum way { PLAY, RECORD, MAP, WAYS };

/* What is open of a descriptor of the script. */
struct open {
    bool used;
    int fd;
    enum way way;
    unsigned slot;
    uint8_t *area;
    uint32_t ring, fragments, format, channels;
};

struct wave {
    const char *name;
    uint8_t *body;
    size_t size;
};

/* A line that may go on beside the next ones. */
struct job {
    char *line;
    int ends[2]; /* a pipe that is written to when the line has ended */
    bool waits;
    char *text; /* its reply */
    size_t size;
    pthread_t thread;
    struct job *next;
};

static struct {
    const char *device, *mixer, *step_file;
    struct open list[DESCRIPTORS];
    struct wave waves[WAVES];
    size_t wave_count;
    struct job *jobs, *last;
    bool waits; /* whether a call has waited */
    unsigned long events;
    uint32_t block; /* the frames of an interrupt that names none */
    int wait;       /* the milliseconds after which a call goes on beside the next lines, or 0 */
} all = {.device = "/dev/dsp", .mixer = "/dev/mixer", .block = BLOCK};

/* Where replies go: those of a job into its text. */
static __thread FILE *said;

static void fail(const char *what, const char *name) {
    fprintf(stderr, "perform: %s: %s\n", name, what);
    exit(1);
}

/* ---- words ---- */

static uint32_t number_of(const char *word) {
    return (uint32_t)strtoul(word, NULL, strncmp(word, "0x", 2) == 0 ? 16 : 10);
}

/* Cuts a line at its blanks. Answers how many words it has in front of a comment. */
static int cut(char *line, char **words) {
    int count = 0;
    char *rest;
    for (char *word = strtok_r(line, " \t\r\n", &rest); word && *word != '#' && count < WORDS; word = strtok_r(NULL, " \t\r\n", &rest)) {
        words[count++] = word;
    }
    return count;
}

static const struct {
    const char *name;
    uint32_t code;
} formats[] = {{"u8", DSP_U8},        {"s8", DSP_S8},        {"s16le", DSP_S16_LE}, {"s16be", DSP_S16_BE}, {"u16le", DSP_U16_LE},
               {"u16be", DSP_U16_BE}, {"s24le", DSP_S24_LE}, {"s24be", DSP_S24_BE}, {"u24le", DSP_U24_LE}, {"u24be", DSP_U24_BE},
               {"s32le", DSP_S32_LE}, {"s32be", DSP_S32_BE}, {"u32le", DSP_U32_LE}, {"u32be", DSP_U32_BE}};

/* The code of a format by its name, or a number. */
static uint32_t format_of(const char *word) {
    for (size_t k = 0; k < sizeof formats / sizeof formats[0]; k += 1) {
        if (strcmp(formats[k].name, word) == 0) {
            return formats[k].code;
        }
    }
    return number_of(word);
}

static uint8_t digit(char sign) {
    return (uint8_t)(sign <= '9' ? sign - '0' : (sign | 32) - 'a' + 10);
}

/* The bytes of pairs of digits; none of `-`. */
static size_t bytes_of(const char *word, uint8_t *bytes) {
    size_t count = strcmp(word, "-") == 0 ? 0 : strlen(word) / 2;
    for (size_t k = 0; k < count; k += 1) {
        bytes[k] = (uint8_t)(digit(word[2 * k]) << 4 | digit(word[2 * k + 1]));
    }
    return count;
}

/* ---- replies ---- */

static void reply_refused(int fault) {
    static const struct {
        int fault;
        const char *name;
    } names[] = {{EAGAIN, "again"}, {EBUSY, "busy"}, {EBADF, "badf"}, {EEXIST, "exist"}, {EINVAL, "inval"}};
    for (size_t k = 0; k < sizeof names / sizeof names[0]; k += 1) {
        if (names[k].fault == fault) {
            fprintf(said, "refused %s\n", names[k].name);
            return;
        }
    }
    fprintf(said, "refused by errno %d\n", fault);
}

/* What a call is answered: a number, or its refusal. */
static void reply(long answer) {
    if (answer < 0) {
        reply_refused(errno);
    } else {
        fprintf(said, "ok %ld\n", answer);
    }
}

static void reply_done(int answer) {
    if (answer < 0) {
        reply_refused(errno);
    } else {
        fputs("ok\n", said);
    }
}

/* ---- opens and closes ---- */

static struct open *open_of(const char *word) {
    return &all.list[number_of(word) % DESCRIPTORS];
}

static unsigned free_slot(enum way way) {
    bool taken[DESCRIPTORS] = {false};
    unsigned slot = way == MAP ? 4 : 0;
    for (size_t k = 0; k < DESCRIPTORS; k += 1) {
        if (all.list[k].used && all.list[k].way == way) {
            taken[all.list[k].slot % DESCRIPTORS] = true;
        }
    }
    while (slot < DESCRIPTORS && taken[slot]) {
        slot += 1;
    }
    return slot;
}

static int set(int fd, unsigned long request, uint32_t value) {
    int number = (int)value;
    return ioctl(fd, request, &number);
}

/* Maps what a channel plays out of, as large as its ring. Some kernels take settings with the next question alone, and map only after that. */
static bool has_area(struct open *it, uint32_t ring) {
    int size = 0;
    if (it->area) {
        munmap(it->area, it->ring);
    }
    if (it->way == MAP && ioctl(it->fd, REQUEST(GETBLKSIZE), &size) < 0) {
        it->area = NULL;
        return false;
    }
    void *area = it->way == MAP ? mmap(NULL, ring, PROT_READ | PROT_WRITE, MAP_SHARED, it->fd, 0) : NULL;
    it->area = area == MAP_FAILED ? NULL : area;
    it->ring = ring;
    return area != MAP_FAILED;
}

/* The bytes of a sample. */
static uint32_t width_of(uint32_t format) {
    if (format & (DSP_U8 | DSP_S8)) {
        return 1;
    }
    if (format & (DSP_S24_LE | DSP_S24_BE | DSP_U24_LE | DSP_U24_BE)) {
        return 3;
    }
    return format & (DSP_S32_LE | DSP_S32_BE | DSP_U32_LE | DSP_U32_BE) ? 4 : 2;
}

/* An area is silent at first, and where the format, the channels or the fragments become others. */
static void put_silence(struct open *it) {
    uint32_t format = it->format, width = width_of(format);
    bool first = format & (DSP_U8 | DSP_U16_BE | DSP_U24_BE | DSP_U32_BE), last = format & (DSP_U16_LE | DSP_U24_LE | DSP_U32_LE);
    for (uint32_t at = 0; it->area && at < it->ring; at += 1) {
        it->area[at] = (first && at % width == 0) || (last && at % width == width - 1) ? 0x80 : 0;
    }
}

/* What a request leaves of an area. */
static void look_at_area(struct open *it, const char *name, uint32_t answer) {
    struct open before = *it;
    uint32_t ring = it->ring;
    if (strcmp(name, "setfmt") == 0) {
        it->format = answer;
    } else if (strcmp(name, "channels") == 0) {
        it->channels = answer;
    } else if (strcmp(name, "setfragment") == 0 && answer != it->fragments) {
        ring = (answer >> 16) << (answer & 0xffff);
        it->fragments = answer;
        has_area(it, ring);
    }
    if (it->format != before.format || it->channels != before.channels || it->fragments != before.fragments) {
        put_silence(it);
    }
}

/* Sets what an open asks for after its way. */
static bool is_set(const struct open *it, char **words) {
    return set(it->fd, REQUEST(SETFMT), it->format) == 0 && set(it->fd, REQUEST(CHANNELS), it->channels) == 0 &&
           set(it->fd, REQUEST(SPEED), number_of(words[5])) == 0;
}

static void do_open(char **words, int count) {
    static const int flags[] = {[PLAY] = O_WRONLY, [RECORD] = O_RDONLY, [MAP] = O_RDWR};
    struct open *it = open_of(words[1]);
    enum way way = words[2][0] == 'p' ? PLAY : words[2][0] == 'r' ? RECORD : MAP;
    if (it->used) {
        reply_refused(EEXIST);
        return;
    }
    *it = (struct open){.used = true, .fd = open(all.device, flags[way] | O_NONBLOCK), .way = way, .fragments = FRAGMENTS,
                        .format = count < 6 ? DSP_U8 : format_of(words[3]), .channels = count < 6 ? 1 : number_of(words[4])};
    if (it->fd < 0 || (count >= 6 && !is_set(it, words)) || !has_area(it, RING)) {
        int fault = errno;
        if (it->fd >= 0) {
            close(it->fd);
        }
        it->used = false;
        reply_refused(fault);
        return;
    }
    put_silence(it);
    it->used = false;
    it->slot = free_slot(way);
    it->used = true;
    reply(it->slot);
}

static void do_close(struct open *it) {
    int fd = it->fd;
    if (it->area) {
        munmap(it->area, it->ring);
    }
    it->used = false;
    reply_done(close(fd));
}

/* ---- bytes ---- */

static void do_send(const struct open *it, char **words) {
    for (size_t k = 0; k < all.wave_count; k += 1) {
        if (strcmp(all.waves[k].name, words[2]) == 0) {
            size_t from = number_of(words[3]), count = number_of(words[4]);
            if (from + count > all.waves[k].size) {
                fail("its body is shorter", words[2]);
            }
            reply(write(it->fd, all.waves[k].body + from, count));
            return;
        }
    }
    fail("no such wave is named", words[2]);
}

static void do_read(const struct open *it, size_t count) {
    static __thread uint8_t bytes[MOST];
    ssize_t got = read(it->fd, bytes, count < MOST ? count : MOST);
    if (got < 0) {
        reply_refused(errno);
        return;
    }
    fprintf(said, "ok %zd %s", got, got ? "" : "-");
    for (ssize_t k = 0; k < got; k += 1) {
        fprintf(said, "%02x", bytes[k]);
    }
    fputc('\n', said);
}

static void do_poke(const struct open *it, uint32_t offset, const uint8_t *bytes, size_t count) {
    if (!it->area || offset + count > it->ring) {
        reply_refused(EINVAL);
        return;
    }
    memcpy(it->area + offset, bytes, count);
    fputs("ok\n", said);
}

/* ---- requests ---- */

enum form { NOTHING, NUMBER, SPACE, PLACE, ERRORS, GROUP };

static const struct request {
    const char *name;
    unsigned long number;
    enum form form;
} requests[] = {
    {"setfmt", REQUEST(SETFMT), NUMBER},          {"speed", REQUEST(SPEED), NUMBER},           {"channels", REQUEST(CHANNELS), NUMBER},
    {"getfmts", REQUEST(GETFMTS), NUMBER},        {"getcaps", REQUEST(GETCAPS), NUMBER},       {"getblksize", REQUEST(GETBLKSIZE), NUMBER},
    {"setfragment", REQUEST(SETFRAGMENT), NUMBER}, {"getospace", REQUEST(GETOSPACE), SPACE},   {"getispace", REQUEST(GETISPACE), SPACE},
    {"getoptr", REQUEST(GETOPTR), PLACE},         {"getiptr", REQUEST(GETIPTR), PLACE},        {"getodelay", REQUEST(GETODELAY), NUMBER},
    {"geterror", REQUEST(GETERROR), ERRORS},      {"settrigger", REQUEST(SETTRIGGER), NOTHING}, {"gettrigger", REQUEST(GETTRIGGER), NUMBER},
    {"setplayvol", REQUEST(SETPLAYVOL), NUMBER},  {"getplayvol", REQUEST(GETPLAYVOL), NUMBER}, {"post", REQUEST(POST), NOTHING},
    {"sync", REQUEST(SYNC), NOTHING},             {"halt", REQUEST(RESET), NOTHING},           {"syncgroup", REQUEST(SYNCGROUP), GROUP},
    {"syncstart", REQUEST(SYNCSTART), NOTHING},
};

/* An argument of any request. */
union argument {
    int number;
    struct dsp_oss_space space;
    struct dsp_oss_position place;
    struct dsp_oss_errors errors;
    struct dsp_oss_group group;
    uint8_t room[256];
};

static void reply_told(enum form form, const union argument *is) {
    switch (form) {
    case SPACE:
        fprintf(said, "ok fragments=%d fragstotal=%d fragsize=%d bytes=%d\n", is->space.fragments, is->space.fragstotal, is->space.fragsize,
               is->space.bytes);
        break;
    case PLACE:
        fprintf(said, "ok bytes=%u blocks=%d ptr=%d\n", (unsigned)is->place.bytes, is->place.blocks, is->place.ptr);
        break;
    case ERRORS:
        fprintf(said, "ok underruns=%d overruns=%d\n", is->errors.play_underruns, is->errors.rec_overruns);
        break;
    case NOTHING:
        fputs("ok\n", said);
        break;
    default:
        fprintf(said, "ok %u\n", (unsigned)is->number);
    }
}

static void do_ioctl(struct open *it, const char *name, const char *word) {
    union argument is = {.room = {0}};
    for (size_t k = 0; k < sizeof requests / sizeof requests[0]; k += 1) {
        if (strcmp(requests[k].name, name) != 0) {
            continue;
        }
        is.number = word ? (int)(strcmp(name, "setfmt") == 0 ? format_of(word) : number_of(word)) : 0;
        is.group.mode = requests[k].form == GROUP ? (it->way == RECORD ? PCM_ENABLE_INPUT : PCM_ENABLE_OUTPUT) : is.group.mode;
        if (ioctl(it->fd, requests[k].number, &is) < 0) {
            reply_refused(errno);
            return;
        }
        look_at_area(it, name, (uint32_t)is.number);
        reply_told(requests[k].form, &is);
        return;
    }
    fail("no such request", name);
}

/* ---- the mixer, and time ---- */

static void do_mixer(char **words, int count) {
    int fd = strcmp(words[1], "master") == 0 ? open(all.mixer, O_RDWR) : -1;
    if (fd < 0) {
        fputs("not performed\n", said);
        return;
    }
    int value = count > 2 ? (int)number_of(words[2]) : 0, answer = ioctl(fd, count > 2 ? SOUND_MIXER_WRITE_VOLUME : SOUND_MIXER_READ_VOLUME, &value);
    reply(answer < 0 ? answer : value);
    close(fd);
}

static void do_interrupt(uint32_t frames) {
    const struct timespec lasts = {frames / RATE, (long)((uint64_t)(frames % RATE) * 1000000000 / RATE)};
    char text[32];
    if (!all.step_file) {
        nanosleep(&lasts, NULL);
        reply(frames);
        return;
    }
    int fd = open(all.step_file, O_WRONLY), length = snprintf(text, sizeof text, "%u\n", frames);
    if (fd < 0 || write(fd, text, (size_t)length) != length || close(fd) != 0) {
        fail(strerror(errno), all.step_file);
    }
    reply(frames);
}

/* ---- lines ---- */

/* What a line does to a descriptor that is open. */
static void do_on(struct open *it, char **words, int count) {
    static __thread uint8_t bytes[LINE_MOST];
    if (strcmp(words[0], "write") == 0) {
        reply(write(it->fd, bytes, bytes_of(words[2], bytes)));
    } else if (strcmp(words[0], "send") == 0) {
        do_send(it, words);
    } else if (strcmp(words[0], "read") == 0) {
        do_read(it, number_of(words[2]));
    } else if (strcmp(words[0], "poke") == 0) {
        size_t size = bytes_of(words[3], bytes);
        do_poke(it, number_of(words[2]), bytes, size);
    } else if (strcmp(words[0], "ioctl") == 0) {
        do_ioctl(it, words[2], count > 3 ? words[3] : NULL);
    } else {
        do_close(it);
    }
}

static void perform(char **words, int count) {
    if (strcmp(words[0], "intr") == 0) {
        do_interrupt(count > 1 ? number_of(words[1]) : all.block);
    } else if (strcmp(words[0], "mixer") == 0) {
        do_mixer(words, count);
    } else if (strcmp(words[0], "open") == 0) {
        do_open(words, count);
    } else if (!open_of(words[1])->used) {
        reply_refused(EBADF);
    } else {
        do_on(open_of(words[1]), words, count);
    }
}

/* Performs a line, if it is an event. */
static void perform_line(char *line) {
    char *words[WORDS];
    int count = cut(line, words);
    if (count > 0) {
        perform(words, count);
    }
}

static const char *first_word(const char *line) {
    return line + strspn(line, " \t\r\n");
}

static bool is_event(const char *line) {
    return *first_word(line) && *first_word(line) != '#';
}

/* ---- lines that wait ---- */

static void *do_job(void *given) {
    struct job *job = given;
    said = open_memstream(&job->text, &job->size);
    if (!said) {
        fail(strerror(errno), "--wait");
    }
    perform_line(job->line);
    fclose(said);
    return write(job->ends[1], "", 1) == 1 ? job : NULL;
}

static bool has_ended(const struct job *job, int milliseconds) {
    struct pollfd end = {.fd = job->ends[0], .events = POLLIN};
    return poll(&end, 1, milliseconds) > 0;
}

/* Lets what waits go on to where it waits again, for some nanoseconds. */
static void settle(void) {
    static const struct timespec lasts = {0, SETTLES};
    for (const struct job *job = all.waits ? all.jobs : NULL; job; job = job->next) {
        if (job->waits && !has_ended(job, 0)) {
            nanosleep(&lasts, NULL);
            return;
        }
    }
}

/* Performs a line by itself, and waits for its end only so long. */
static void begin_job(const char *line) {
    struct job *job = calloc(1, sizeof *job);
    if (!job || !(job->line = strdup(line)) || pipe(job->ends) != 0 || pthread_create(&job->thread, NULL, do_job, job) != 0) {
        fail("no memory, descriptor or thread is left for a line", "--wait");
    }
    *(all.last ? &all.last->next : &all.jobs) = job;
    all.last = job;
    job->waits = !has_ended(job, strncmp(first_word(line), "intr", 4) == 0 ? -1 : all.wait);
    all.waits = all.waits || job->waits;
    if (!job->waits) {
        pthread_join(job->thread, NULL);
        close(job->ends[0]);
        close(job->ends[1]);
    }
    settle();
}

static void tell_jobs(void) {
    for (const struct job *job = all.jobs; job; job = job->next) {
        fprintf(said, "%lu: %s", ++all.events, job->waits ? "waits" : job->text);
        if (job->waits) {
            bool ended = has_ended(job, 0);
            fprintf(said, "%s%s", ended ? ", then " : "\n", ended ? job->text : "");
        }
    }
}

/* ---- its own words ---- */

static void take_wave(char *word) {
    char *equals = strchr(word, '=');
    struct wave *wave = &all.waves[all.wave_count];
    FILE *file = equals && all.wave_count < WAVES ? fopen(equals + 1, "rb") : NULL;
    uint8_t head[8];
    if (!file || fseek(file, 12, SEEK_SET) != 0) {
        fail("no wave", word);
    }
    for (*equals = 0; fread(head, 1, sizeof head, file) == sizeof head;) {
        uint32_t size = head[4] | (uint32_t)head[5] << 8 | (uint32_t)head[6] << 16 | (uint32_t)head[7] << 24;
        if (memcmp(head, "data", 4) == 0) {
            *wave = (struct wave){word, malloc(size + 1), 0};
            wave->size = wave->body ? fread(wave->body, 1, size, file) : 0;
            all.wave_count += 1;
            break;
        }
        fseek(file, (long)(size + size % 2), SEEK_CUR);
    }
    fclose(file);
}

static void take_option(char *name, char *value) {
    if (strcmp(name, "--step-file") == 0) {
        all.step_file = value;
    } else if (strcmp(name, "--block") == 0 && number_of(value) > 0) {
        all.block = number_of(value);
    } else if (strcmp(name, "--wait") == 0 && number_of(value) > 0) {
        all.wait = (int)number_of(value);
    } else {
        fail("no option", name);
    }
}

/* Performs all lines of a script. */
static void perform_all(FILE *script) {
    static char line[LINE_MOST];
    while (fgets(line, sizeof line, script)) {
        if (!is_event(line)) {
            continue;
        }
        if (all.wait) {
            begin_job(line);
        } else {
            fprintf(said, "%lu: ", ++all.events);
            perform_line(line);
        }
    }
    tell_jobs();
}

int main(int count, char **words) {
    int at = 1;
    said = stdout;
    for (; count > at + 2 && strncmp(words[at], "--", 2) == 0; at += 2) {
        take_option(words[at], words[at + 1]);
    }
    FILE *script = at < count ? fopen(words[at], "r") : NULL;
    if (at >= count) {
        fputs("usage: perform [--step-file FILE] [--block N] [--wait N] SCRIPT [DEVICE [NAME=WAVE]..]\n", stderr);
        return 2;
    }
    if (!script) {
        fail(strerror(errno), words[at]);
    }
    all.device = at + 1 < count ? words[at + 1] : all.device;
    for (int k = at + 2; k < count; k += 1) {
        take_wave(words[k]);
    }
    perform_all(script);
    return fflush(stdout) == 0 && !ferror(script) ? 0 : 1;
}
