/*
 * Plays a ramp of 20000 frames on /dev/dsp in the way that its word says, and tests its answers: a program for scripts/trials_live.py.
 * Frame k is k on both sides, 16 bits, 48000 Hz. Its status is 0 where all was as it should be, and else it prints what wasn't.
 */
#define _GNU_SOURCE
#include <errno.h>
#include <fcntl.h>
#include <poll.h>
#include <pthread.h>
#include <stdint.h>
#include <stdio.h>
#include <stdlib.h>
#include <string.h>
#include <sys/epoll.h>
#include <sys/ioctl.h>
#include <sys/mman.h>
#include <sys/select.h>
#include <sys/soundcard.h>
#include <sys/stat.h>
#include <sys/uio.h>
#include <sys/wait.h>
#include <unistd.h>

enum { FRAMES = 20000, FRAME = 4, BYTES = FRAMES * FRAME, PART = 3000, RATE = 48000, SIDES = 2 };

static int16_t ramp[FRAMES * SIDES];
static const char *const bytes = (const char *)ramp;

/* Ends where something isn't as it should be. */
static void need(int is_so, const char *what) {
    if (!is_so) {
        printf("%s (errno %d)\n", what, errno);
        exit(1);
    }
}

static int asked(int fd, unsigned long request, int value) {
    need(ioctl(fd, request, &value) == 0, "a request is refused");
    return value;
}

static void set_up(int fd) {
    need(asked(fd, SNDCTL_DSP_SETFMT, AFMT_S16_LE) == AFMT_S16_LE, "another format");
    need(asked(fd, SNDCTL_DSP_CHANNELS, SIDES) == SIDES, "other channels");
    need(asked(fd, SNDCTL_DSP_SPEED, RATE) == RATE, "another rate");
}

static int opened(int flags) {
    int fd = open("/dev/dsp", flags);
    need(fd >= 0, "no device");
    set_up(fd);
    return fd;
}

static audio_buf_info space_of(int fd) {
    audio_buf_info is;
    need(ioctl(fd, SNDCTL_DSP_GETOSPACE, &is) == 0, "no space is reported");
    return is;
}

/* Writes a part that has room, and answers how much it was. */
static size_t wrote(int fd, size_t at, size_t most) {
    size_t part = BYTES - at < most ? BYTES - at : most;
    ssize_t done = write(fd, bytes + at, part);
    need(done > 0, "a write that has room is refused");
    return (size_t)done;
}

static void by_writes(void) {
    int fd = opened(O_WRONLY);
    need(write(fd, ramp, BYTES) == BYTES, "a write that waits is short");
    need(ioctl(fd, SNDCTL_DSP_SYNC, 0) == 0, "no sync");
    need(asked(fd, SNDCTL_DSP_GETODELAY, 0) == 0, "it isn't drained");
    close(fd);
}

static void by_poll(void) {
    int fd = opened(O_WRONLY | O_NONBLOCK), waits = 0;
    for (size_t at = 0; at < BYTES;) {
        struct pollfd one = {fd, POLLOUT, 0};
        need(poll(&one, 1, 5000) == 1 && one.revents == POLLOUT, "poll finds no room");
        at += wrote(fd, at, PART);
        waits += space_of(fd).bytes == 0;
    }
    need(waits > 0, "the ring was never full");
    close(fd);
}

static void by_select(void) {
    int fd = opened(O_WRONLY | O_NONBLOCK);
    for (size_t at = 0; at < BYTES;) {
        struct timeval wait = {5, 0};
        fd_set out, in;
        FD_ZERO(&out);
        FD_ZERO(&in);
        FD_SET(fd, &out);
        need(select(fd + 1, &in, &out, NULL, &wait) == 1 && FD_ISSET(fd, &out), "select finds no room");
        at += wrote(fd, at, PART);
    }
    close(fd);
}

static void by_epoll(void) {
    int fd = opened(O_WRONLY | O_NONBLOCK), all = epoll_create1(0);
    struct epoll_event event = {.events = EPOLLOUT, .data.u32 = 7};
    need(epoll_ctl(all, EPOLL_CTL_ADD, fd, &event) == 0, "epoll takes no descriptor");
    for (size_t at = 0; at < BYTES;) {
        need(epoll_wait(all, &event, 1, 5000) == 1 && event.data.u32 == 7 && event.events == EPOLLOUT, "epoll finds no room");
        at += wrote(fd, at, PART);
    }
    close(fd);
}

/* A full ring is refused at once, and a question that is asked until there is room ends. */
static void by_asking(void) {
    int fd = opened(O_WRONLY), refused = 0;
    need(fcntl(fd, F_SETFL, fcntl(fd, F_GETFL) | O_NONBLOCK) == 0, "no flag");
    for (size_t at = 0; at < BYTES;) {
        ssize_t done = write(fd, bytes + at, BYTES - at < PART ? BYTES - at : PART);
        need(done > 0 || errno == EAGAIN, "a full ring is refused otherwise");
        refused += done < 0;
        while (done < 0 && space_of(fd).bytes < PART) {
        }
        at += done > 0 ? (size_t)done : 0;
    }
    need(refused > 0, "the ring was never full");
    close(fd);
}

static void by_parts(void) {
    int fd = opened(O_WRONLY);
    for (size_t at = 0; at < BYTES; at += 800) {
        struct iovec parts[2] = {{(char *)ramp + at, 300}, {(char *)ramp + at + 300, 500}};
        need(writev(fd, parts, 2) == 800, "writev is short");
    }
    close(fd);
}

/* Copies are the same device, and it is closed with the last. */
static void by_copies(void) {
    int first = opened(O_WRONLY), fd = dup(first), other = fcntl(fd, F_DUPFD, 30);
    need(dup2(fd, 20) == 20 && dup3(fd, 21, O_CLOEXEC) == 21 && other >= 30, "no copies");
    close(first);
    close(fd);
    for (size_t at = 0; at < BYTES;) {
        at += wrote(at % 8000 == 0 ? 20 : at % 8000 < 4000 ? 21 : other, at, 2000);
    }
    close(20);
    close(21);
    need(space_of(other).fragsize == 4096, "a copy is gone");
    close(other);
}

static void by_children(void) {
    int fd = opened(O_WRONLY), status;
    for (size_t at = 0; at < BYTES; at += BYTES / 4) {
        if (fork() == 0) {
            _exit(write(fd, bytes + at, BYTES / 4) == BYTES / 4 ? 0 : 1);
        }
        need(wait(&status) > 0 && status == 0, "a child's write is short");
    }
    close(fd);
}

/* A child that is another program has the device as its output. */
static void by_program(void) {
    int fd = opened(O_WRONLY), pipes[2], status;
    need(pipe(pipes) == 0, "no pipe");
    pid_t child = fork();
    if (child == 0) {
        dup2(pipes[0], STDIN_FILENO);
        dup2(fd, STDOUT_FILENO);
        close(pipes[0]);
        close(pipes[1]);
        close(fd);
        execlp("cat", "cat", (char *)NULL);
        _exit(1);
    }
    close(pipes[0]);
    close(fd);
    need(write(pipes[1], ramp, BYTES) == BYTES, "no room in a pipe");
    close(pipes[1]);
    need(waitpid(child, &status, 0) == child && status == 0, "cat failed");
}

static void *write_half(void *fd) {
    need(write(*(int *)fd, ramp, BYTES / 2) == BYTES / 2, "a thread's write is short");
    return NULL;
}

/* One thread waits in a write, while another asks; the second half is the main thread's. */
static void by_threads(void) {
    int fd = opened(O_WRONLY);
    pthread_t thread;
    need(pthread_create(&thread, NULL, write_half, &fd) == 0, "no thread");
    for (int k = 0; k < 20; k += 1) {
        space_of(fd);
        usleep(1000);
    }
    pthread_join(thread, NULL);
    need(write(fd, bytes + BYTES / 2, BYTES / 2) == BYTES / 2, "a write is short");
    close(fd);
}

static void by_stream(void) {
    FILE *file = fopen("/dev/dsp", "w");
    need(file != NULL, "no stream");
    set_up(fileno(file));
    need(fwrite(ramp, FRAME, FRAMES, file) == FRAMES && fflush(file) == 0, "a stream takes less");
    need(fclose(file) == 0, "a stream isn't closed");
}

/* Stores all of the ramp around the area, each half as it is passed. */
static void by_map(int is_polled) {
    int fd = opened(O_RDWR), half, pass = 0;
    audio_buf_info is = space_of(fd);
    half = is.fragstotal * is.fragsize / 2;
    char *area = mmap(NULL, (size_t)(2 * half), PROT_READ | PROT_WRITE, MAP_SHARED, fd, 0);
    need(area != MAP_FAILED, "no map");
    memcpy(area, ramp, (size_t)(2 * half));
    asked(fd, SNDCTL_DSP_SETTRIGGER, 0);
    asked(fd, SNDCTL_DSP_SETTRIGGER, PCM_ENABLE_OUTPUT);
    for (count_info place = {0, 0, 0}; place.bytes < BYTES;) {
        struct pollfd one = {fd, POLLOUT, 0};
        need(!is_polled || poll(&one, 1, 5000) == 1, "poll finds no room in a map");
        need(ioctl(fd, SNDCTL_DSP_GETOPTR, &place) == 0 && place.ptr == place.bytes % (2 * half), "another place");
        for (; (pass + 1) * half <= place.bytes; pass += 1) {
            int from = (pass + 2) * half, left = BYTES - from < half ? (BYTES - from > 0 ? BYTES - from : 0) : half;
            memcpy(area + pass % 2 * half, bytes + from, (size_t)left);
            memset(area + pass % 2 * half + left, 0, (size_t)(half - left));
        }
    }
    asked(fd, SNDCTL_DSP_SETTRIGGER, 0);
    need(munmap(area, (size_t)(2 * half)) == 0, "no unmap");
    close(fd);
}

/* A device is there as its paths say, and as it was set to be. */
static void by_looks(void) {
    struct stat is;
    need(stat("/dev/dsp", &is) == 0 && S_ISCHR(is.st_mode), "stat finds no device");
    need(lstat("/dev/dsp0", &is) == 0 && S_ISCHR(is.st_mode), "lstat finds no device");
    need(stat("/dev/mixer", &is) == 0 && S_ISCHR(is.st_mode), "stat finds no mixer");
    need(access("/dev/dsp", R_OK | W_OK) == 0 && access("/dev/dsp", X_OK) < 0, "access is answered otherwise");
    need(access("/dev/dspX", F_OK) < 0 && stat("/dev/dsp-x", &is) < 0, "a device that isn't there is");
    int fd = opened(O_WRONLY);
    need(fstat(fd, &is) == 0 && S_ISCHR(is.st_mode), "fstat finds no device");
    need(asked(fd, OSS_GETVERSION, 0) == 0x040000 && asked(fd, SOUND_PCM_READ_BITS, 0) == 16, "a request is answered otherwise");
    need(ioctl(fd, SNDCTL_DSP_GETISPACE, &(audio_buf_info){0}) < 0 && errno == EINVAL, "a player reports what it recorded");
    need(read(fd, &(char){0}, 1) < 0 && errno == EBADF, "a player is read");
    need(lseek(fd, 0, SEEK_CUR) < 0 && errno == ESPIPE, "a device has places");
    need(asked(fd, SNDCTL_DSP_SPEED, 1000000) == 192000 && asked(fd, SNDCTL_DSP_SPEED, RATE) == RATE, "a rate isn't moved");
    need(write(fd, ramp, BYTES) == BYTES, "a write is short");
    close(fd);
}

static void by_mixer(void) {
    int fd = open("/dev/mixer", O_RDWR), volume = 50 | 200 << 8;
    need(fd >= 0, "no mixer");
    need(asked(fd, SOUND_MIXER_READ_DEVMASK, 0) == (SOUND_MASK_VOLUME | SOUND_MASK_PCM), "other lines");
    need(asked(fd, SOUND_MIXER_WRITE_VOLUME, volume) == (50 | 100 << 8), "a volume isn't moved");
    need(asked(fd, SOUND_MIXER_WRITE_PCM, 30 | 30 << 8) == (30 | 30 << 8), "another volume");
    need(asked(fd, SOUND_MIXER_READ_VOLUME, 0) == (50 | 100 << 8), "another volume is reported");
    need(asked(fd, SOUND_MIXER_WRITE_VOLUME, 100 | 100 << 8) == (100 | 100 << 8) && asked(fd, SOUND_MIXER_WRITE_PCM, 100 | 100 << 8) > 0, "no volume");
    need(ioctl(fd, SOUND_MIXER_WRITE_BASS, &volume) < 0 && errno == EINVAL, "there are tones");
    close(fd);
    by_writes();
}

/* Reads what was captured: a ramp as well, as scripts/trials_live.py has it. */
static void by_reads(int flags) {
    static char got[BYTES];
    int fd = opened(flags);
    if (flags & O_NONBLOCK) {
        need(read(fd, got, BYTES) < 0 && errno == EAGAIN, "there is something to read");
    }
    for (size_t at = 0; at < BYTES;) {
        struct pollfd one = {fd, POLLIN, 0};
        need(!(flags & O_NONBLOCK) || (poll(&one, 1, 5000) == 1 && one.revents == POLLIN), "poll finds nothing");
        ssize_t more = read(fd, got + at, BYTES - at < PART ? BYTES - at : PART);
        need(more > 0 && (flags & O_NONBLOCK || more == (ssize_t)(BYTES - at < PART ? BYTES - at : PART)), "a read is short");
        at += (size_t)more;
    }
    need(memcmp(got, ramp, BYTES) == 0, "something else is captured");
    close(fd);
}

/* Plays and records by one descriptor. */
static void by_both(void) {
    static char got[PART];
    int fd = opened(O_RDWR);
    for (size_t at = 0; at < BYTES; at += 2000) {
        need(write(fd, bytes + at, 2000) == 2000, "a write is short");
        need(read(fd, got, 1000) == 1000, "a read is short");
    }
    close(fd);
}

static void play(const char *way) {
    static const struct {
        const char *name;
        void (*act)(void);
    } ways[] = {{"writes", by_writes}, {"poll", by_poll}, {"select", by_select}, {"epoll", by_epoll}, {"asking", by_asking}, {"parts", by_parts},
                {"copies", by_copies}, {"children", by_children}, {"program", by_program}, {"threads", by_threads}, {"stream", by_stream},
                {"looks", by_looks}, {"mixer", by_mixer}, {"both", by_both}};
    for (size_t k = 0; k < sizeof ways / sizeof ways[0]; k += 1) {
        if (strcmp(ways[k].name, way) == 0) {
            ways[k].act();
            return;
        }
    }
    need(0, "no such way");
}

int main(int count, char **words) {
    for (int k = 0; k < FRAMES * SIDES; k += 1) {
        ramp[k] = (int16_t)(k / SIDES);
    }
    need(count == 2, "a way is wanted");
    if (strncmp(words[1], "map", 3) == 0) {
        by_map(strcmp(words[1], "map-poll") == 0);
    } else if (strncmp(words[1], "read", 4) == 0) {
        by_reads(strcmp(words[1], "read-poll") == 0 ? O_RDONLY | O_NONBLOCK : O_RDONLY);
    } else {
        play(words[1]);
    }
    return 0;
}
