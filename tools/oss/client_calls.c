/* Reads, writes, requests, maps and closes of a program. */
#define _GNU_SOURCE
#include "client.h"

#include <errno.h>
#include <fcntl.h>
#include <stdarg.h>
#include <string.h>
#include <sys/ioctl.h>
#include <sys/mman.h>
#include <sys/soundcard.h>
#include <sys/syscall.h>
#include <sys/uio.h>
#include <unistd.h>

static uint32_t flags_of(int fd) {
    return client_waits(fd) ? WIRE_WAITS : 0;
}

static size_t part_of(size_t left) {
    return left < WIRE_MOST ? left : WIRE_MOST;
}

/* ---- writes ---- */

/* A write in parts: one that is short, or refused, ends it. */
static ssize_t written(int fd, uint64_t token, const char *bytes, size_t count) {
    size_t done = 0;
    do {
        size_t part = part_of(count - done);
        long taken = client_call(WIRE_WRITE, token, 0, flags_of(fd), bytes + done, part, NULL, 0);
        if (taken < 0) {
            return done ? (ssize_t)done : -1;
        }
        done += (size_t)taken;
        if ((size_t)taken < part) {
            break;
        }
    } while (done < count);
    return (ssize_t)done;
}

ssize_t write(int fd, const void *bytes, size_t count) {
    uint64_t token = client_token(fd);
    return token ? written(fd, token, bytes, count) : REAL(write)(fd, bytes, count);
}

ssize_t writev(int fd, const struct iovec *parts, int count) {
    uint64_t token = client_token(fd);
    ssize_t done = 0;
    if (!token) {
        return REAL(writev)(fd, parts, count);
    }
    for (int k = 0; k < count; k += 1) {
        ssize_t taken = parts[k].iov_len ? written(fd, token, parts[k].iov_base, parts[k].iov_len) : 0;
        if (taken < 0) {
            return done ? done : -1;
        }
        done += taken;
        if ((size_t)taken < parts[k].iov_len) {
            break;
        }
    }
    return done;
}

/* ---- reads ---- */

static ssize_t got(int fd, uint64_t token, char *bytes, size_t count) {
    size_t done = 0;
    do {
        size_t part = part_of(count - done);
        long more = client_call(WIRE_READ, token, part, flags_of(fd), NULL, 0, bytes + done, part);
        if (more < 0) {
            return done ? (ssize_t)done : -1;
        }
        done += (size_t)more;
        if ((size_t)more < part) {
            break;
        }
    } while (done < count);
    return (ssize_t)done;
}

ssize_t read(int fd, void *bytes, size_t count) {
    uint64_t token = client_token(fd);
    return token ? got(fd, token, bytes, count) : REAL(read)(fd, bytes, count);
}

ssize_t __read_chk(int fd, void *bytes, size_t count, size_t room);
ssize_t __read_chk(int fd, void *bytes, size_t count, size_t room) {
    uint64_t token = client_token(fd);
    return token && count <= room ? got(fd, token, bytes, count) : REAL(__read_chk)(fd, bytes, count, room);
}

ssize_t readv(int fd, const struct iovec *parts, int count) {
    uint64_t token = client_token(fd);
    ssize_t done = 0;
    if (!token) {
        return REAL(readv)(fd, parts, count);
    }
    for (int k = 0; k < count; k += 1) {
        ssize_t more = parts[k].iov_len ? got(fd, token, parts[k].iov_base, parts[k].iov_len) : 0;
        if (more < 0) {
            return done ? done : -1;
        }
        done += more;
        if ((size_t)more < parts[k].iov_len) {
            break;
        }
    }
    return done;
}

/* ---- requests ---- */

static bool is_of_sound(unsigned long request) {
    unsigned group = request >> 8 & 0xff;
    return group == 'P' || group == 'M';
}

/* A request, whose number says how many bytes its argument has. */
static int asked(int fd, uint64_t token, unsigned long request, void *argument) {
    size_t size = _IOC_SIZE(request);
    bool has_argument = argument && size;
    uint32_t flags = flags_of(fd) | (has_argument ? WIRE_HAS_ARGUMENT : 0);
    if ((request & 0xffffffff) == SNDCTL_DSP_NONBLOCK) {
        fcntl(fd, F_SETFL, fcntl(fd, F_GETFL) | O_NONBLOCK);
    }
    return (int)client_call(WIRE_IOCTL, token, request & 0xffffffff, flags, argument, has_argument ? size : 0, argument,
                            has_argument ? size : 0);
}

int ioctl(int fd, unsigned long request, ...) {
    va_list rest;
    va_start(rest, request);
    void *argument = va_arg(rest, void *);
    va_end(rest);
    uint64_t token = is_of_sound(request) ? client_token(fd) : 0;
    return token ? asked(fd, token, request, argument) : REAL(ioctl)(fd, request, argument);
}

/* ---- mapped memory ---- */

/* The memory that the answer brings, or -1 with errno. */
static int memory_of(int connection) {
    struct wire_answer answer = {0, 0};
    union {
        struct cmsghdr head;
        char bytes[CMSG_SPACE(sizeof(int))];
    } room;
    struct iovec part = {&answer, sizeof answer};
    struct msghdr message = {.msg_iov = &part, .msg_iovlen = 1, .msg_control = &room, .msg_controllen = sizeof room};
    int memory = -1;
    ssize_t count = recvmsg(connection, &message, MSG_CMSG_CLOEXEC | MSG_WAITALL);
    if (count == (ssize_t)sizeof answer && answer.number >= 0 && message.msg_controllen) {
        memcpy(&memory, CMSG_DATA(&room.head), sizeof memory);
    }
    errno = memory < 0 ? (answer.number < 0 ? -answer.number : ENXIO) : errno;
    return memory;
}

static void *mapped(uint64_t token, size_t length, int rights, int flags) {
    int connection = client_begin(WIRE_MAP, token, length, 0, NULL, 0), memory = connection < 0 ? -1 : memory_of(connection);
    if (connection >= 0) {
        syscall(SYS_close, connection);
    }
    if (memory < 0) {
        return MAP_FAILED;
    }
    void *area = (void *)syscall(SYS_mmap, NULL, length, rights, (flags & ~(MAP_FIXED | MAP_PRIVATE)) | MAP_SHARED, memory, 0);
    syscall(SYS_close, memory);
    return area;
}

void *mmap(void *at, size_t length, int rights, int flags, int fd, off_t from) {
    uint64_t token = fd >= 0 && !(flags & MAP_ANONYMOUS) ? client_token(fd) : 0;
    if (token && from == 0) {
        return mapped(token, length, rights, flags);
    }
    return (void *)syscall(SYS_mmap, at, length, rights, flags, fd, from);
}

void *mmap64(void *at, size_t length, int rights, int flags, int fd, off64_t from) {
    return mmap(at, length, rights, flags, fd, from);
}

/* ---- closes ---- */

/* A close waits until all is played, where its descriptor waits and no copy is left. */
int close(int fd) {
    uint64_t token = client_token(fd);
    uint32_t flags = token ? flags_of(fd) : 0;
    int closed = (int)syscall(SYS_close, fd);
    if (token && closed == 0) {
        int before = errno;
        client_call(WIRE_CLOSED, token, 0, flags, NULL, 0, NULL, 0);
        errno = before;
    }
    return closed;
}
