/* Calls of the library to the holder. Each has a connection of its own, so threads and children need no lock. */
#define _GNU_SOURCE
#include "client.h"

#include <dlfcn.h>
#include <errno.h>
#include <fcntl.h>
#include <stdlib.h>
#include <string.h>
#include <sys/syscall.h>
#include <sys/sysmacros.h>
#include <unistd.h>

enum { DSP_MAJOR = 14, DSP_MINOR = 3 };

const struct client *client(void) {
    static struct client is;
    static bool is_read;
    const char *path = is_read ? NULL : getenv(WIRE_PATH);
    if (path && strlen(path) < sizeof is.holder.sun_path) {
        is.holder.sun_family = AF_UNIX;
        strcpy(is.holder.sun_path, path);
        is.size = sizeof is.holder;
        is.is_fast = getenv(WIRE_FAST) != NULL;
        is.is_there = true;
    }
    is_read = true;
    return &is;
}

void *client_real(const char *name) {
    return dlsym(RTLD_NEXT, name);
}

static int close_by_system(int fd) {
    return (int)syscall(SYS_close, fd);
}

/* ---- descriptors ---- */

/* A descriptor is the holder's where the other end of its connection has the holder's name. */
uint64_t client_token(int fd) {
    struct sockaddr_un other;
    struct stat is;
    socklen_t size = sizeof other;
    int before = errno;
    bool is_so = client()->is_there && getpeername(fd, (struct sockaddr *)&other, &size) == 0 && size > sizeof other.sun_family &&
                 other.sun_family == AF_UNIX && strncmp(other.sun_path, client()->holder.sun_path, sizeof other.sun_path) == 0 &&
                 syscall(SYS_newfstatat, fd, "", &is, AT_EMPTY_PATH) == 0;
    errno = before;
    return is_so ? (uint64_t)is.st_ino : 0;
}

bool client_waits(int fd) {
    return !(fcntl(fd, F_GETFL) & O_NONBLOCK);
}

/* Whether a name is one of a device, with a digit after it or without: all of them are one. */
static bool is_device(const char *path, const char *name) {
    size_t length = strlen(name);
    return strncmp(path, name, length) == 0 && strlen(path + length) <= 1 && strspn(path + length, "0123456789") == strlen(path + length);
}

bool client_knows(const char *path, enum wire_kind *kind) {
    if (!path || !client()->is_there || strncmp(path, "/dev/", 5) != 0) {
        return false;
    }
    *kind = strcmp(path, "/dev/dsp.step") == 0 ? KIND_STEP : is_device(path, "/dev/mixer") ? KIND_MIXER : KIND_DSP;
    return *kind != KIND_DSP || is_device(path, "/dev/dsp") || strcmp(path, "/dev/sound/dsp") == 0;
}

void client_stat(struct stat *is, enum wire_kind kind) {
    is->st_mode = S_IFCHR | 0666;
    is->st_rdev = makedev(DSP_MAJOR, kind == KIND_MIXER ? 0 : DSP_MINOR);
    is->st_nlink = 1;
    is->st_size = 0;
    is->st_blksize = 4096;
}

/* ---- calls ---- */

static int connected(void) {
    int fd = socket(AF_UNIX, SOCK_STREAM | SOCK_CLOEXEC, 0);
    if (fd >= 0 && connect(fd, (const struct sockaddr *)&client()->holder, client()->size) != 0) {
        close_by_system(fd);
        errno = ENXIO;
        return -1;
    }
    return fd;
}

static bool is_sent(int fd, const void *bytes, size_t length) {
    for (size_t done = 0; done < length;) {
        ssize_t sent = send(fd, (const char *)bytes + done, length - done, MSG_NOSIGNAL);
        if (sent < 0 && errno != EINTR) {
            return false;
        }
        done += sent > 0 ? (size_t)sent : 0;
    }
    return true;
}

static bool is_sent_call(int fd, const struct wire_call *head, const void *bytes) {
    return is_sent(fd, head, sizeof *head) && is_sent(fd, bytes, head->length);
}

int client_begin(enum wire_op op, uint64_t token, uint64_t number, uint32_t flags, const void *bytes, size_t length) {
    const struct wire_call head = {.op = op, .flags = flags, .token = token, .number = number, .thread = (uint32_t)syscall(SYS_gettid),
                                   .length = (uint32_t)length};
    int fd = connected();
    if (fd >= 0 && !is_sent_call(fd, &head, bytes)) {
        close_by_system(fd);
        errno = ENXIO;
        return -1;
    }
    return fd;
}

/* Receives length bytes. A signal takes the call back once, and then its answer comes at once. */
static bool is_received(int fd, void *bytes, size_t length, bool *is_back) {
    for (size_t done = 0; done < length;) {
        ssize_t got = recv(fd, (char *)bytes + done, length - done, 0);
        if (got == 0 || (got < 0 && errno != EINTR)) {
            return false;
        }
        if (got < 0 && !*is_back) {
            *is_back = is_sent(fd, "", 1);
        }
        done += got > 0 ? (size_t)got : 0;
    }
    return true;
}

static bool has_answer(int fd, struct wire_answer *answer, void *bytes, size_t room) {
    bool is_back = false;
    return is_received(fd, answer, sizeof *answer, &is_back) && answer->length <= room && is_received(fd, bytes, answer->length, &is_back);
}

long client_end(int fd, void *bytes, size_t room) {
    struct wire_answer answer;
    bool is_there = has_answer(fd, &answer, bytes, room);
    close_by_system(fd);
    if (!is_there || answer.number < 0) {
        errno = is_there ? -answer.number : ENXIO;
        return -1;
    }
    return answer.number;
}

long client_call(enum wire_op op, uint64_t token, uint64_t number, uint32_t flags, const void *bytes, size_t length, void *into, size_t room) {
    int fd = client_begin(op, token, number, flags, bytes, length);
    return fd < 0 ? -1 : client_end(fd, into, room);
}

/* The connection stays: it is the descriptor. Little waits in it that the engine doesn't know. */
int client_open(enum wire_kind kind, int flags) {
    struct wire_answer answer = {0, 0};
    struct wire_call head = {.op = WIRE_OPEN, .kind = kind, .number = (uint64_t)flags, .thread = (uint32_t)syscall(SYS_gettid)};
    struct stat is;
    const int least = 1;
    int fd = connected();
    if (fd < 0 || syscall(SYS_newfstatat, fd, "", &is, AT_EMPTY_PATH) != 0) {
        return -1;
    }
    head.token = (uint64_t)is.st_ino;
    if (!is_sent_call(fd, &head, NULL) || !has_answer(fd, &answer, NULL, 0) || answer.number < 0) {
        close_by_system(fd);
        errno = answer.number < 0 ? -answer.number : ENXIO;
        return -1;
    }
    setsockopt(fd, SOL_SOCKET, SO_SNDBUF, &least, sizeof least);
    fcntl(fd, F_SETFL, flags & O_NONBLOCK);
    fcntl(fd, F_SETFD, flags & O_CLOEXEC ? FD_CLOEXEC : 0);
    return fd;
}
