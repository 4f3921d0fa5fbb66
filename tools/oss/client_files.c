/* Opens of a program, and what it is answered of the paths. */
#define _GNU_SOURCE
#include "client.h"

#include <errno.h>
#include <fcntl.h>
#include <stdarg.h>
#include <stdio.h>
#include <string.h>
#include <sys/syscall.h>
#include <unistd.h>

/* ---- opens ---- */

static mode_t mode_of(int flags, va_list rest) {
    return flags & O_CREAT || (flags & O_TMPFILE) == O_TMPFILE ? va_arg(rest, mode_t) : 0;
}

static int opened(int at, const char *path, int flags, mode_t mode) {
    enum wire_kind kind;
    return client_knows(path, &kind) ? client_open(kind, flags) : (int)syscall(SYS_openat, at, path, flags, mode);
}

int open(const char *path, int flags, ...) {
    va_list rest;
    va_start(rest, flags);
    mode_t mode = mode_of(flags, rest);
    va_end(rest);
    return opened(AT_FDCWD, path, flags, mode);
}

int open64(const char *path, int flags, ...) {
    va_list rest;
    va_start(rest, flags);
    mode_t mode = mode_of(flags, rest);
    va_end(rest);
    return opened(AT_FDCWD, path, flags | O_LARGEFILE, mode);
}

int openat(int at, const char *path, int flags, ...) {
    va_list rest;
    va_start(rest, flags);
    mode_t mode = mode_of(flags, rest);
    va_end(rest);
    return opened(at, path, flags, mode);
}

int openat64(int at, const char *path, int flags, ...) {
    va_list rest;
    va_start(rest, flags);
    mode_t mode = mode_of(flags, rest);
    va_end(rest);
    return opened(at, path, flags | O_LARGEFILE, mode);
}

int __open_2(const char *path, int flags);
int __open_2(const char *path, int flags) {
    return opened(AT_FDCWD, path, flags, 0);
}

int __open64_2(const char *path, int flags);
int __open64_2(const char *path, int flags) {
    return opened(AT_FDCWD, path, flags | O_LARGEFILE, 0);
}

int __openat_2(int at, const char *path, int flags);
int __openat_2(int at, const char *path, int flags) {
    return opened(at, path, flags, 0);
}

int __openat64_2(int at, const char *path, int flags);
int __openat64_2(int at, const char *path, int flags) {
    return opened(at, path, flags | O_LARGEFILE, 0);
}

int creat(const char *path, mode_t mode) {
    return opened(AT_FDCWD, path, O_WRONLY | O_CREAT | O_TRUNC, mode);
}

int creat64(const char *path, mode_t mode) {
    return opened(AT_FDCWD, path, O_WRONLY | O_CREAT | O_TRUNC | O_LARGEFILE, mode);
}

/* ---- streams ---- */

static ssize_t read_stream(void *cookie, char *bytes, size_t count) {
    return read((int)(intptr_t)cookie, bytes, count);
}

static ssize_t write_stream(void *cookie, const char *bytes, size_t count) {
    ssize_t done = write((int)(intptr_t)cookie, bytes, count);
    return done < 0 ? 0 : done;
}

static int close_stream(void *cookie) {
    return close((int)(intptr_t)cookie);
}

/* A stream over a descriptor: its reads and writes are those of this library, and fileno answers the descriptor. */
static FILE *stream_of(int fd, const char *mode) {
    FILE *file = fd < 0 ? NULL : fopencookie((void *)(intptr_t)fd, mode, (cookie_io_functions_t){read_stream, write_stream, NULL, close_stream});
    if (file) {
        file->_fileno = fd;
    }
    return file;
}

static int flags_of(const char *mode) {
    if (strchr(mode, '+')) {
        return O_RDWR;
    }
    return mode[0] == 'r' ? O_RDONLY : O_WRONLY;
}

FILE *fopen(const char *path, const char *mode) {
    enum wire_kind kind;
    if (!client_knows(path, &kind)) {
        return REAL(fopen)(path, mode);
    }
    return stream_of(client_open(kind, flags_of(mode) | (strchr(mode, 'e') ? O_CLOEXEC : 0)), mode);
}

FILE *fopen64(const char *path, const char *mode) {
    enum wire_kind kind;
    return client_knows(path, &kind) ? fopen(path, mode) : REAL(fopen64)(path, mode);
}

FILE *fdopen(int fd, const char *mode) {
    return client_token(fd) ? stream_of(fd, mode) : REAL(fdopen)(fd, mode);
}

int fileno(FILE *file) {
    return file && file->_fileno > 0 && client_token(file->_fileno) ? file->_fileno : REAL(fileno)(file);
}

/* ---- what is answered of paths ---- */

static int told(struct stat *is, enum wire_kind kind) {
    memset(is, 0, sizeof *is);
    client_stat(is, kind);
    return 0;
}

/* What the system answers of a descriptor, with what it stands for. */
static int told_of(int fd, struct stat *is) {
    int answer = (int)syscall(SYS_newfstatat, fd, "", is, AT_EMPTY_PATH);
    if (answer == 0 && S_ISSOCK(is->st_mode) && client_token(fd)) {
        client_stat(is, KIND_DSP);
    }
    return answer;
}

static int stat_at(int at, const char *path, struct stat *is, int flags) {
    enum wire_kind kind;
    if (client_knows(path, &kind)) {
        return told(is, kind);
    }
    if (path && !*path && flags & AT_EMPTY_PATH) {
        return told_of(at, is);
    }
    return (int)syscall(SYS_newfstatat, at, path, is, flags);
}

int stat(const char *path, struct stat *is) {
    return stat_at(AT_FDCWD, path, is, 0);
}

int lstat(const char *path, struct stat *is) {
    return stat_at(AT_FDCWD, path, is, AT_SYMLINK_NOFOLLOW);
}

int fstat(int fd, struct stat *is) {
    return told_of(fd, is);
}

int fstatat(int at, const char *path, struct stat *is, int flags) {
    return stat_at(at, path, is, flags);
}

/* On x86-64 both structs are one. */
int stat64(const char *path, struct stat64 *is) {
    return stat_at(AT_FDCWD, path, (struct stat *)(void *)is, 0);
}

int lstat64(const char *path, struct stat64 *is) {
    return stat_at(AT_FDCWD, path, (struct stat *)(void *)is, AT_SYMLINK_NOFOLLOW);
}

int fstat64(int fd, struct stat64 *is) {
    return told_of(fd, (struct stat *)(void *)is);
}

int fstatat64(int at, const char *path, struct stat64 *is, int flags) {
    return stat_at(at, path, (struct stat *)(void *)is, flags);
}

/* Programs that were built with an older C library call these. */
int __xstat(int version, const char *path, struct stat *is);
int __xstat(int version, const char *path, struct stat *is) {
    (void)version;
    return stat(path, is);
}

int __lxstat(int version, const char *path, struct stat *is);
int __lxstat(int version, const char *path, struct stat *is) {
    (void)version;
    return lstat(path, is);
}

int __fxstat(int version, int fd, struct stat *is);
int __fxstat(int version, int fd, struct stat *is) {
    (void)version;
    return fstat(fd, is);
}

int __xstat64(int version, const char *path, struct stat64 *is);
int __xstat64(int version, const char *path, struct stat64 *is) {
    (void)version;
    return stat64(path, is);
}

int __lxstat64(int version, const char *path, struct stat64 *is);
int __lxstat64(int version, const char *path, struct stat64 *is) {
    (void)version;
    return lstat64(path, is);
}

int __fxstat64(int version, int fd, struct stat64 *is);
int __fxstat64(int version, int fd, struct stat64 *is) {
    (void)version;
    return fstat64(fd, is);
}

int statx(int at, const char *path, int flags, unsigned mask, struct statx *is) {
    struct stat told_is;
    enum wire_kind kind = KIND_DSP;
    bool is_known = client_knows(path, &kind) || (!*path && flags & AT_EMPTY_PATH && client_token(at));
    if (!is_known) {
        return (int)syscall(SYS_statx, at, path, flags, mask, is);
    }
    told(&told_is, kind);
    memset(is, 0, sizeof *is);
    is->stx_mask = STATX_BASIC_STATS;
    is->stx_mode = (uint16_t)told_is.st_mode;
    is->stx_nlink = 1;
    is->stx_blksize = (uint32_t)told_is.st_blksize;
    is->stx_rdev_major = 14;
    is->stx_rdev_minor = kind == KIND_MIXER ? 0 : 3;
    return 0;
}

/* ---- access ---- */

static int accessed(const char *path, int wanted, int otherwise) {
    enum wire_kind kind;
    if (!client_knows(path, &kind)) {
        return otherwise;
    }
    errno = wanted & X_OK ? EACCES : errno;
    return wanted & X_OK ? -1 : 0;
}

int access(const char *path, int wanted) {
    enum wire_kind kind;
    return client_knows(path, &kind) ? accessed(path, wanted, 0) : REAL(access)(path, wanted);
}

int faccessat(int at, const char *path, int wanted, int flags) {
    enum wire_kind kind;
    return client_knows(path, &kind) ? accessed(path, wanted, 0) : REAL(faccessat)(at, path, wanted, flags);
}

int euidaccess(const char *path, int wanted) {
    enum wire_kind kind;
    return client_knows(path, &kind) ? accessed(path, wanted, 0) : REAL(euidaccess)(path, wanted);
}

int eaccess(const char *path, int wanted) {
    return euidaccess(path, wanted);
}
