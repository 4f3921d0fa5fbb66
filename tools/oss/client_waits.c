/* Waits of a program: for descriptors, and for time. */
#define _GNU_SOURCE
#include "client.h"

#include <errno.h>
#include <pthread.h>
#include <signal.h>
#include <stdlib.h>
#include <string.h>
#include <sys/epoll.h>
#include <sys/select.h>
#include <sys/syscall.h>
#include <time.h>
#include <unistd.h>

enum { WATCHED = 64, THOUSAND = 1000, MILLION = 1000000, BILLION = 1000000000 };

/* ---- poll ---- */

/* Those of a list that are the holder's, and the list without them, with room for a connection. */
struct sorted {
    struct wire_polled ours[WIRE_POLLED];
    nfds_t places[WIRE_POLLED];
    size_t count;
};

static void sort(const struct pollfd *list, nfds_t count, struct sorted *is) {
    is->count = 0;
    for (nfds_t k = 0; k < count; k += 1) {
        uint64_t token = list[k].fd >= 0 && is->count < WIRE_POLLED ? client_token(list[k].fd) : 0;
        if (token) {
            is->places[is->count] = k;
            is->ours[is->count++] = (struct wire_polled){token, (uint32_t)(unsigned short)list[k].events, 0};
        }
    }
}

/* Puts what is ready of the holder's into a list. Answers how many are. */
static int put_ready(struct pollfd *list, const struct sorted *is) {
    int ready = 0;
    for (size_t k = 0; k < is->count; k += 1) {
        list[is->places[k]].revents = (short)is->ours[k].revents;
        ready += is->ours[k].revents != 0;
    }
    return ready;
}

static int poll_by_system(struct pollfd *list, nfds_t count, const struct timespec *wait, const sigset_t *mask) {
    struct timespec left = wait ? *wait : (struct timespec){0, 0};
    return (int)syscall(SYS_ppoll, list, count, wait ? &left : NULL, mask, _NSIG / 8);
}

static bool is_zero(const struct timespec *wait) {
    return wait && wait->tv_sec == 0 && wait->tv_nsec == 0;
}

/* Waits for both: the system's descriptors, and the connection on which the holder answers for its own. */
static int wait_for_both(struct pollfd *list, nfds_t count, const struct timespec *wait, const sigset_t *mask, struct sorted *is) {
    const size_t size = is->count * sizeof is->ours[0];
    struct pollfd *others = calloc(count + 1, sizeof *others);
    int connection = client_begin(WIRE_POLL, 0, 0, is_zero(wait) ? 0 : WIRE_WAITS, is->ours, size);
    if (!others || connection < 0) {
        free(others);
        return -1;
    }
    memcpy(others, list, count * sizeof *list);
    for (size_t k = 0; k < is->count; k += 1) {
        others[is->places[k]].fd = -1;
    }
    others[count] = (struct pollfd){connection, POLLIN, 0};
    /* the holder answers at once where nothing waits */
    int ready = poll_by_system(others, is_zero(wait) ? count : count + 1, wait, mask);
    bool has_answer = is_zero(wait) || (ready > 0 && others[count].revents);
    if (has_answer) {
        client_end(connection, is->ours, size);
    } else {
        syscall(SYS_close, connection);
    }
    ready -= !is_zero(wait) && has_answer;
    for (nfds_t k = 0; k < count; k += 1) {
        list[k].revents = others[k].revents;
    }
    free(others);
    return ready < 0 ? -1 : ready + put_ready(list, is);
}

/* Where the device goes as fast as it is waited for, a sleep is over once the device has taken as much, if that is sooner. Answers 0 then,
 * EINTR where a signal came before, and -1 where the system is to sleep. errno stays. */
static int slept(const struct timespec *wait) {
    if (!client()->is_there || !client()->is_fast || wait->tv_sec < 0 || is_zero(wait)) {
        return -1;
    }
    uint64_t microseconds = (uint64_t)wait->tv_sec * MILLION + (uint64_t)wait->tv_nsec / THOUSAND;
    int before = errno, connection = client_begin(WIRE_SLEEP, 0, microseconds, WIRE_WAITS, NULL, 0), answer = -1;
    if (connection >= 0) {
        struct pollfd one = {connection, POLLIN, 0};
        answer = poll_by_system(&one, 1, wait, NULL) < 0 ? EINTR : 0;
        syscall(SYS_close, connection);
    }
    errno = before;
    return answer;
}

/* Answers as a call does. */
static int told(int fault) {
    errno = fault > 0 ? fault : errno;
    return fault > 0 ? -1 : 0;
}

static int polled(struct pollfd *list, nfds_t count, const struct timespec *wait, const sigset_t *mask) {
    struct sorted is;
    int fault = count == 0 && wait ? slept(wait) : -1;
    if (fault >= 0) {
        return told(fault);
    }
    if (client()->is_there) {
        sort(list, count, &is);
    }
    return client()->is_there && is.count ? wait_for_both(list, count, wait, mask, &is) : poll_by_system(list, count, wait, mask);
}

int poll(struct pollfd *list, nfds_t count, int milliseconds) {
    const struct timespec wait = {milliseconds / THOUSAND, (long)(milliseconds % THOUSAND) * MILLION};
    return polled(list, count, milliseconds < 0 ? NULL : &wait, NULL);
}

int ppoll(struct pollfd *list, nfds_t count, const struct timespec *wait, const sigset_t *mask) {
    return polled(list, count, wait, mask);
}

int __poll_chk(struct pollfd *list, nfds_t count, int milliseconds, size_t room);
int __poll_chk(struct pollfd *list, nfds_t count, int milliseconds, size_t room) {
    (void)room;
    return poll(list, count, milliseconds);
}

/* ---- select ---- */

static bool is_in(int fd, const fd_set *set) {
    return set && FD_ISSET(fd, set);
}

/* The descriptors of three sets as a list. Answers how many. */
static nfds_t listed(int count, const fd_set *in, const fd_set *out, const fd_set *other, struct pollfd *list) {
    nfds_t used = 0;
    for (int fd = 0; fd < count; fd += 1) {
        short events = (short)((is_in(fd, in) ? POLLIN : 0) | (is_in(fd, out) ? POLLOUT : 0) | (is_in(fd, other) ? POLLPRI : 0));
        if (events) {
            list[used++] = (struct pollfd){fd, events, 0};
        }
    }
    return used;
}

/* Leaves in a set what is ready of it. Answers how many. */
static int leave(fd_set *set, const struct pollfd *list, nfds_t count, short event, short ready) {
    int left = 0;
    for (nfds_t k = 0; set && k < count; k += 1) {
        if (list[k].events & event && list[k].revents & ready) {
            left += 1;
        } else if (list[k].events & event) {
            FD_CLR(list[k].fd, set);
        }
    }
    return left;
}

static bool has_ours(int count, const fd_set *in, const fd_set *out) {
    for (int fd = 0; client()->is_there && fd < count; fd += 1) {
        if ((is_in(fd, in) || is_in(fd, out)) && client_token(fd)) {
            return true;
        }
    }
    return false;
}

static int selected(int count, fd_set *in, fd_set *out, fd_set *other, const struct timespec *wait, const sigset_t *mask) {
    struct pollfd list[FD_SETSIZE];
    nfds_t used = listed(count < FD_SETSIZE ? count : FD_SETSIZE, in, out, other, list);
    int ready = polled(list, used, wait, mask);
    if (ready < 0) {
        return -1;
    }
    return leave(in, list, used, POLLIN, POLLIN | POLLHUP | POLLERR) + leave(out, list, used, POLLOUT, POLLOUT | POLLERR) +
           leave(other, list, used, POLLPRI, POLLPRI);
}

int select(int count, fd_set *in, fd_set *out, fd_set *other, struct timeval *wait) {
    const struct timespec left = {wait ? wait->tv_sec : 0, wait ? wait->tv_usec * THOUSAND : 0};
    if (has_ours(count, in, out)) {
        return selected(count, in, out, other, wait ? &left : NULL, NULL);
    }
    int fault = count == 0 && wait ? slept(&left) : -1;
    return fault >= 0 ? told(fault) : REAL(select)(count, in, out, other, wait);
}

int pselect(int count, fd_set *in, fd_set *out, fd_set *other, const struct timespec *wait, const sigset_t *mask) {
    return has_ours(count, in, out) ? selected(count, in, out, other, wait, mask) : REAL(pselect)(count, in, out, other, wait, mask);
}

/* ---- sleeps ---- */

int nanosleep(const struct timespec *wait, struct timespec *left) {
    int fault = slept(wait);
    if (fault < 0) {
        return REAL(nanosleep)(wait, left);
    }
    if (left) {
        *left = (struct timespec){0, 0};
    }
    return told(fault);
}

int clock_nanosleep(clockid_t clock, int flags, const struct timespec *wait, struct timespec *left) {
    if (flags & TIMER_ABSTIME || !client()->is_fast) {
        return REAL(clock_nanosleep)(clock, flags, wait, left);
    }
    int before = errno, answer = nanosleep(wait, left) == 0 ? 0 : errno;
    errno = before;
    return answer;
}

int usleep(useconds_t microseconds) {
    const struct timespec wait = {microseconds / MILLION, (long)(microseconds % MILLION) * THOUSAND};
    return nanosleep(&wait, NULL);
}

unsigned sleep(unsigned seconds) {
    const struct timespec wait = {seconds, 0};
    struct timespec left = {0, 0};
    return nanosleep(&wait, &left) == 0 ? 0 : (unsigned)left.tv_sec;
}

/* ---- epoll ---- */

/* What epoll was given of descriptors of the holder, which it can't ask itself. */
static struct {
    pthread_mutex_t lock;
    struct watched {
        int epoll, fd;
        struct epoll_event event;
    } list[WATCHED];
    size_t count;
} watches = {.lock = PTHREAD_MUTEX_INITIALIZER};

static struct watched *watched(int epoll, int fd) {
    for (size_t k = 0; k < watches.count; k += 1) {
        if (watches.list[k].epoll == epoll && watches.list[k].fd == fd) {
            return &watches.list[k];
        }
    }
    return NULL;
}

/* Answers 0, or an errno. */
static int watch(int epoll, int what, int fd, const struct epoll_event *event) {
    struct watched *is = watched(epoll, fd);
    if (what == EPOLL_CTL_ADD) {
        if (is || watches.count == WATCHED) {
            return is ? EEXIST : ENOSPC;
        }
        is = &watches.list[watches.count++];
    } else if (!is) {
        return ENOENT;
    }
    *is = what == EPOLL_CTL_DEL ? watches.list[--watches.count] : (struct watched){epoll, fd, *event};
    return 0;
}

int epoll_ctl(int epoll, int what, int fd, struct epoll_event *event) {
    if (!client_token(fd)) {
        return REAL(epoll_ctl)(epoll, what, fd, event);
    }
    pthread_mutex_lock(&watches.lock);
    int fault = watch(epoll, what, fd, event);
    pthread_mutex_unlock(&watches.lock);
    errno = fault ? fault : errno;
    return fault ? -1 : 0;
}

/* The descriptors of the holder that an epoll watches, after it in a list. What is closed is watched no more. */
static nfds_t with_watched(int epoll, struct pollfd *list, struct epoll_event *events) {
    nfds_t count = 0;
    list[count++] = (struct pollfd){epoll, POLLIN, 0};
    pthread_mutex_lock(&watches.lock);
    for (size_t k = 0; k < watches.count; k += 1) {
        if (watches.list[k].epoll == epoll && client_token(watches.list[k].fd)) {
            events[count] = watches.list[k].event;
            list[count++] = (struct pollfd){watches.list[k].fd, (short)(watches.list[k].event.events & (EPOLLIN | EPOLLOUT)), 0};
        }
    }
    pthread_mutex_unlock(&watches.lock);
    return count;
}

int epoll_pwait(int epoll, struct epoll_event *events, int most, int milliseconds, const sigset_t *mask) {
    struct pollfd list[WATCHED + 1];
    struct epoll_event of[WATCHED + 1];
    const struct timespec wait = {milliseconds / THOUSAND, (long)(milliseconds % THOUSAND) * MILLION};
    nfds_t count = watches.count && client()->is_there ? with_watched(epoll, list, of) : 0;
    if (count < 2) {
        return (int)syscall(SYS_epoll_pwait, epoll, events, most, milliseconds, mask, _NSIG / 8);
    }
    int ready = polled(list, count, milliseconds < 0 ? NULL : &wait, mask), found = 0;
    if (ready > 0 && list[0].revents) {
        found = (int)syscall(SYS_epoll_pwait, epoll, events, most, 0, NULL, _NSIG / 8);
    }
    for (nfds_t k = 1; ready > 0 && k < count && found < most; k += 1) {
        if (list[k].revents) {
            events[found] = of[k];
            events[found++].events = (uint32_t)(unsigned short)list[k].revents;
        }
    }
    return ready < 0 ? -1 : found;
}

int epoll_wait(int epoll, struct epoll_event *events, int most, int milliseconds) {
    return epoll_pwait(epoll, events, most, milliseconds, NULL);
}
