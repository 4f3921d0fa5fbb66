/* The library in a program: what it shares. All that it keeps is in one struct, and none of it changes after its begin but what epoll watches. */
#ifndef CLIENT_H
#define CLIENT_H

#include "wire.h"

#include <poll.h>
#include <stdbool.h>
#include <stddef.h>
#include <sys/socket.h>
#include <sys/stat.h>
#include <sys/types.h>
#include <sys/un.h>

struct client {
    bool is_there, is_fast;
    struct sockaddr_un holder;
    socklen_t size;
};

/* What the environment says, once; without a holder nothing is caught. */
const struct client *client(void);

/* The system's function that one of this library's replaces, looked for once at each place. */
void *client_real(const char *name);
#define REAL(name)                                                                                                                              \
    (__extension__({                                                                                                                            \
        static __typeof__(&name) real;                                                                                                          \
        real = real ? real : (__typeof__(&name))client_real(#name);                                                                             \
        real;                                                                                                                                   \
    }))

/* The number of a descriptor that is one of the holder's, or 0. errno stays. */
uint64_t client_token(int fd);
bool client_waits(int fd);

/* What a path is that the holder answers for. */
bool client_knows(const char *path, enum wire_kind *kind);

/* Opens a path of the holder. */
int client_open(enum wire_kind kind, int flags);

/* Begins a call, with its bytes. Answers the connection, or -1 with errno. */
int client_begin(enum wire_op op, uint64_t token, uint64_t number, uint32_t flags, const void *bytes, size_t length);

/* Ends a call: its answer, whose bytes are put where there is room. Answers as the call does, or -1 with errno. */
long client_end(int connection, void *bytes, size_t room);

/* Both. */
long client_call(enum wire_op op, uint64_t token, uint64_t number, uint32_t flags, const void *bytes, size_t length, void *into, size_t room);

/* What stat answers of such a path or descriptor. */
void client_stat(struct stat *is, enum wire_kind kind);

#endif
