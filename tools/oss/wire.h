/*
 * What the library in a program (client*.c) and the process that holds the engine (holder.c) say to each other.
 *
 * An open of /dev/dsp is a connection to the holder, and its end in the program is the descriptor that the program gets. So it is copied,
 * inherited and handed on as any other, what is written to it by a way that isn't caught comes as bytes, and the holder sees when the last
 * copy of it is closed. Each call on it has a connection of its own, which names the descriptor by the number of its inode, and is over with
 * its answer. A call that waits is taken back by one more byte, and answered with what it has so far.
 */
#ifndef WIRE_H
#define WIRE_H

#include <stdint.h>

/* the most bytes of one call; and the names of what a program finds in its environment of the holder */
enum { WIRE_MOST = 65536, WIRE_POLLED = 64 };
#define WIRE_PATH "DSP_LIVE"
#define WIRE_FAST "DSP_LIVE_FAST"

enum wire_op {
    WIRE_OPEN,   /* number: flags of open; kind: what is opened. The connection is the descriptor from then on */
    WIRE_WRITE,  /* the bytes. Answers how many were taken */
    WIRE_READ,   /* number: how many are wanted. The answer has the bytes */
    WIRE_IOCTL,  /* number: the request; the bytes of its argument. The answer has these again */
    WIRE_MAP,    /* number: the bytes. The answer brings a descriptor of memory */
    WIRE_POLL,   /* struct wire_polled for each. The answer has them again */
    WIRE_CLOSED, /* a copy was closed. Answered once all is played, if it was the last */
    WIRE_SLEEP   /* number: microseconds. Answered once the device took as much */
};

enum wire_kind { KIND_DSP, KIND_MIXER, KIND_STEP };

/* flags of a call */
enum { WIRE_WAITS = 1, WIRE_HAS_ARGUMENT = 2 };

struct wire_call {
    uint32_t op;
    uint32_t flags;
    uint64_t token; /* the number of the descriptor's inode */
    uint64_t number;
    uint32_t kind;
    uint32_t thread; /* who calls */
    uint32_t length; /* of the bytes after this */
    uint32_t unused;
};

struct wire_answer {
    int32_t number; /* 0 or more, or minus an errno */
    uint32_t length;
};

struct wire_polled {
    uint64_t token;
    uint32_t events;
    uint32_t revents;
};

#endif
