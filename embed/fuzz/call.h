/* A call of the library, as the fuzzer makes it. */
#ifndef FUZZ_CALL_H
#define FUZZ_CALL_H

#include "setup.h"

enum call_kind {
    CALL_OPEN,
    CALL_WRITE,
    CALL_POKE,
    CALL_READ,
    CALL_IOCTL,
    CALL_JOIN,
    CALL_START,
    CALL_CLOSE,
    CALL_MIXER,
    CALL_INTERRUPT,
    CALL_NEW, /* of an engine that is there */
    CALL_CLONE, /* of the engine, which makes way for its clone */
    CALL_LOAD, /* of the engine, which makes way for one that was elsewhere and is loaded with its state */
    CALL_ASK, /* a question */
    CALL_KINDS
};

enum question_kind {
    ASK_SETTINGS,
    ASK_PEEK,
    ASK_SLOT,
    ASK_IS_IDLE,
    ASK_IS_READY,
    ASK_READY,
    ASK_FRAMES_UNTIL,
    ASK_SPACE,
    ASK_POSITION,
    ASK_DELAY,
    ASK_ERRORS,
    QUESTIONS
};

/* The places of a call's numbers, which are those of the function's parameters after the engine. */
enum call_number {
    FD = 0,
    WAY = 1,
    FORMAT = 2,
    CHANNELS = 3,
    RATE = 4,
    OFFSET = 1,
    REQUEST = 1,
    ARGUMENT = 2,
    GROUP = 1,
    MIXER_REQUEST = 0,
    MIXER_SLOT = 1,
    MIXER_VALUE = 2,
    FRAMES = 0,
    SLOT = 2,
    UNTIL = 1,
    QUESTION = 4, /* which one it is, of a question */
    NUMBERS = 5
};

enum {
    DESCRIPTORS = 64,
    READ_MOST = 4096,
    WRITTEN_MOST = 1 << 18, /* bytes that a call brings */
    ROOM_MOST = 3 * READ_MOST /* that a read is given */
};

struct call {
    enum call_kind kind;
    uint32_t numbers[NUMBERS];
    size_t length; /* bytes that it brings, or samples */
    size_t room;   /* bytes that it has room for */
    uint32_t seed; /* what it brings; of a question what the other engine is asked; of a load the bit that is turned first */
    bool is_null;  /* its pointer to bytes, to room or to an answer */
};

/* The calls of an input: those that it says, and then some that ask and hear what these left. */
struct calls {
    struct input input;
    const struct dsp_device *device;
    uint32_t frames_left; /* that interrupts may still take, so that no input takes long */
    uint32_t made;        /* that the input said */
    uint32_t asked;       /* after them */
    bool has_next;        /* after a question the call that it was about */
    struct call next;
};

/* The calls after a setup, which is the one that the input began with. */
void begin_calls(struct calls *calls, struct input input, const struct setup *setup);

/* The next call. Answers false after the last one. */
bool next_call(struct calls *calls, struct call *call);

/* Bytes of a sample, of a frame of the device. */
uint32_t sample_bytes(uint32_t format);
uint32_t frame_bytes(const struct dsp_device *device);

#endif
