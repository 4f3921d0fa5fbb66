/* The process that holds the engine: its descriptors, the calls on them, and its time. */
#ifndef HOLDER_H
#define HOLDER_H

#include "device.h"
#include "wire.h"

enum { TOKENS = 64, CALLS = 256, NATIVE = 4096, AREA_MOST = 131072, ASKED = 7, ASKED_WRITE = 5, ASKED_READ = 6 };

/* A descriptor of programs, however many copies of it there are. One for both ways is two of the engine. */
struct token {
    bool used, is_hung;
    enum wire_kind kind;
    int fd;       /* the holder's end */
    uint64_t ino; /* of the program's end */
    int play, rec;
    bool may_record; /* it was opened for both ways, and records from its first read on */
    bool maps, drains, has_sound, is_recording;
    uint32_t thread;         /* who used it last */
    uint64_t asked[ASKED];   /* the changes that there were as each question was answered last, and a write and a read refused */
    uint8_t native[NATIVE];  /* bytes that came by no call */
    uint32_t native_at, native_size;
    uint64_t ready_at; /* the device's frames at which a mapped one was ready last */
    uint32_t fragments, ring; /* of its area: the number that asks for them, and its bytes */
    int memory; /* of its area, and what it is mapped to; and what the engine knows of it */
    uint8_t *area, *poked;
};

/* A call that is read, or waits. */
struct call {
    bool used, is_whole, is_begun, is_taken_back;
    int fd;
    struct wire_call head;
    size_t got, done;
    uint64_t until; /* the device's frames that it waits for, or the changes */
    uint8_t bytes[WIRE_MOST];
};

enum pace { PACE_CLOCK, PACE_FAST, PACE_STEP };

struct holder {
    struct device device;
    struct token tokens[TOKENS];
    struct call *calls[CALLS];
    const char *wave_path, *kept_path;
    enum pace pace;
    int listens, control;
    bool is_ending, was_opened, has_failed;
    uint64_t tail;     /* the device's frames at which all that was closed is played */
    int64_t clock_at;  /* when the last interrupt came that went by the clock, in nanoseconds; 0 while it stands */
    int64_t held_from; /* since when the device waits for a program that would be short */
};

/* ---- descriptors ---- */

struct token *token_of(struct holder *holder, uint64_t ino);
/* Opens what a call asks for, whose connection becomes the descriptor. Answers 0 or minus an errno. */
int token_open(struct holder *holder, struct call *call);
/* Takes in what came by no call. Answers whether nothing of it waits. */
bool token_is_clear(struct holder *holder, struct token *token);
/* An interrupt of as many frames as a text says. */
void token_step(struct holder *holder, const char *text);
void token_close(struct holder *holder, struct token *token);
/* The descriptor of the engine to record from, opened where it may be. Answers -1 where there is none. */
int token_rec(struct holder *holder, struct token *token);
/* Starts a recording, as its first read does. */
void token_start_recording(struct holder *holder, struct token *token);
/* Makes a descriptor a mapped one, and its memory. Answers 0 or minus an errno. */
int token_map(struct holder *holder, struct token *token, uint64_t length);
/* Gives the engine what was stored into areas. */
void token_poke(struct holder *holder, struct token *token);
/* Makes an area silent, as the engine does where its settings became others. */
void token_is_silent(struct holder *holder, struct token *token);
/* The bytes that wait in the ring of a descriptor that plays, and the frames of the device that they last for. */
uint64_t token_waiting(struct holder *holder, const struct token *token);
uint64_t token_lasts(struct holder *holder, const struct token *token, uint64_t bytes);
bool token_plays(struct holder *holder, const struct token *token);
/* Whether it plays to its end after a sync. */
bool token_drains(struct holder *holder, struct token *token);
/* Whether time changes something for a descriptor. */
bool token_moves(struct holder *holder, struct token *token);
bool token_is_ready(struct holder *holder, struct token *token, uint32_t events, uint32_t *revents);

/* ---- calls ---- */

/* Goes on with a call. Answers whether it is over. */
bool call_serve(struct holder *holder, struct call *call);
/* Answers a call that is taken back with what it has so far. */
void call_end(struct call *call);
void call_answer(struct call *call, int32_t number, const void *bytes, uint32_t length);
int oss_request(struct holder *holder, struct token *token, uint32_t request, void *argument, size_t size);
int mixer_request(struct holder *holder, uint32_t request, void *argument, size_t size);
bool is_mixer_request(uint32_t request);

/* ---- time ---- */

/* Lets the time of the device go on as far as it may. Answers in how many milliseconds it has to be looked at again, or -1. */
int time_goes(struct holder *holder);
void interrupt(struct holder *holder, uint32_t frames);

#endif
