/*
 * The engine of dsp_replay as a library: what a kernel does with the sound of several clients, call by call, with the caller's own
 * bytes. It is proved to do what docs/SPEC.md says; docs/EMBEDDING.md says what that is for a caller, and what is trusted.
 *
 * An engine is one device. A client opens a descriptor of it, writes frames, and asks for its room and its position by the requests of
 * the Open Sound System. Each call is one indivisible step. An interrupt, which is a call too, mixes what the clients gave and hands
 * over the bytes that leave the device then.
 *
 *   dsp_engine_new, dsp_engine_free            an engine in a struct of the caller's
 *   dsp_engine_create, dsp_engine_destroy      an engine in a struct of the library's
 *   dsp_engine_clone                           an engine that goes on where another one is
 *   dsp_engine_state_size, dsp_engine_save,    an engine's state as bytes, and the engine that goes on there
 *   dsp_engine_load
 *   dsp_engine_open, dsp_engine_close          a client's descriptor
 *   dsp_engine_write, dsp_engine_poke          bytes to the device
 *   dsp_engine_read                            bytes from the device
 *   dsp_engine_ioctl                           what a client asks of its channel
 *   dsp_engine_join, dsp_engine_start          groups of channels that start together
 *   dsp_engine_mixer                           volumes
 *   dsp_engine_interrupt                       the device takes frames
 *   dsp_engine_frames_left                     how many frames an engine still hands over
 *   dsp_engine_settings, dsp_engine_peek       how a channel is, and what a request would be answered
 *   dsp_engine_space, dsp_engine_position,     room, position, delay and shortages of a channel
 *   dsp_engine_delay, dsp_engine_errors
 *   dsp_engine_slot, dsp_engine_is_idle        who has a slot, and whether any is taken
 *   dsp_engine_is_ready, dsp_engine_ready      which descriptors are ready
 *   dsp_engine_frames_until                    and after how many frames one will be
 *   dsp_engine_error, dsp_engine_errno         what an answer means
 *   dsp_engine_request_name                    the name of a request
 *   dsp_engine_version                         the library's version
 *
 * Each call of an engine answers a number: 0 or more where it was accepted, and one of the negative ones below where not. A call that
 * answers a negative number has changed nothing. No call but dsp_engine_new, dsp_engine_create, dsp_engine_clone and dsp_engine_load takes
 * memory, none waits, and none keeps a pointer of the caller.
 *
 * One engine may be used by one thread at a time. Two engines have nothing in common.
 *
 * The library's code is for processors of x86-64-v2, and doesn't test for one. No function takes more than 20 KB of stack,
 * but dsp_engine_load 24.
 */
#ifndef DSP_ENGINE_H
#define DSP_ENGINE_H

#include <stdbool.h>
#include <stddef.h>
#include <stdint.h>

#ifdef __cplusplus
extern "C" {
#endif

/* ---- the version ---- */

/* Of this header: the major number * 65536 + the minor one * 256 + that of the patch. dsp_engine_version answers the library's. */
#define DSP_ENGINE_VERSION 0x00020100

/* The release of dsp_replay that this header is of. The library keeps a version of its own. */
#define DSP_RELEASE "0.2.0"

/* ---- what calls answer ---- */

/* The ring has no room for a write now, or no byte for a read. */
#define DSP_AGAIN (-1)
/* No slot is free, or the channel's state doesn't allow it. */
#define DSP_BUSY (-2)
/* The request is of another way, or its argument is outside its set. */
#define DSP_INVALID (-3)
/* The descriptor isn't open. */
#define DSP_BAD_DESCRIPTOR (-4)
/* The descriptor is open already. */
#define DSP_EXISTS (-5)
/* There is no memory. Only dsp_engine_new, dsp_engine_create, dsp_engine_clone and dsp_engine_load answer it. */
#define DSP_NO_MEMORY (-6)
/* A number is outside its limits, or captured samples are more than the frames have, or end with a part of a frame. */
#define DSP_WRONG_ARGUMENT (-7)
/* A pointer is null that may not be. */
#define DSP_NULL_POINTER (-8)
/* There is no engine; or, where one is to be made, there is one already. */
#define DSP_NOT_AN_ENGINE (-9)
/* The room for what is handed over, or for a state, is too small. */
#define DSP_SHORT_ROOM (-10)
/* The engine doesn't hand over as many frames any more: see dsp_engine_frames_left. */
#define DSP_WORN_OUT (-11)

/* Why a state isn't loaded. Only dsp_engine_load answers these, and never of the bytes that dsp_engine_save wrote of the same device. */

/* The bytes don't begin as a state of this version. */
#define DSP_NOT_A_STATE (-12)
/* The state is of another device, or of other filters or sections. */
#define DSP_OTHER_DEVICE (-13)
/* The state ends too early. */
#define DSP_SHORT_STATE (-14)
/* Bytes follow after the end of the state. */
#define DSP_LONG_STATE (-15)
/* A number of the state stands for nothing. */
#define DSP_UNSPELLED (-16)
/* Counts of the state contradict each other. */
#define DSP_OUT_OF_ORDER (-17)

/* ---- an engine ---- */

/*
 * An engine, or none. The caller has the struct and the library what it points to. It begins as DSP_NO_ENGINE, and may be moved, but not
 * be copied: of two copies one alone may be used again. dsp_engine_clone makes another engine, and dsp_engine_save keeps where one is.
 */
struct dsp_engine {
    bool there;
    void *at;
};

#define DSP_NO_ENGINE {false, NULL}

/* Sample formats, by the codes of SNDCTL_DSP_SETFMT: the bits, and which byte comes first. 24 bits are three bytes. */
enum dsp_format {
    DSP_U8 = 0x8,
    DSP_S8 = 0x40,
    DSP_S16_LE = 0x10,
    DSP_S16_BE = 0x20,
    DSP_U16_LE = 0x80,
    DSP_U16_BE = 0x100,
    DSP_S24_LE = 0x10000,
    DSP_S24_BE = 0x20000,
    DSP_U24_LE = 0x40000,
    DSP_U24_BE = 0x80000,
    DSP_S32_LE = 0x1000,
    DSP_S32_BE = 0x2000,
    DSP_U32_LE = 0x4000,
    DSP_U32_BE = 0x8000
};

/* A device. */
struct dsp_device {
    uint32_t format;       /* of the frames that are handed over: one of enum dsp_format */
    uint32_t channels;     /* 1, 2, 4, 6 or 8 */
    uint32_t rate;         /* frames per second, 4000 to 192000 */
    uint32_t mix_channels; /* channels of the mix; 0: as the device */
    uint32_t mix_rate;     /* frames per second of the mix; 0: as the device */
    uint32_t ring_frames;  /* frames of the device's ring, 1 to 262144: what is mixed is handed over that many frames later */
    uint32_t play_slots;   /* how many clients can play at once. With those that are mapped at most 16 */
    uint32_t record_slots; /* how many can record at once, at most 16 */
    uint32_t map_slots;    /* how many can have a mapped area at once */
    uint32_t quality;      /* of changes of rate: 0 holds frames, 1 draws lines, 2 to 4 take a filter where there is one */
};

/* s16le, two channels, 48000 Hz, a ring of 1024 frames; four clients play, four record, none is mapped; lines. */
#define DSP_DEVICE_DEFAULT {DSP_S16_LE, 2, 48000, 0, 0, 1024, 4, 4, 0, 1}

/* A filter for a change of rate, or for any where src and dst are 0. Its phases * taps coefficients stand in the array of all, from first on. */
struct dsp_filter {
    uint32_t src;    /* frames per second on its side of the input */
    uint32_t dst;    /* and of the output */
    uint32_t phases; /* rows of coefficients */
    uint32_t taps;   /* coefficients of a row: an even number, 2 to 64 */
    uint32_t shift;  /* a coefficient counts as divided by 2 to the power of this */
    uint32_t first;  /* where its first coefficient stands */
};

/* A section of the equaliser: two poles and two zeros. Its coefficients count as divided by 2 to the power of shift. */
struct dsp_section {
    uint32_t shift;
    int32_t b0;
    int32_t b1;
    int32_t b2;
    int32_t a1;
    int32_t a2;
};

/* What a call is answered beside its number. What each request puts there stands with it; what it doesn't name is 0. */
struct dsp_answer {
    uint64_t first;
    uint64_t second;
    uint64_t third;
    uint64_t fourth;
};

/* Which way sound goes through a descriptor. */
enum dsp_way {
    DSP_PLAY = 0,   /* from the client to the device */
    DSP_RECORD = 1, /* from the device to the client */
    DSP_MAP = 2     /* to the device, out of an area that the client writes anywhere at any time */
};

/* What a client asks of its channel, with an argument where it has one. Positions, room and delay are bytes of the client's own frames. */
enum dsp_request {
    DSP_SETFMT = 0,       /* argument: a code of enum dsp_format, or 0. first: the format */
    DSP_SPEED = 1,        /* argument: frames per second, or 0. first: the rate */
    DSP_CHANNELS = 2,     /* argument: a number of channels, or 0. first: how many */
    DSP_GETFMTS = 3,      /* first: the codes of all formats in one number */
    DSP_GETCAPS = 4,      /* first: what the device can do */
    DSP_GETBLKSIZE = 5,   /* first: bytes of a fragment */
    DSP_SETFRAGMENT = 6,  /* argument: 0xCCCCSSSS, CCCC fragments of 2 to the power SSSS bytes. first: the same, as it is now */
    DSP_GETOSPACE = 7,    /* what a write would take now. first: whole fragments, second: fragments in all, third: bytes of one, fourth: bytes */
    DSP_GETISPACE = 8,    /* what a read would get now, in the same numbers */
    DSP_GETOPTR = 9,      /* how far it has played. first: bytes, second: fragments passed since the last answer, third: the place in the ring */
    DSP_GETIPTR = 10,     /* how far it has recorded, in the same numbers */
    DSP_GETODELAY = 11,   /* first: bytes that wait */
    DSP_GETERROR = 12,    /* shortages since the last answer. first: of playing, second: of recording */
    DSP_SETTRIGGER = 13,  /* argument: whether the channel may start, by 1 for recording and 2 for playing */
    DSP_GETTRIGGER = 14,  /* first: what it is */
    DSP_SETPLAYVOL = 15,  /* argument: left + 256 * right, 0 to 100 each. first: the same, as it is now */
    DSP_GETPLAYVOL = 16,  /* first: what it is */
    DSP_POST = 17,        /* start now */
    DSP_SYNC = 18,        /* no more comes for now: play what is there */
    DSP_HALT = 19         /* drop what is there */
};

/* What the mixer device is asked. Volumes are numbers as those of DSP_SETPLAYVOL, and slots those that dsp_engine_open answers. */
enum dsp_mixer_request {
    DSP_SET_MASTER = 0, /* value: the volume of all that is mixed. first: the same, as it is now */
    DSP_GET_MASTER = 1, /* first: what it is */
    DSP_SET_SLOT = 2,   /* slot; value: the volume of what is heard of it. first: the same, as it is now */
    DSP_GET_SLOT = 3,   /* slot. first: what it is */
    DSP_MUTE_SLOT = 4   /* slot; value: 1, and it isn't heard from now on; 0, and it is again */
};

/* Where the run of a channel stands. */
enum dsp_state {
    DSP_SETUP = 0,    /* nothing of a run is there */
    DSP_PRIMED = 1,   /* written to, and not started */
    DSP_RUNNING = 2,  /* started */
    DSP_DRAINING = 3  /* takes nothing more until what was written has played */
};

/* How the channel of a descriptor is. */
struct dsp_settings {
    uint32_t way;            /* one of enum dsp_way */
    uint32_t slot;           /* the number that dsp_engine_open answered */
    uint32_t format;         /* one of enum dsp_format */
    uint32_t channels;       /* 1, 2, 4, 6 or 8 */
    uint32_t rate;           /* frames per second */
    uint32_t fragments;      /* how many its ring has */
    uint32_t fragment_bytes; /* the bytes of one */
    uint32_t trigger;        /* 1 where it may start by itself or by DSP_POST, else 0 */
    uint32_t volume;         /* left + 256 * right; 0 of one that records */
    uint32_t group;          /* 1 to 8; 0: none */
    uint32_t state;          /* one of enum dsp_state */
};

/* How many descriptors there are, from 0 on. */
#define DSP_DESCRIPTORS 64

/* What dsp_engine_is_ready answers of a descriptor. */
#define DSP_WRITABLE 1
#define DSP_READABLE 2

/* Who has a slot. */
enum dsp_slot_state {
    DSP_SLOT_FREE = 0,   /* an open may take it */
    DSP_SLOT_HELD = 1,   /* a descriptor holds it */
    DSP_SLOT_CLOSING = 2 /* closed: it plays what was written to its end */
};

/* How a slot is. */
struct dsp_slot {
    uint32_t state;  /* one of enum dsp_slot_state */
    uint64_t frames; /* frames of the mix that it gives of what was written: 0 of one that doesn't play */
};

/* Room for a write, or what a read would get. */
struct dsp_space {
    uint32_t fragments;      /* whole ones */
    uint32_t all_fragments;  /* those of the ring */
    uint32_t fragment_bytes; /* the bytes of one */
    uint32_t bytes;
};

/* How far a channel has come. */
struct dsp_position {
    uint64_t bytes;
    uint64_t fragments; /* passed since DSP_GETOPTR or DSP_GETIPTR was answered last */
    uint32_t place;     /* the byte in the ring */
};

/* Shortages since DSP_GETERROR was answered last. */
struct dsp_errors {
    uint32_t underruns; /* of playing */
    uint32_t overruns;  /* of recording */
};

/* ---- an engine's beginning and end ---- */

/*
 * Makes the engine of a device, with the filters and the equaliser's sections of these arrays. Each array may have no elements, and then be
 * null. It reads them now and doesn't keep them. All memory of the engine is taken here. Where there is an engine already, none is made.
 * Answers 0, or why there is no new engine.
 */
int32_t dsp_engine_new(struct dsp_engine *engine, const struct dsp_device *device, const struct dsp_filter *filters, size_t filter_count,
                       const int32_t *coefs, size_t coef_count, const struct dsp_section *sections, size_t section_count);

/* Frees an engine, if there is one. There is none then. The pointer may be null. */
void dsp_engine_free(struct dsp_engine *engine);

/*
 * The same in a struct that the library takes memory for: the caller has a pointer to it, and no copy to make. Where it answers 0, *engine
 * is that pointer.
 */
int32_t dsp_engine_create(struct dsp_engine **engine, const struct dsp_device *device, const struct dsp_filter *filters,
                          size_t filter_count, const int32_t *coefs, size_t coef_count, const struct dsp_section *sections,
                          size_t section_count);

/* Frees an engine that dsp_engine_create made, and its struct. The pointer may be null. */
void dsp_engine_destroy(struct dsp_engine *engine);

/*
 * Makes another engine that goes on where an engine is: calls of the one are answered as the same calls of the other, and hand over the same
 * bytes, with as many frames left. The engine itself doesn't change, and either goes on and is freed without the other. *clone begins as
 * DSP_NO_ENGINE: where there is an engine already, none is made. All memory of the clone is taken here. Answers 0, or why there is no clone.
 */
int32_t dsp_engine_clone(struct dsp_engine *engine, struct dsp_engine *clone);

/* How many bytes dsp_engine_save spells now. They are of what the engine keeps, so each call may change how many. */
int64_t dsp_engine_state_size(struct dsp_engine *engine);

/*
 * Spells the engine's state at the front of state, whose other bytes stay. Answers how many bytes it has, or DSP_SHORT_ROOM where room is
 * less, and then writes nothing. The engine doesn't change, and no memory is taken.
 */
int64_t dsp_engine_save(struct dsp_engine *engine, void *state, size_t room);

/*
 * The engine goes on where a state was saved: its calls are answered as those of the engine that was saved, and hand over the same bytes.
 * There must be an engine already, of the same device, filters and sections; the one that was saved may be of another process. size is
 * just that of the state. Any bytes may be given: those that are no state are refused. A whole engine is made here before the old one is
 * freed. Answers 0, or why the engine goes on where it was.
 */
int32_t dsp_engine_load(struct dsp_engine *engine, const void *state, size_t size);

/* ---- calls of an engine ---- */

/* Opens descriptor fd, 0 to 63, with such frames, in the least free slot of its way. Answers the number of the slot. */
int32_t dsp_engine_open(struct dsp_engine *engine, uint32_t fd, enum dsp_way way, uint32_t format, uint32_t channels, uint32_t rate);

/* Writes length bytes to a descriptor that plays. Answers how many of them its ring took: the first ones. */
int32_t dsp_engine_write(struct dsp_engine *engine, uint32_t fd, const void *bytes, size_t length);

/* Writes length bytes into the area of a mapped descriptor, from its byte offset on. Answers 0. */
int32_t dsp_engine_poke(struct dsp_engine *engine, uint32_t fd, uint32_t offset, const void *bytes, size_t length);

/* Reads at most length bytes, and never more than 4096, of what a descriptor has recorded. Answers how many stand at the front of bytes. */
int32_t dsp_engine_read(struct dsp_engine *engine, uint32_t fd, void *bytes, size_t length);

/* Asks something of the channel of a descriptor. Answers 0, and what is asked in answer, which may be null. */
int32_t dsp_engine_ioctl(struct dsp_engine *engine, uint32_t fd, enum dsp_request request, uint32_t argument, struct dsp_answer *answer);

/*
 * Makes a descriptor a member of a group: of a new one by 0, or of one that is there. Answers 0, and the group's number, 1 to 8, as first of
 * answer, which may be null.
 */
int32_t dsp_engine_join(struct dsp_engine *engine, uint32_t fd, uint32_t group, struct dsp_answer *answer);

/* Starts all members of a group at one frame, asked by any open descriptor that plays or records. The group is gone then. Answers 0. */
int32_t dsp_engine_start(struct dsp_engine *engine, uint32_t fd, uint32_t group);

/* Closes a descriptor. What was written plays to its end, and what was recorded and not read is dropped. Answers 0. */
int32_t dsp_engine_close(struct dsp_engine *engine, uint32_t fd);

/* Asks something of the mixer device. Answers 0, and what is asked in answer, which may be null. */
int32_t dsp_engine_mixer(struct dsp_engine *engine, enum dsp_mixer_request request, uint32_t slot, uint32_t value,
                         struct dsp_answer *answer);

/*
 * The device takes that many frames, 1 to those of its ring. Answers how many bytes they are: they stand at the front of out, whose room they
 * need. With them come the frames that the device captured meanwhile: samples of 32 bits, as many as the device has channels for each frame,
 * frame by frame. There may be fewer, and never more, or none and then null: after them is silence. Where out is null and room is 0, nobody hears
 * the frames: all is as with room, also the answer, and the bytes are let go.
 */
int32_t dsp_engine_interrupt(struct dsp_engine *engine, uint32_t frames, const int32_t *samples, size_t sample_count, void *out,
                             size_t room);

/*
 * How many frames an engine still hands over: 70368744177664 at first, which last 46 years at 48000 a second, and 0 without an engine. An
 * interrupt that would take more answers DSP_WORN_OUT. Nothing else uses an engine up, and every other call works to the end.
 */
uint64_t dsp_engine_frames_left(struct dsp_engine *engine);

/* ---- questions: none is a step, and none changes anything ---- */

/*
 * Room for writes, bytes to read and the end of a drain come by interrupts alone: between two of them a question is answered alike, but for
 * what the client itself does.
 */

/* How the channel of a descriptor is. Answers 0. */
int32_t dsp_engine_settings(struct dsp_engine *engine, uint32_t fd, struct dsp_settings *settings);

/*
 * What dsp_engine_ioctl would answer now, and put into answer, which may be null. Nothing is done: a position in it isn't the one
 * from which the next counts fragments, and shortages stay to be answered.
 */
int32_t dsp_engine_peek(struct dsp_engine *engine, uint32_t fd, enum dsp_request request, uint32_t argument, struct dsp_answer *answer);

/* What DSP_GETOSPACE would answer of a channel that plays, and DSP_GETISPACE of one that records. Answers 0. */
int32_t dsp_engine_space(struct dsp_engine *engine, uint32_t fd, struct dsp_space *space);

/* What DSP_GETOPTR would answer of a channel that plays or is mapped, and DSP_GETIPTR of one that records. Answers 0. */
int32_t dsp_engine_position(struct dsp_engine *engine, uint32_t fd, struct dsp_position *position);

/* What DSP_GETODELAY would answer of a channel that plays. Answers 0. */
int32_t dsp_engine_delay(struct dsp_engine *engine, uint32_t fd, uint32_t *bytes);

/* What DSP_GETERROR would answer. Answers 0. */
int32_t dsp_engine_errors(struct dsp_engine *engine, uint32_t fd, struct dsp_errors *errors);

/* How a slot of a way is, by the number that dsp_engine_open answers. Answers 0. */
int32_t dsp_engine_slot(struct dsp_engine *engine, enum dsp_way way, uint32_t number, struct dsp_slot *slot);

/*
 * Whether no slot of any way is taken: nothing plays, records or drains. Answers 1 where it is so, else 0. What was mixed before leaves the
 * device's ring still.
 */
int32_t dsp_engine_is_idle(struct dsp_engine *engine);

/*
 * Whether a descriptor is ready. Answers DSP_WRITABLE where a write of a byte would be taken, DSP_READABLE where a read would get one, and 0
 * where neither is so: of a mapped one and of one that isn't open, too.
 */
int32_t dsp_engine_is_ready(struct dsp_engine *engine, uint32_t fd);

/* The same of all descriptors, by bits: that of descriptor 0 is the lowest. Each pointer may be null. Answers 0. */
int32_t dsp_engine_ready(struct dsp_engine *engine, uint64_t *writable, uint64_t *readable);

/*
 * After how many frames, taken by one interrupt, a write of that many bytes fits whole, or as many can be read, if nothing else happens
 * meanwhile: after as many it is so, and after one fewer it isn't. Answers how many: 0 where it is so now. DSP_INVALID where the descriptor
 * is mapped, and DSP_BUSY where it isn't so after 4294967295 frames either: nothing takes or brings frames, or that many never fit.
 */
int64_t dsp_engine_frames_until(struct dsp_engine *engine, uint32_t fd, uint32_t bytes);

/* ---- words ---- */

/* What an answer means, in a few words: never null, and of 0 and more "no error". */
const char *dsp_engine_error(int32_t answer);

/* The errno of the system that an answer is: 0 of 0 and more. */
int32_t dsp_engine_errno(int32_t answer);

/* The name of a request in OSS, as "SNDCTL_DSP_SPEED", or null where no request has that number. */
const char *dsp_engine_request_name(uint32_t request);

/* The version of the library, in the form of DSP_ENGINE_VERSION. */
uint32_t dsp_engine_version(void);

#ifdef __cplusplus
}
#endif

#endif
