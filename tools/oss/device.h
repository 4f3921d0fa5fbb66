/* One engine, whose accepted and refused calls are taken in by a journal, and whose bytes go into a wave. */
#ifndef DEVICE_H
#define DEVICE_H

#include "dsp_engine.h"
#include "journal.h"

struct device {
    struct dsp_engine engine; /* the first field: the requests of OSS are handed its address, and it is found again by that */
    struct dsp_device settings;
    struct journal journal;
    FILE *wave, *kept; /* what leaves the device, for those who listen and for the replay; either may be null */
    bool has_head, is_unheard;
    uint64_t frames; /* that it took */
    uint64_t wave_bytes;
    uint64_t changes; /* of anything that may be asked */
    uint32_t block;   /* frames of an interrupt */
    uint32_t frame;   /* bytes of a frame */
    int32_t *captured;
    size_t captured_frames;
    uint8_t *room;
};

/* Makes the engine. Answers 0, or what the engine answers. */
int32_t device_begin(struct device *device);
void device_end(struct device *device);

/* The calls of an engine, each taken in. */
int32_t device_open(struct device *device, uint32_t d, enum dsp_way way, uint32_t format, uint32_t channels, uint32_t rate);
int32_t device_write(struct device *device, uint32_t d, const uint8_t *bytes, size_t length);
int32_t device_read(struct device *device, uint32_t d, uint8_t *bytes, size_t length);
int32_t device_poke(struct device *device, uint32_t d, uint32_t offset, const uint8_t *bytes, size_t length);
int32_t device_close(struct device *device, uint32_t d);
int32_t device_mixer(struct device *device, enum dsp_mixer_request request, uint32_t slot, uint32_t value, uint32_t *told);
void device_interrupt(struct device *device, uint32_t frames);

/* The same in the form that requests of OSS call: the engine is that of a device. */
int32_t device_ioctl(struct dsp_engine *engine, uint32_t d, enum dsp_request request, uint32_t argument, struct dsp_answer *answer);
int32_t device_join(struct dsp_engine *engine, uint32_t d, uint32_t group, struct dsp_answer *answer);
int32_t device_start(struct dsp_engine *engine, uint32_t d, uint32_t group);

/* Asks something that changes nothing, and isn't taken in. Answers all 0 where it is refused. */
struct dsp_answer device_ask(struct device *device, uint32_t d, enum dsp_request request);

/* The bytes of a sample of a format. */
uint32_t width_of(uint32_t format);

#endif
