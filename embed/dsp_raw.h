/*
 * The engine's own functions, which take no null pointer: what crates/pcm_engine_c exports, for embed/dsp_engine.c alone. No program sees
 * them: the library keeps their names to itself.
 */
#ifndef DSP_RAW_H
#define DSP_RAW_H

#include "dsp_engine.h"

int32_t dsp_raw_new(struct dsp_engine *engine, const struct dsp_device *device, const struct dsp_filter *filters, size_t filter_count,
                    const int32_t *coefs, size_t coef_count, const struct dsp_section *sections, size_t section_count);
int32_t dsp_raw_clone(struct dsp_engine *engine, struct dsp_engine *clone);
int64_t dsp_raw_state_size(struct dsp_engine *engine);
int64_t dsp_raw_save(struct dsp_engine *engine, uint8_t *state, size_t room);
int32_t dsp_raw_load(struct dsp_engine *engine, const uint8_t *state, size_t size);
void dsp_raw_free(struct dsp_engine *engine);
int32_t dsp_raw_open(struct dsp_engine *engine, uint32_t fd, uint32_t way, uint32_t format, uint32_t channels, uint32_t rate);
int32_t dsp_raw_write(struct dsp_engine *engine, uint32_t fd, const uint8_t *bytes, size_t length);
int32_t dsp_raw_poke(struct dsp_engine *engine, uint32_t fd, uint32_t offset, const uint8_t *bytes, size_t length);
int32_t dsp_raw_read(struct dsp_engine *engine, uint32_t fd, uint8_t *bytes, size_t length);
int32_t dsp_raw_ioctl(struct dsp_engine *engine, uint32_t fd, uint32_t request, uint32_t argument, struct dsp_answer *answer);
int32_t dsp_raw_join(struct dsp_engine *engine, uint32_t fd, uint32_t group, struct dsp_answer *answer);
int32_t dsp_raw_start(struct dsp_engine *engine, uint32_t fd, uint32_t group);
int32_t dsp_raw_close(struct dsp_engine *engine, uint32_t fd);
int32_t dsp_raw_mixer(struct dsp_engine *engine, uint32_t request, uint32_t slot, uint32_t value, struct dsp_answer *answer);
int32_t dsp_raw_interrupt(struct dsp_engine *engine, uint32_t frames, const int32_t *samples, size_t sample_count, uint8_t *out, size_t room);
int32_t dsp_raw_discard(struct dsp_engine *engine, uint32_t frames, const int32_t *samples, size_t sample_count);
uint64_t dsp_raw_frames_left(struct dsp_engine *engine);
int32_t dsp_raw_settings(struct dsp_engine *engine, uint32_t fd, struct dsp_settings *settings);
int32_t dsp_raw_peek(struct dsp_engine *engine, uint32_t fd, uint32_t request, uint32_t argument, struct dsp_answer *answer);
int32_t dsp_raw_slot(struct dsp_engine *engine, uint32_t way, uint32_t number, struct dsp_slot *slot);
int32_t dsp_raw_is_idle(struct dsp_engine *engine);
int32_t dsp_raw_is_ready(struct dsp_engine *engine, uint32_t fd);
int64_t dsp_raw_frames_until(struct dsp_engine *engine, uint32_t fd, uint32_t bytes);

#endif
