/* Which numbers no engine takes, by dsp_engine.h. */
#ifndef FUZZ_LIMITS_H
#define FUZZ_LIMITS_H

#include "call.h"

/* Whether an engine can be made of this. */
bool setup_is_right(const struct setup *setup);

/* Whether the engine of a device takes a call, be it to refuse it by its state. */
bool call_is_right(const struct call *call, const struct dsp_device *device);

#endif
