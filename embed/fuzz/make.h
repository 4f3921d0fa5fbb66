/* Makes a call on an engine. */
#ifndef FUZZ_MAKE_H
#define FUZZ_MAKE_H

#include "question.h"

/* What a call brings: bytes, or samples and after them silence. */
struct brought {
    uint8_t *bytes;
    int32_t *samples;
    size_t sample_room;
};

/* The outcome of a call. Before it all of it that the call could reach is marked. */
struct got {
    int64_t number;
    struct dsp_answer answer;
    union report report; /* of a question */
    uint8_t *out;
    size_t out_room; /* of all calls; GUARD bytes stand after it */
};

enum { GUARD = 32, MARK = 0xa5 };

/* Makes the buffers of what a sequence of calls brings and gets. Answers whether there was memory for them. */
bool begin_brought(struct brought *brought, const struct calls *calls);
bool begin_got(struct got *got, const struct calls *calls);

/* Puts there what a call brings. */
void bring(struct brought *brought, const struct call *call, const struct dsp_device *device);

/* Makes an engine of a setup. */
int32_t make_engine(struct dsp_engine *engine, const struct setup *setup);

/* Makes a call, and keeps its outcome. */
void make_call(struct dsp_engine *engine, const struct setup *setup, const struct call *call, const struct brought *brought,
               struct got *got);

/* Whether the bytes of the room of a call, from one on, are still marked, and those after the room. */
bool is_marked(const struct got *got, const struct call *call, size_t from);

/* Whether the answer is still marked. */
bool is_answer_marked(const struct got *got);

/* Whether the room for what questions answer is still marked, from a byte on. */
bool is_report_marked(const struct got *got, size_t from);

#endif
