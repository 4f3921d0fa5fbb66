/*
 * What a clone is: a test. The events of soak_events.h go through an engine and clones. At each of their places the engine is cloned, both
 * take the events up to the next place, and answer and hand over the same. Then the engine is freed, and its clone goes on and is cloned in
 * its turn. scripts/embed runs it.
 */
#include <stdio.h>

#include "soak_events.h"

/* A clone, after another that is freed at once. */
static bool clone_twice(struct dsp_engine *engine, struct dsp_engine *clone) {
    bool is_made = dsp_engine_clone(engine, clone) == 0;
    dsp_engine_free(clone);
    return is_made && dsp_engine_clone(engine, clone) == 0;
}

int main(void) {
    static const struct dsp_device device = DSP_DEVICE_DEFAULT;
    const struct dsp_engine none = DSP_NO_ENGINE;
    struct dsp_engine engine = DSP_NO_ENGINE, clone = DSP_NO_ENGINE;
    struct soak soak;
    char told[TOLD];
    bool is_right = dsp_engine_new(&engine, &device, NULL, 0, NULL, 0, NULL, 0) == 0;

    begin_soak(&soak);
    for (uint32_t place = 0; is_right && place < PLACES; place += 1) {
        is_right = clone_twice(&engine, &clone) && go_on(&soak, &engine, &clone);
        dsp_engine_free(&engine);
        engine = clone;
        clone = none;
    }
    dsp_engine_free(&engine);
    is_right = is_expected(&soak, told) && is_right;
    printf("a clone at each of %d places: %s, %s\n", PLACES, told, is_right ? "as expected" : "and not as expected");
    return is_right ? 0 : 1;
}
