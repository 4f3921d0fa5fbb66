/* The requests of /dev/mixer: the volume of all that is mixed, and that of all slots. */
#include "holder.h"

#include <errno.h>
#include <string.h>
#include <sys/soundcard.h>

enum { SIDE_MOST = 100, LINES = SOUND_MASK_VOLUME | SOUND_MASK_PCM };

bool is_mixer_request(uint32_t request) {
    return (request >> 8 & 0xff) == 'M' && request != (uint32_t)OSS_GETVERSION;
}

static uint32_t near_side(uint32_t side) {
    return side > SIDE_MOST ? SIDE_MOST : side;
}

/* Sets or asks a line of the mixer. That of what is played is set of each slot, and asked of the first. */
static int32_t line(struct holder *holder, uint32_t number, bool sets, uint32_t *volume) {
    const struct dsp_device *is = &holder->device.settings;
    uint32_t near = near_side(*volume & 0xff) | near_side(*volume >> 8 & 0xff) << 8, value = holder->pace == PACE_STEP ? *volume : near;
    if (number == SOUND_MIXER_VOLUME) {
        return device_mixer(&holder->device, sets ? DSP_SET_MASTER : DSP_GET_MASTER, 0, value, volume);
    }
    for (uint32_t slot = is->play_slots + is->map_slots; sets && slot-- > 1;) {
        device_mixer(&holder->device, DSP_SET_SLOT, slot, value, volume);
    }
    return device_mixer(&holder->device, sets ? DSP_SET_SLOT : DSP_GET_SLOT, 0, value, volume);
}

/* What the masks of a mixer are. */
static int mask_of(uint32_t number) {
    return number == SOUND_MIXER_DEVMASK || number == SOUND_MIXER_STEREODEVS ? LINES : 0;
}

static bool is_mask(uint32_t number) {
    return number == SOUND_MIXER_DEVMASK || number == SOUND_MIXER_STEREODEVS || number == SOUND_MIXER_RECMASK || number == SOUND_MIXER_CAPS ||
           number == SOUND_MIXER_RECSRC;
}

static int tell_info(void *argument, size_t size) {
    mixer_info info;
    memset(&info, 0, sizeof info);
    strcpy(info.id, "dsp");
    strcpy(info.name, "dsp_replay");
    memset(argument, 0, size);
    memcpy(argument, &info, size < sizeof info ? size : sizeof info);
    return 0;
}

int mixer_request(struct holder *holder, uint32_t request, void *argument, size_t size) {
    const uint32_t number = request & 0xff;
    const bool sets = request >> 30 & 1;
    uint32_t value;
    if (!argument || size < sizeof value) {
        return -EFAULT;
    }
    if (number == (SOUND_MIXER_INFO & 0xff)) {
        return tell_info(argument, size);
    }
    memcpy(&value, argument, sizeof value);
    if (is_mask(number) && !sets) {
        value = (uint32_t)mask_of(number);
    } else if (number == SOUND_MIXER_VOLUME || number == SOUND_MIXER_PCM) {
        if (line(holder, number, sets, &value) < 0) {
            return -EINVAL;
        }
    } else {
        return -EINVAL;
    }
    memcpy(argument, &value, sizeof value);
    return 0;
}
