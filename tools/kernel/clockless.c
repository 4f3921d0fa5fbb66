// SPDX-License-Identifier: MIT OR GPL-2.0-only
/*
 * A card without a clock, for ALSA: its time moves on by what `step` gets and not otherwise, so an interrupt is N frames exactly.
 *
 * What plays is added in the order of the substreams, with a limit after each, and kept. Recordings hear the frames that were given for
 * them, and silence after these. Four files of /proc/clockless are the other side of the card:
 *
 *     set       "RATE CHANNELS PLAY RECORD" is what the card is from now on, and how many can play and record at once. Its time begins
 *               again, and nothing is kept
 *     step      "N" has N frames pass
 *     played    has the frames that the card got since, of 16 bits with the lowest byte first
 *     captured  takes the frames that it hears, in the same form
 *
 * It is under the MIT licence of this repository or under the GPL, as a kernel wants it of a module.
 */
#include <linux/minmax.h>
#include <linux/module.h>
#include <linux/mutex.h>
#include <linux/platform_device.h>
#include <linux/proc_fs.h>
#include <linux/uaccess.h>
#include <linux/vmalloc.h>
#include <sound/core.h>
#include <sound/initval.h>
#include <sound/pcm.h>

enum { SUBSTREAMS = 16, VOICES = 2 * SUBSTREAMS, CHANNELS = 8, AT_ONCE = 256, TAPE = 1 << 16, TAPE_MOST = 1 << 28, TEXT = 64 };

/* A substream that is open. */
struct voice {
    struct snd_pcm_substream *substream;
    bool runs;
    snd_pcm_uframes_t at; /* the place in its buffer */
};

/* Bytes that are kept. */
struct tape {
    char *bytes;
    size_t size, room;
};

static struct {
    struct mutex lock; /* of all but what a stream's own lock guards: runs and at */
    struct platform_device *device; /* what the card is a part of */
    struct snd_card *card;
    struct proc_dir_entry *folder;
    unsigned int rate, channels, most[2];
    struct voice voices[VOICES]; /* those that play, and then those that record */
    struct tape played, captured;
    size_t heard; /* the bytes of captured that recordings were given, or that passed */
    __le16 samples[AT_ONCE * CHANNELS];
} clockless = {.rate = 48000, .channels = 2, .most = {SUBSTREAMS, SUBSTREAMS}};

/* ---- tapes ---- */

/* Makes room for this many bytes of a tape, of which those past its own size are silence. */
static int make_room(struct tape *tape, size_t size)
{
    size_t room = max_t(size_t, tape->room, TAPE);
    char *bytes;

    if (size <= tape->room)
        return 0;
    if (size > TAPE_MOST)
        return -ENOSPC;
    while (room < size)
        room *= 2;
    bytes = vzalloc(room);
    if (!bytes)
        return -ENOMEM;
    if (tape->size)
        memcpy(bytes, tape->bytes, tape->size);
    vfree(tape->bytes);
    tape->bytes = bytes;
    tape->room = room;
    return 0;
}

static void wipe(struct tape *tape)
{
    vfree(tape->bytes);
    *tape = (struct tape){0};
}

/* ---- time ---- */

static size_t bytes_of(unsigned int frames)
{
    return (size_t)frames * clockless.channels * sizeof(__le16);
}

/* How many of these frames pass until something that runs has an interrupt. */
static unsigned int until_interrupt(unsigned int frames)
{
    struct voice *voice = clockless.voices;
    unsigned long flags;

    for (; voice < clockless.voices + VOICES; voice++) {
        if (!voice->substream)
            continue;
        snd_pcm_stream_lock_irqsave(voice->substream, flags);
        if (voice->runs) {
            snd_pcm_uframes_t period = voice->substream->runtime->period_size;

            frames = min_t(snd_pcm_uframes_t, frames, period - voice->at % period);
        }
        snd_pcm_stream_unlock_irqrestore(voice->substream, flags);
    }
    return frames;
}

/* Adds a frame of what plays to the card's, or gives a recording the one that the card hears. */
static void move_frame(const struct voice *voice, unsigned int number)
{
    struct snd_pcm_runtime *runtime = voice->substream->runtime;
    snd_pcm_uframes_t place = (voice->at + number) % runtime->buffer_size;
    __le16 *client = (__le16 *)runtime->dma_area + place * clockless.channels;
    __le16 *card = clockless.samples + number * clockless.channels;
    unsigned int k;

    for (k = 0; k < clockless.channels; k++) {
        if (voice->substream->stream == SNDRV_PCM_STREAM_CAPTURE)
            client[k] = card[k];
        else
            card[k] = cpu_to_le16(clamp((s16)le16_to_cpu(card[k]) + (s16)le16_to_cpu(client[k]), -32768, 32767));
    }
}

/* Has frames of a substream pass, and interrupts where a period ends. */
static void pass(struct voice *voice, unsigned int frames)
{
    bool interrupts = false;
    unsigned long flags;
    unsigned int k;

    snd_pcm_stream_lock_irqsave(voice->substream, flags);
    if (voice->runs) {
        for (k = 0; k < frames; k++)
            move_frame(voice, k);
        voice->at = (voice->at + frames) % voice->substream->runtime->buffer_size;
        interrupts = voice->at % voice->substream->runtime->period_size == 0;
    }
    snd_pcm_stream_unlock_irqrestore(voice->substream, flags);
    if (interrupts)
        snd_pcm_period_elapsed(voice->substream);
}

static void pass_all(int stream, unsigned int frames)
{
    struct voice *voice = clockless.voices + stream * SUBSTREAMS;
    struct voice *behind = voice + SUBSTREAMS;

    for (; voice < behind; voice++)
        if (voice->substream)
            pass(voice, frames);
}

/* Has frames pass, at most up to the next interrupt of a substream. Answers how many, or a fault. */
static int step(unsigned int frames)
{
    size_t size, there;
    int fault;

    frames = until_interrupt(min_t(unsigned int, frames, AT_ONCE));
    size = bytes_of(frames);
    fault = make_room(&clockless.played, clockless.played.size + size);
    if (fault)
        return fault;
    memset(clockless.samples, 0, size);
    pass_all(SNDRV_PCM_STREAM_PLAYBACK, frames);
    memcpy(clockless.played.bytes + clockless.played.size, clockless.samples, size);
    clockless.played.size += size;
    memset(clockless.samples, 0, size);
    there = clockless.captured.size - min(clockless.captured.size, clockless.heard);
    if (there)
        memcpy(clockless.samples, clockless.captured.bytes + clockless.heard, min(there, size));
    clockless.heard += size;
    pass_all(SNDRV_PCM_STREAM_CAPTURE, frames);
    return frames;
}

/* ---- the card, as ALSA asks it ---- */

static struct voice *voice_of(struct snd_pcm_substream *substream)
{
    return &clockless.voices[substream->stream * SUBSTREAMS + substream->number];
}

static const struct snd_pcm_hardware hardware = {
    .info = SNDRV_PCM_INFO_INTERLEAVED | SNDRV_PCM_INFO_MMAP | SNDRV_PCM_INFO_MMAP_VALID,
    .formats = SNDRV_PCM_FMTBIT_S16_LE,
    .rates = SNDRV_PCM_RATE_CONTINUOUS,
    .buffer_bytes_max = 1 << 20,
    .period_bytes_min = 1,
    .period_bytes_max = 1 << 19,
    .periods_min = 2,
    .periods_max = 1 << 16,
};

static int open_voice(struct snd_pcm_substream *substream)
{
    struct snd_pcm_runtime *runtime = substream->runtime;
    int fault = -EAGAIN;

    mutex_lock(&clockless.lock);
    if (substream->number < clockless.most[substream->stream]) {
        runtime->hw = hardware;
        runtime->hw.rate_min = runtime->hw.rate_max = clockless.rate;
        runtime->hw.channels_min = runtime->hw.channels_max = clockless.channels;
        fault = snd_pcm_hw_constraint_integer(runtime, SNDRV_PCM_HW_PARAM_PERIODS);
    }
    if (fault >= 0)
        *voice_of(substream) = (struct voice){.substream = substream};
    mutex_unlock(&clockless.lock);
    return min(fault, 0);
}

static int close_voice(struct snd_pcm_substream *substream)
{
    mutex_lock(&clockless.lock);
    voice_of(substream)->substream = NULL;
    mutex_unlock(&clockless.lock);
    return 0;
}

static int prepare_voice(struct snd_pcm_substream *substream)
{
    voice_of(substream)->at = 0;
    return 0;
}

static int trigger_voice(struct snd_pcm_substream *substream, int command)
{
    if (command != SNDRV_PCM_TRIGGER_START && command != SNDRV_PCM_TRIGGER_STOP)
        return -EINVAL;
    voice_of(substream)->runs = command == SNDRV_PCM_TRIGGER_START;
    return 0;
}

static snd_pcm_uframes_t place_of_voice(struct snd_pcm_substream *substream)
{
    return voice_of(substream)->at;
}

static const struct snd_pcm_ops ops = {
    .open = open_voice,
    .close = close_voice,
    .prepare = prepare_voice,
    .trigger = trigger_voice,
    .pointer = place_of_voice,
};

/* ---- the other side of the card ---- */

/* The text that a write brings, without its end of line. */
static int text_of(char *text, const char __user *from, size_t count)
{
    if (count >= TEXT)
        return -EINVAL;
    if (copy_from_user(text, from, count))
        return -EFAULT;
    text[count] = 0;
    return 0;
}

static bool is_open(void)
{
    unsigned int k = 0;

    while (k < VOICES && !clockless.voices[k].substream)
        k++;
    return k < VOICES;
}

static ssize_t write_set(struct file *file, const char __user *from, size_t count, loff_t *at)
{
    unsigned int rate, channels, play, record;
    char text[TEXT];
    int fault = text_of(text, from, count);

    if (fault)
        return fault;
    if (sscanf(text, "%u %u %u %u", &rate, &channels, &play, &record) != 4 || rate < 4000 || rate > 192000 || !channels ||
        channels > CHANNELS || play > SUBSTREAMS || record > SUBSTREAMS)
        return -EINVAL;
    mutex_lock(&clockless.lock);
    if (is_open()) {
        mutex_unlock(&clockless.lock);
        return -EBUSY;
    }
    clockless.rate = rate;
    clockless.channels = channels;
    clockless.most[SNDRV_PCM_STREAM_PLAYBACK] = play;
    clockless.most[SNDRV_PCM_STREAM_CAPTURE] = record;
    wipe(&clockless.played);
    wipe(&clockless.captured);
    clockless.heard = 0;
    mutex_unlock(&clockless.lock);
    return count;
}

static ssize_t write_step(struct file *file, const char __user *from, size_t count, loff_t *at)
{
    unsigned int frames;
    char text[TEXT];
    int passed = text_of(text, from, count);

    if (passed)
        return passed;
    passed = kstrtouint(text, 10, &frames);
    if (passed)
        return passed;
    mutex_lock(&clockless.lock);
    for (; frames && passed >= 0; frames -= max(passed, 0))
        passed = step(frames);
    mutex_unlock(&clockless.lock);
    return passed < 0 ? passed : count;
}

static ssize_t read_played(struct file *file, char __user *to, size_t count, loff_t *at)
{
    ssize_t got;

    mutex_lock(&clockless.lock);
    got = simple_read_from_buffer(to, count, at, clockless.played.bytes, clockless.played.size);
    mutex_unlock(&clockless.lock);
    return got;
}

static ssize_t write_captured(struct file *file, const char __user *from, size_t count, loff_t *at)
{
    struct tape *tape = &clockless.captured;
    ssize_t got;

    if (*at < 0 || *at > TAPE_MOST || count > TAPE_MOST)
        return -ENOSPC;
    mutex_lock(&clockless.lock);
    got = make_room(tape, *at + count);
    if (!got)
        got = simple_write_to_buffer(tape->bytes, tape->room, at, from, count);
    if (got > 0)
        tape->size = max_t(size_t, tape->size, *at);
    mutex_unlock(&clockless.lock);
    return got;
}

static const struct proc_ops set_ops = {.proc_write = write_set}, step_ops = {.proc_write = write_step}, played_ops = {.proc_read = read_played},
                             captured_ops = {.proc_write = write_captured};

static int make_files(void)
{
    clockless.folder = proc_mkdir("clockless", NULL);
    if (clockless.folder && proc_create("set", 0200, clockless.folder, &set_ops) && proc_create("step", 0200, clockless.folder, &step_ops) &&
        proc_create("played", 0400, clockless.folder, &played_ops) && proc_create("captured", 0200, clockless.folder, &captured_ops))
        return 0;
    return -ENOMEM;
}

/* ---- the module ---- */

static int make_card(void)
{
    struct snd_pcm *pcm;
    int fault = snd_pcm_new(clockless.card, "clockless", 0, SUBSTREAMS, SUBSTREAMS, &pcm);

    if (fault < 0)
        return fault;
    snd_pcm_set_ops(pcm, SNDRV_PCM_STREAM_PLAYBACK, &ops);
    snd_pcm_set_ops(pcm, SNDRV_PCM_STREAM_CAPTURE, &ops);
    snd_pcm_set_managed_buffer_all(pcm, SNDRV_DMA_TYPE_VMALLOC, NULL, 0, 0);
    strscpy(pcm->name, "clockless", sizeof(pcm->name));
    strscpy(clockless.card->driver, "clockless", sizeof(clockless.card->driver));
    strscpy(clockless.card->shortname, "clockless", sizeof(clockless.card->shortname));
    strscpy(clockless.card->longname, "a card without a clock", sizeof(clockless.card->longname));
    return snd_card_register(clockless.card);
}

static void end(void)
{
    proc_remove(clockless.folder);
    if (clockless.card)
        snd_card_free(clockless.card);
    platform_device_unregister(clockless.device);
    wipe(&clockless.played);
    wipe(&clockless.captured);
}

static int __init begin(void)
{
    int fault;

    mutex_init(&clockless.lock);
    clockless.device = platform_device_register_simple("clockless", PLATFORM_DEVID_NONE, NULL, 0);
    if (IS_ERR(clockless.device))
        return PTR_ERR(clockless.device);
    fault = snd_card_new(&clockless.device->dev, SNDRV_DEFAULT_IDX1, "clockless", THIS_MODULE, 0, &clockless.card);
    if (fault >= 0)
        fault = make_card();
    if (fault >= 0)
        fault = make_files();
    if (fault < 0)
        end();
    return fault;
}

static void __exit leave(void)
{
    end();
}

module_init(begin);
module_exit(leave);
MODULE_LICENSE("Dual MIT/GPL");
MODULE_DESCRIPTION("A card without a clock");
