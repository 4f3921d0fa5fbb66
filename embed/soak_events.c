/*
 * How the events of the soak are drawn and made: openings, the triggers of those that record, and then kinds and numbers of one sequence of
 * draws.
 */
#include "soak_events.h"

#include <stdio.h>
#include <string.h>

enum { SEED = 7, EVENTS = 20000, OPENINGS = 6, TRIGGERS = 2, INLINE = 8192, MOST = 4096, INTERRUPT_MOST = 256 };

/* What the soak prints of its events. */
static const char expected[] = "events 20000 frames 644627 accepted 10594078 read 1901843 refused 4619 errors 6225 sum 302785944";

enum kind { OPEN, WRITE, INTERRUPT, READ, ASK };

/* An event: of a write the place and the length of its bytes, of a read a length, of a request its number and argument. */
struct event {
    enum kind kind;
    uint32_t fd, first, second;
};

/* What came of an event: the bytes are those that were read or handed over. */
struct outcome {
    int32_t number;
    struct dsp_answer answer;
    uint8_t bytes[MOST];
};

static uint8_t inline_bytes[INLINE];

static void make_inline_bytes(void) {
    for (uint64_t j = 0; j < INLINE; j += 1) {
        inline_bytes[j] = (uint8_t)(31 * j * j + 7 * j + SEED);
    }
}

/* A number that is drawn, below a bound. */
static uint32_t below(struct soak *soak, uint32_t bound) {
    soak->drawn = soak->drawn * 6364136223846793005u + 1442695040888963407u;
    return (uint32_t)(soak->drawn >> 33) % bound;
}

static struct event order_of(uint32_t fd, uint32_t choice) {
    static const struct event orders[] = {
        {ASK, 0, DSP_HALT, 0},       {ASK, 0, DSP_SYNC, 0},       {ASK, 0, DSP_POST, 0},    {ASK, 0, DSP_SETTRIGGER, 2},
        {ASK, 0, DSP_SETTRIGGER, 0}, {ASK, 0, DSP_SETTRIGGER, 2}, {ASK, 0, DSP_GETCAPS, 0}, {ASK, 0, DSP_SPEED, 3999},
    };
    struct event event = orders[choice];
    event.fd = fd;
    return event;
}

/* The event of a kind, of which there are 16. What is drawn for it is drawn in this order. */
static struct event drawn_of(struct soak *soak, uint32_t kind) {
    static const uint32_t questions[] = {DSP_GETERROR, DSP_GETOSPACE, DSP_GETOPTR, DSP_GETODELAY};
    struct event event = {kind < 8 ? WRITE : kind < 12 ? INTERRUPT : kind == 12 ? READ : ASK, 0, 0, 0};

    if (event.kind == INTERRUPT) {
        event.first = 1 + below(soak, INTERRUPT_MOST);
        return event;
    }
    event.fd = kind == 12 ? 4 + below(soak, 2) : below(soak, kind == 13 ? 6 : 4);
    if (event.kind == WRITE) {
        event.first = below(soak, MOST);
        event.second = below(soak, MOST + 1);
    } else if (event.kind == READ) {
        event.first = below(soak, MOST + 1);
    } else if (kind == 13) {
        event.first = questions[below(soak, 4)];
    } else if (kind == 14) {
        event.first = DSP_SETPLAYVOL;
        event.second = below(soak, 101);
        event.second += 256 * below(soak, 101);
    } else {
        event = order_of(event.fd, below(soak, 8));
    }
    return event;
}

static struct event next_of(struct soak *soak) {
    uint32_t at = (uint32_t)soak->tally.events;
    const struct event opening = {OPEN, at, 0, 0}, trigger = {ASK, at - TRIGGERS, DSP_SETTRIGGER, 1};
    return at < OPENINGS ? opening : at < OPENINGS + TRIGGERS ? trigger : drawn_of(soak, below(soak, 16));
}

static int32_t open_one(struct dsp_engine *engine, uint32_t fd) {
    static const struct {
        enum dsp_way way;
        uint32_t format, channels, rate;
    } openings[OPENINGS] = {
        {DSP_PLAY, DSP_S16_LE, 2, 44100}, {DSP_PLAY, DSP_U8, 1, 8000},        {DSP_PLAY, DSP_S24_BE, 6, 96000},
        {DSP_PLAY, DSP_S32_LE, 2, 48000}, {DSP_RECORD, DSP_S16_BE, 1, 22050}, {DSP_RECORD, DSP_S32_LE, 2, 48000},
    };
    return dsp_engine_open(engine, fd, openings[fd].way, openings[fd].format, openings[fd].channels, openings[fd].rate);
}

static struct outcome made(struct dsp_engine *engine, const struct event *event) {
    struct outcome got;
    memset(&got, 0, sizeof got);
    switch (event->kind) {
    case OPEN:
        got.number = open_one(engine, event->fd);
        break;
    case WRITE:
        got.number = dsp_engine_write(engine, event->fd, inline_bytes + event->first, event->second);
        break;
    case INTERRUPT:
        got.number = dsp_engine_interrupt(engine, event->first, NULL, 0, got.bytes, sizeof got.bytes);
        break;
    case READ:
        got.number = dsp_engine_read(engine, event->fd, got.bytes, event->first);
        break;
    default:
        got.number = dsp_engine_ioctl(engine, event->fd, (enum dsp_request)event->first, event->second, &got.answer);
        break;
    }
    return got;
}

static void count(struct tally *tally, const struct event *event, const struct outcome *got) {
    bool is_error = event->kind == ASK && event->first == DSP_GETERROR;
    tally->events += 1;
    tally->frames += event->kind == INTERRUPT ? event->first : 0;
    if (got->number < 0) {
        tally->refused += 1;
        return;
    }
    tally->accepted += event->kind == WRITE ? (unsigned long)got->number : 0;
    tally->read += event->kind == READ ? (unsigned long)got->number : 0;
    tally->errors += is_error ? (unsigned long)(got->answer.first + got->answer.second) : 0;
    for (int32_t i = 0; event->kind == INTERRUPT && i < got->number; i += 1) {
        tally->sum += got->bytes[i];
    }
}

void begin_soak(struct soak *soak) {
    const struct soak fresh = {SEED, {0, 0, 0, 0, 0, 0, 0}};
    *soak = fresh;
    make_inline_bytes();
}

bool go_on(struct soak *soak, struct dsp_engine *engine, struct dsp_engine *other) {
    bool is_same = true;
    for (uint32_t i = 0; i < EVENTS / PLACES; i += 1) {
        struct event event = next_of(soak);
        struct outcome one = made(engine, &event), second = made(other, &event);
        if (is_same && memcmp(&one, &second, sizeof one) != 0) {
            printf("at event %lu one engine answers %ld, and the other %ld, or they give other bytes\n", soak->tally.events + 1,
                   (long)one.number, (long)second.number);
            is_same = false;
        }
        count(&soak->tally, &event, &second);
    }
    return is_same && dsp_engine_frames_left(engine) == dsp_engine_frames_left(other);
}

bool is_expected(const struct soak *soak, char *told) {
    const struct tally *tally = &soak->tally;
    sprintf(told, "events %lu frames %lu accepted %lu read %lu refused %lu errors %lu sum %lu", tally->events, tally->frames,
            tally->accepted, tally->read, tally->refused, tally->errors, tally->sum);
    return strcmp(told, expected) == 0;
}
