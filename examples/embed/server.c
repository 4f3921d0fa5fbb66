/*
 * A sound server's shape: clients come, wait for a slot, play and go; each is served when it can go on, and not before; the device is /dev/null.
 *
 *     cc server.c $(pkg-config --cflags --libs dsp_engine) -o server && ./server
 */
#include <dsp_engine.h>
#include <stdio.h>

enum { CLIENTS = 24, SLOTS = 8, PERIOD = 480, FRAME = 4, MOST_FRAMES = 4800000, PART = 1024, FOUR_PARTS = 0x0004000a };

/* A client waits for a slot, sends its bytes as there is room, drains, and is gone. */
enum state { WAITING, SENDING, DRAINING, GONE };

struct client {
    enum state state;
    uint32_t rate;
    uint32_t left; /* bytes that it will still send */
    uint64_t due;  /* how many frames the device has taken when it can go on */
};

/* Clients of rates from 8000 Hz on, each with a quarter of a second of one channel of 16 bits. */
static void set_up(struct client *clients) {
    for (uint32_t i = 0; i < CLIENTS; i += 1) {
        clients[i] = (struct client){WAITING, 8000 + 1000 * i, (8000 + 1000 * i) / 4 * 2, 0};
    }
}

/* The bytes for which a client waits: those that it sends next, or, once it has sent all, the one that fits when its drain is over. */
static uint32_t awaited(const struct client *client) {
    return client->left == 0 ? 1 : client->left < PART ? client->left : PART;
}

/* A client's next bytes: here a saw. A server has them from the client's socket. */
static void next_bytes(const struct client *client, uint8_t *bytes, uint32_t length) {
    for (uint32_t i = 0; i < length; i += 1) {
        bytes[i] = (uint8_t)((client->left - i) % 2 == 0 ? 0 : (client->left - i) / 16);
    }
}

/* Sends parts as long as one fits whole, and says when nothing more comes. */
static void send(struct dsp_engine *engine, uint32_t fd, struct client *client) {
    uint8_t bytes[PART];
    while (client->left > 0 && dsp_engine_frames_until(engine, fd, awaited(client)) == 0) {
        uint32_t length = awaited(client);
        next_bytes(client, bytes, length);
        dsp_engine_write(engine, fd, bytes, length);
        client->left -= length;
    }
    if (client->left == 0) {
        dsp_engine_ioctl(engine, fd, DSP_SYNC, 0, NULL);
        client->state = DRAINING;
    }
}

/* What a client does that can go on. Answers how often it was short. */
static uint32_t serve(struct dsp_engine *engine, uint32_t fd, struct client *client) {
    struct dsp_errors errors = {0, 0};
    if (client->state == WAITING && dsp_engine_open(engine, fd, DSP_PLAY, DSP_S16_LE, 1, client->rate) >= 0) {
        dsp_engine_ioctl(engine, fd, DSP_SETFRAGMENT, FOUR_PARTS, NULL);
        client->state = SENDING;
    }
    if (client->state == SENDING) {
        send(engine, fd, client);
    } else if (client->state == DRAINING) {
        dsp_engine_errors(engine, fd, &errors);
        dsp_engine_close(engine, fd);
        client->state = GONE;
    }
    return errors.underruns;
}

/* How many clients are in one of two states. */
static int count(const struct client *clients, enum state one, enum state other) {
    int found = 0;
    for (int i = 0; i < CLIENTS; i += 1) {
        found += clients[i].state == one || clients[i].state == other;
    }
    return found;
}

/* Whether a client can go on: a slot is free, or the device has taken as many frames as it waits for. */
static bool can_go_on(const struct client *clients, const struct client *client, uint64_t frames) {
    return client->state == WAITING ? count(clients, SENDING, DRAINING) < SLOTS : client->state != GONE && client->due <= frames;
}

/* The loop. A card would take each period when it wants it; this device takes it at once. Answers how often clients were short. */
static uint32_t serve_all(struct dsp_engine *engine, struct client *clients, FILE *device, int *turns) {
    uint8_t bytes[PERIOD * FRAME];
    uint32_t shortages = 0;
    for (uint64_t frames = 0; count(clients, GONE, GONE) < CLIENTS && frames < MOST_FRAMES; frames += PERIOD) {
        for (uint32_t fd = 0; fd < CLIENTS; fd += 1) {
            if (can_go_on(clients, &clients[fd], frames)) {
                shortages += serve(engine, fd, &clients[fd]);
                /* where it has no slot or is gone this is below 0, and `due` isn't looked at */
                clients[fd].due = frames + (uint64_t)dsp_engine_frames_until(engine, fd, awaited(&clients[fd]));
                *turns += 1;
            }
        }
        int32_t length = dsp_engine_interrupt(engine, PERIOD, NULL, 0, bytes, sizeof bytes);
        fwrite(bytes, 1, length > 0 ? (size_t)length : 0, device);
    }
    return shortages;
}

int main(void) {
    static const struct dsp_device card = {
        .format = DSP_S16_LE, .channels = 2, .rate = 48000, .ring_frames = 2 * PERIOD, .play_slots = SLOTS, .quality = 1};
    struct client clients[CLIENTS];
    struct dsp_engine *engine = NULL;
    FILE *device = fopen("/dev/null", "wb");
    int32_t answer = dsp_engine_create(&engine, &card, NULL, 0, NULL, 0, NULL, 0);
    int turns = 0;

    set_up(clients);
    uint32_t shortages = device != NULL && answer == 0 ? serve_all(engine, clients, device, &turns) : 0;
    printf("%d clients were served in %d turns, %d shortages, %s\n", count(clients, GONE, GONE), turns, (int)shortages, dsp_engine_error(answer));
    dsp_engine_destroy(engine);
    return device != NULL && fclose(device) == 0 && count(clients, GONE, GONE) == CLIENTS && shortages == 0 ? 0 : 1;
}
