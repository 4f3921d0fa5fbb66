/*
 * Holds an engine for programs that open /dev/dsp, into which tools/live loads client.c: one loop over their descriptors and their calls.
 *
 * Its words are NAME=VALUE: listens, the descriptor of its socket; script, replies, data, wave, kept and result, the files that it writes; pace, which is
 * clock, fast or step; lines, how many bytes of sound go into lines; capture, samples of 32 bits; and format, channels, rate, ring, block,
 * play, record, mapped, quality, mix_channels and mix_rate of the device. It ends once its standard input does.
 */
#define _GNU_SOURCE
#include "holder.h"

#include <errno.h>
#include <fcntl.h>
#include <inttypes.h>
#include <poll.h>
#include <signal.h>
#include <stdlib.h>
#include <string.h>
#include <sys/socket.h>
#include <sys/stat.h>
#include <unistd.h>

enum { NUMBERS = 10 };

/* ---- its words ---- */

static const char *word_of(char **words, const char *name) {
    size_t length = strlen(name);
    for (char **it = words; *it; it += 1) {
        if (strncmp(*it, name, length) == 0 && (*it)[length] == '=') {
            return (*it)[length + 1] ? *it + length + 1 : NULL;
        }
    }
    return NULL;
}

static uint32_t number_of(char **words, const char *name, uint32_t usual) {
    const char *word = word_of(words, name);
    return word ? (uint32_t)strtoul(word, NULL, NUMBERS) : usual;
}

static enum pace pace_of(const char *word) {
    if (word && strcmp(word, "fast") == 0) {
        return PACE_FAST;
    }
    return word && strcmp(word, "step") == 0 ? PACE_STEP : PACE_CLOCK;
}

/* What recordings hear, as a file of samples of 32 bits. */
static bool read_capture(struct device *device, const char *path) {
    struct stat is;
    FILE *file = path ? fopen(path, "re") : NULL;
    if (!path) {
        return true;
    }
    if (!file || fstat(fileno(file), &is) != 0) {
        return false;
    }
    size_t samples = (size_t)is.st_size / sizeof *device->captured;
    device->captured = malloc((size_t)is.st_size + 1);
    bool is_read = device->captured && fread(device->captured, sizeof *device->captured, samples, file) == samples;
    device->captured_frames = is_read ? samples / device->settings.channels : 0;
    fclose(file);
    return is_read;
}

static void settle(struct holder *holder, char **words) {
    struct device *device = &holder->device;
    device->settings = (struct dsp_device){
        .format = number_of(words, "format", DSP_S16_LE), .channels = number_of(words, "channels", 2), .rate = number_of(words, "rate", 48000),
        .ring_frames = number_of(words, "ring", 1024), .play_slots = number_of(words, "play", 4), .record_slots = number_of(words, "record", 4),
        .map_slots = number_of(words, "mapped", 0), .quality = number_of(words, "quality", 1), .mix_channels = number_of(words, "mix_channels", 0),
        .mix_rate = number_of(words, "mix_rate", 0)};
    device->block = number_of(words, "block", 256);
    device->journal.script_path = word_of(words, "script");
    device->journal.replies_path = word_of(words, "replies");
    device->journal.data_path = word_of(words, "data");
    device->journal.line_bytes = number_of(words, "lines", 0);
    holder->wave_path = word_of(words, "wave");
    holder->kept_path = word_of(words, "kept");
    holder->pace = pace_of(word_of(words, "pace"));
}

/* ---- connections ---- */

static void drop(struct holder *holder, size_t k) {
    if (holder->calls[k]->fd >= 0) {
        close(holder->calls[k]->fd);
    }
    free(holder->calls[k]);
    holder->calls[k] = NULL;
}

/* Takes in a connection, as long as there is room for its call. */
static bool accept_one(struct holder *holder) {
    for (size_t k = 0; k < CALLS; k += 1) {
        if (!holder->calls[k]) {
            int fd = accept4(holder->listens, NULL, NULL, SOCK_CLOEXEC);
            struct call *call = fd >= 0 ? calloc(1, sizeof *call) : NULL;
            if (call) {
                call->fd = fd;
            } else if (fd >= 0) {
                close(fd);
            }
            holder->calls[k] = call;
            return call != NULL;
        }
    }
    return false;
}

/* Reads more of a call. Answers whether somebody is still there. */
static bool receive(struct call *call) {
    const size_t head = sizeof call->head;
    uint8_t *to = call->got < head ? (uint8_t *)&call->head + call->got : call->bytes + call->got - head;
    size_t wanted = call->got < head ? head - call->got : call->head.length + head - call->got;
    ssize_t got = recv(call->fd, to, wanted, MSG_DONTWAIT);
    if (got <= 0) {
        return got < 0 && (errno == EAGAIN || errno == EINTR);
    }
    call->got += (size_t)got;
    call->is_whole = call->got >= head && call->got == head + call->head.length;
    return call->got < head || call->head.length <= WIRE_MOST;
}

/* A call that waits is taken back by a byte. Answers whether somebody is still there. */
static bool look_back(struct call *call) {
    char byte;
    ssize_t got = recv(call->fd, &byte, 1, MSG_DONTWAIT);
    call->is_taken_back |= got == 1;
    return got == 1 || (got < 0 && (errno == EAGAIN || errno == EINTR));
}

/* Reads a call until it is whole, or would wait for more of it. */
static bool read_call(struct call *call) {
    size_t before = call->got + 1;
    while (!call->is_whole && before != call->got) {
        before = call->got;
        if (!receive(call)) {
            return false;
        }
    }
    return true;
}

/* ---- the loop ---- */

/* Closes the descriptors whose last copy is closed, once all that came with them is taken. */
static void look_at_tokens(struct holder *holder) {
    for (struct token *it = holder->tokens; it < holder->tokens + TOKENS; it += 1) {
        if (it->used && token_is_clear(holder, it) && it->is_hung) {
            token_close(holder, it);
        }
    }
}

static void serve_all(struct holder *holder) {
    for (size_t k = 0; k < CALLS; k += 1) {
        struct call *call = holder->calls[k];
        if (!call) {
            continue;
        }
        bool is_there = call->is_whole ? look_back(call) : read_call(call);
        if (!is_there) {
            drop(holder, k);
        } else if (call->is_whole && call_serve(holder, call)) {
            drop(holder, k);
        } else if (call->is_whole && call->is_taken_back) {
            call_end(call);
            drop(holder, k);
        }
    }
}

/* All descriptors are closed as the holder ends. */
static void end_all(struct holder *holder) {
    for (struct token *it = holder->tokens; it < holder->tokens + TOKENS; it += 1) {
        if (it->used && token_is_clear(holder, it)) {
            token_close(holder, it);
        }
    }
}

static bool is_over(const struct holder *holder) {
    if (!holder->is_ending) {
        return false;
    }
    bool is_so = holder->pace == PACE_STEP || holder->device.frames >= holder->tail;
    for (const struct token *it = holder->tokens; it < holder->tokens + TOKENS; it += 1) {
        is_so &= !it->used;
    }
    return is_so;
}

static nfds_t polled(const struct holder *holder, struct pollfd *list) {
    nfds_t count = 0;
    list[count++] = (struct pollfd){holder->listens, POLLIN, 0};
    list[count++] = (struct pollfd){holder->is_ending ? -1 : holder->control, POLLIN, 0};
    for (const struct token *it = holder->tokens; it < holder->tokens + TOKENS; it += 1) {
        if (it->used && it->native_size == 0) {
            list[count++] = (struct pollfd){it->fd, POLLIN, 0};
        }
    }
    for (size_t k = 0; k < CALLS; k += 1) {
        if (holder->calls[k]) {
            list[count++] = (struct pollfd){holder->calls[k]->fd, POLLIN, 0};
        }
    }
    return count;
}

static void look_at_control(struct holder *holder) {
    char byte;
    ssize_t got = read(holder->control, &byte, 1);
    holder->is_ending = got == 0 || (got < 0 && errno != EINTR);
}

static void loop(struct holder *holder) {
    struct pollfd list[2 + TOKENS + CALLS];
    while (!is_over(holder)) {
        look_at_tokens(holder);
        serve_all(holder);
        if (holder->is_ending) {
            end_all(holder);
        }
        int wait = time_goes(holder);
        nfds_t count = polled(holder, list);
        if (is_over(holder) || poll(list, count, wait) <= 0) {
            continue;
        }
        if (list[1].revents) {
            look_at_control(holder);
        }
        while (list[0].revents && accept_one(holder)) {
        }
    }
}

/* ---- what came of it ---- */

static void report(const struct holder *holder, const char *path) {
    const struct journal *journal = &holder->device.journal;
    FILE *file = path ? fopen(path, "we") : NULL;
    if (!file) {
        return;
    }
    fprintf(file, "opened=%d\nfailed=%d\nlost=%d\ncut=%d\nunheard=%d\n", holder->was_opened, holder->has_failed, journal->lost, journal->cut,
            holder->device.is_unheard);
    fprintf(file, "events=%" PRIu64 "\nframes=%" PRIu64 "\nbytes=%" PRIu64 "\ndata=%" PRIu64 "\n", journal->events, holder->device.frames,
            journal->device_bytes, journal->data_bytes);
    fclose(file);
}

int main(int count, char **words) {
    static struct holder holder;
    (void)count;
    signal(SIGINT, SIG_IGN);
    signal(SIGHUP, SIG_IGN);
    signal(SIGTERM, SIG_IGN);
    signal(SIGPIPE, SIG_IGN);
    signal(SIGXFSZ, SIG_IGN);
    settle(&holder, words + 1);
    int32_t answer = device_begin(&holder.device);
    if (answer < 0 || !read_capture(&holder.device, word_of(words + 1, "capture"))) {
        fprintf(stderr, "%s\n", answer < 0 ? dsp_engine_error(answer) : "no room for what is captured");
        return 1;
    }
    holder.listens = (int)number_of(words + 1, "listens", STDIN_FILENO);
    fcntl(holder.listens, F_SETFL, O_NONBLOCK);
    loop(&holder);
    device_end(&holder.device);
    report(&holder, word_of(words + 1, "result"));
    free(holder.device.captured);
    return 0;
}
