/*
 * Writes what a device of OSS records, 16 bits with the lowest byte first, to standard output until it is ended:
 *
 *     listen DEVICE RATE CHANNELS
 *
 * scripts/kernel has it at the other end of a loopback card.
 */
#include <fcntl.h>
#include <stdio.h>
#include <stdlib.h>
#include <sys/ioctl.h>
#include <sys/soundcard.h>
#include <unistd.h>

/* Fragments of 256 bytes, as many as there may be. */
enum { FRAGMENTS = 0x7fff0008 };

static int is_set(int fd, unsigned long request, int value) {
    int answer = value;
    return ioctl(fd, request, &answer) == 0 && answer == value;
}

int main(int count, char **words) {
    static char bytes[1 << 12];
    int fragments = FRAGMENTS, fd = count == 4 ? open(words[1], O_RDONLY) : -1;
    if (fd < 0 || ioctl(fd, SNDCTL_DSP_SETFRAGMENT, &fragments) != 0 || !is_set(fd, SNDCTL_DSP_SETFMT, AFMT_S16_LE) ||
        !is_set(fd, SNDCTL_DSP_CHANNELS, atoi(words[3])) || !is_set(fd, SNDCTL_DSP_SPEED, atoi(words[2]))) {
        perror("listen");
        return 1;
    }
    for (ssize_t got = 1; got > 0;) {
        got = read(fd, bytes, sizeof bytes);
        if (got > 0 && write(STDOUT_FILENO, bytes, (size_t)got) != got) {
            got = -1;
        }
    }
    return 0;
}
