#!/bin/bash
# Prints a script that plays a song and records a voice to it, from one position on: bash to_a_song.sh song.wav > both.script
# The wave has 16 bits, two channels and 48000 frames per second after a header of 44 bytes, and the configuration names it `song`, and
# the voice as its `device.capture`. The first send fills the ring and starts nothing, as the player is a member of a group. The bytes of
# all reads, joined, are the voice, as the pipe
#     dsp_replay run both.script out.raw both.toml | awk '$2 == "ok" && NF == 4 { print $4 }' | xxd -r -p > voice.raw
# makes them. It begins with the frame captured when the song's first frame went into the device's ring. Frame 1024, or frame
# hw_block * hw_blocks of another ring, was captured as that left it: `tail -c +4097 voice.raw` begins there.
size=$(($(stat -c %s "$1") - 44)) part=16384
echo 'open 0 play s16le 2 48000'
echo 'open 1 rec s16le 2 48000'
echo 'ioctl 0 syncgroup 0'
echo 'ioctl 1 syncgroup 1'
printf 'send 0 song 0 %d\n' $((size < part ? size : part))
echo 'ioctl 1 syncstart 1'
for ((at = part, part = 4096; at < size; at += part)); do
    left=$((size - at))
    printf 'intr 1024\nread 1 4096\n'
    printf 'send 0 song %d %d\n' $at $((left < part ? left : part))
done
echo 'close 0'
for ((left = 0; left < 5; left++)); do
    printf 'intr 1024\nread 1 4096\n'
done
