#!/bin/bash
# Prints a script that plays a wave of any length: bash a_long_wave.sh song.wav > song.script
# The wave has 16 bits, two channels and 44100 frames per second after a header of 44 bytes, and the configuration names it `song`.
# Half of the ring, 32 fragments of 4096 bytes, is sent first. After each interrupt follows as much as its 960 frames last, a
# fiftieth of a second of a device of 48000: so the ring never runs dry and never overflows.
rate=44100 frame=4 size=$(($(stat -c %s "$1") - 44))
part=65536 next=$((rate / 50 * frame))
printf 'open 0 play s16le 2 %d\n' $rate
echo 'ioctl 0 setfragment 0x0020000c'
for ((at = 0; at < size; at += part, part = next)); do
    left=$((size - at))
    printf 'send 0 song %d %d\n' $at $((left < part ? left : part))
    echo 'intr 960'
done
echo 'close 0'
for ((left = 65536; left > -3 * next; left -= next)); do
    echo 'intr 960'
done
