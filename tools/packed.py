"""Sounds as a page holds them: frames whole where they fit, the least and the greatest of many everywhere, and a copy to listen to."""
import array
import base64
import functools
import hashlib
import math
import sys
import zlib

from blocks import little, measured, numbers_of
from commands import fail, told
from sounds import BLOCK, WIDTH, digits, full_scale

# a number of the lowest level stands for the frames of a block, and one of each level above for TIMES of the one below; shorter sounds have none
TIMES, SHORT = 4, 4096
# how many frames are packed as one
CHUNK = 1 << 14
# copies to listen to, the best first: every how many frames give one, and whether channels are joined
COPIES = ((2, False), (4, False), (8, False), (8, True), (16, True), (32, True), (64, True), (128, True))
PART = 1 << 15
# frames that are packed fit where they have at most this many times the room; and which part of the room the copies take of the device, and
# of the others
MAY_FIT, FIRST, OTHERS = 6, 0.5, 0.75
# how many frames on both sides of a click are held whole
AROUND = 1024


def packed(data):
    """Bytes as a page holds them: deflated, as text."""
    return base64.b64encode(zlib.compress(data, 6)).decode()


class Room:
    """The text that a page has still room for, and what it holds by names."""

    def __init__(self, most):
        self.left, self.blobs, self.known = most, {}, {}

    def put(self, data):
        """Holds bytes. Answers their name, or None where there is no room. What is there already is held once."""
        key = hashlib.sha256(data).digest()
        if key not in self.known:
            text = packed(data)
            if len(text) > self.left:
                return None
            self.left -= len(text)
            self.known[key] = str(len(self.blobs))
            self.blobs[self.known[key]] = text
        return self.known[key]

    def hold(self, data):
        """Holds what no page goes without."""
        name = self.put(data)
        return fail("the page would be larger than it may be, even without its sound: --megabytes N allows more") if name is None else name


def without(begin, end, rows):
    """The parts of some frames that aren't among rows of them."""
    for low, high in sorted(rows):
        if low > begin and begin < end:
            yield begin, min(low, end)
        begin = max(begin, high)
    if begin < end:
        yield begin, end


class Track:
    """A sound of a page."""

    def __init__(self, name, sound, frames):
        self.name, self.sound, self.frames, self.device = name, sound, frames, sound.device
        self.chunks, self.levels, self.copy = [], [], None

    def width(self):
        return 4 if WIDTH[self.device.format] > 2 else WIDTH[self.device.format]

    def planes(self, begin, end):
        """The samples of some frames, channel by channel."""
        samples = self.sound.samples(begin, end)
        return [samples[k::self.device.channels] for k in range(self.device.channels)]

    def put_chunk(self, room, begin, end):
        """Holds frames whole. Answers whether there was room."""
        end = min(end, self.frames)
        name = room.put(b"".join(map(little, self.planes(begin, end)))) if begin < end else None
        self.chunks += [[begin, end, name]] if name else []
        return begin >= end or name is not None

    def put_levels(self, room):
        """Holds the least and the greatest of blocks of frames, and of blocks of these."""
        lows, highs = self.extremes()
        while lows and len(lows[0]) > 1:
            data = b"".join(little(array.array("h", it)) for pair in zip(lows, highs) for it in pair)
            self.levels.append([len(lows[0]), room.hold(data)])
            lows, highs = ([[which(it[k:k + TIMES]) for k in range(0, len(it), TIMES)] for it in every] for every, which in ((lows, min), (highs, max)))

    def extremes(self):
        """The least and the greatest of each block, channel by channel, in 16 bits."""
        if self.frames < SHORT:
            return [], []
        blocks, count = measured(self.sound), -(-self.frames // BLOCK)
        return ([self.in_16_bits(it[:count]) for it in every] for every in (blocks.lows, blocks.highs))

    def in_16_bits(self, samples):
        width = WIDTH[self.device.format]
        return samples if width == 2 else [it << 8 if width == 1 else it >> 8 * width - 16 for it in samples]

    def copy_size(self, every, is_joined):
        return self.frames * (1 if is_joined else self.device.channels) // every

    def put_copy(self, room, every, is_joined):
        """Holds a copy to listen to: the mean of some frames, in 8 bits that are finer where it is quiet."""
        table = coded(every * (self.device.channels if is_joined else 1))
        lanes = [bytearray() for _ in range(1 if is_joined else self.device.channels)]
        for begin, end in told(self.sound.parts(0, self.frames - self.frames % every, PART), "a copy to listen to is made", self.frames):
            planes = [highest(it, WIDTH[self.device.format]) for it in self.planes(begin, end)]
            for lane, which in zip(lanes, [planes] if is_joined else [[it] for it in planes]):
                lane.extend(table[it] for it in added(which, every))
        name = room.put(b"".join(lanes))
        self.copy = {"every": every, "channels": len(lanes), "blob": name} if name else None

    def told(self):
        """What the page gets of it."""
        return {"name": self.name, "channels": self.device.channels, "rate": self.device.rate, "frames": self.frames, "width": self.width(),
                "full": full_scale(self.device), "block": BLOCK, "times": TIMES, "levels": self.levels, "chunks": self.chunks, "copy": self.copy}


def added(planes, every):
    """The sums of groups of `every` samples of planes of 16 bits, each of which counts 32768 more. All are added together, as the digits of a
    large number: first the upper and the lower half of each digit of 32 bits, and then digits that are neighbours."""
    count = len(planes[0]) // 2
    total, lower = 0, digits(0xFFFF, count)
    for plane in planes:
        both = int.from_bytes(little(plane), "little") ^ digits(0x80008000, count)
        total += (both & lower) + (both >> 16 & lower)
    for times in range(1, every.bit_length() - 1):
        total += total >> 16 * 2 ** times
    return numbers_of(total & (1 << 32 * count) - 1, count)[::every // 2]


def highest(plane, width):
    """Samples in 16 bits, the lower bits left out."""
    if width == 2:
        return plane
    if width == 1:
        return array.array("h", (it << 8 for it in plane))
    data, found = little(plane), bytearray(2 * len(plane))
    found[0::2], found[1::2] = (data[2::4], data[3::4]) if width == 4 else (data[1::4], data[2::4])
    numbers = array.array("h", bytes(found))
    if sys.byteorder == "big":
        numbers.byteswap()
    return numbers


@functools.lru_cache(4)
def coded(count):
    """The codes of 8 bits by the sum of `count` samples of 16 bits, each of which counts 32768 more: steps that grow with the level."""
    codes = bytes(min(round(127 * math.log1p(255 * it / 32768) / math.log(256)), 127) for it in range(32768))
    upper = b"".join(bytes([it]) * count for it in codes)
    return (upper[1:] + b"\x7f")[::-1].translate(bytes(-it % 256 for it in range(256))) + upper


class Packer:
    """Puts the sounds of a page into the room that it has."""

    def __init__(self, page, room):
        self.page, self.room, self.whole, self.is_all = page, room, [0, 0], False

    def frames(self, track, begin, end):
        """The frames of a track that belong to frames of OUT: those that are handed over, or mixed into them."""
        along = self.page.alongs.get(id(track))
        if not along:
            return begin, min(end, track.frames)
        return along.frames(max(begin - self.page.ring, 0), end) or (0, 0)

    def put_part(self, begin, end):
        """Holds frames of all tracks whole, those that aren't yet. Answers whether all had room."""
        for track in self.page.tracks:
            first, last = self.frames(track, begin, end)
            for part in list(without(first, min(last, track.frames), [it[:2] for it in track.chunks])):
                if not track.put_chunk(self.room, *part):
                    return False
        return True

    def put_window(self, begin, end):
        """Holds the frames of a window whole, as far as there is room."""
        for at in told_parts(begin, end):
            if not self.put_part(at, min(at + CHUNK, end)):
                return at
        return end

    def try_whole(self):
        """Holds all frames whole, if they may fit. Where they don't, all is as before."""
        kept = self.room.left, dict(self.room.blobs), dict(self.room.known)
        size = sum(it.frames * it.width() * it.device.channels for it in self.page.tracks)
        if size < MAY_FIT * self.room.left and self.put_window(0, self.page.out.frames) == self.page.out.frames:
            self.is_all, self.whole = True, [0, self.page.out.frames]
            return True
        self.room.left, self.room.blobs, self.room.known = kept
        for track in self.page.tracks:
            track.chunks = []
        return False

    def put_all(self):
        """Holds all of the sounds that there is room for, what matters most first."""
        for track, rows in self.page.whys.wanted():
            for begin, end in rows:
                track.put_chunk(self.room, begin, end)
        for track in self.page.tracks:
            track.put_levels(self.room)
        if not self.try_whole():
            self.put_copies()
            for it in self.page.clicks:
                self.put_part(max(it.at - AROUND, 0), it.at + AROUND)
            begin, end = self.page.window
            self.whole = [begin, self.put_window(begin, end)]

    def notes(self, names, megabytes):
        """What the page leaves out, and how to ask for it."""
        if self.is_all:
            return []
        words = " ".join(["tools/page", *names])
        copy = self.page.out.copy
        heard = f", and a copy to listen to, of {self.page.out.device.rate // copy['every']} Hz with 8 bits" if copy else ", and no sound"
        begin, end = self.whole
        whole = f"Frames {begin} to {end - 1} are in it whole, and those around each click." if end > begin else "Frames around clicks are in it whole."
        return [f"This file has at most {megabytes} MB. {whole} Elsewhere it has the least and the greatest of each {BLOCK} frames{heard}.",
                f"For other frames: {words} --from 1:00 --to 1:02", f"For a larger file: {words} --megabytes {4 * megabytes}"]

    def put_copies(self):
        """Holds a copy to listen to of each sound that the page plays: that of the device by itself, and those of the others alike."""
        first, *others = self.page.played_tracks()
        for tracks, part in (([first], FIRST), (others, OTHERS)):
            sizes = [(sum(it.copy_size(*how) for it in tracks) * 4 // 3, how) for how in COPIES]
            how = next((how for size, how in sizes if size <= part * self.room.left), None)
            for it in tracks if how else ():
                it.put_copy(self.room, *how)


def told_parts(begin, end):
    """Where parts of some frames begin, while a line says how far they are."""
    return (at for at, _ in told(((at, end) for at in range(begin, end, CHUNK)), "sound is packed", end))
