"""The least and the greatest sample of each block of a sound: once they are known, many frames are no more work to look at than few."""
import array
import sys

from commands import told
from sounds import BLOCK, PART, TYPES, WIDTH, digits


def measured(sound):
    """The blocks of a sound, which are looked up once."""
    if sound.blocks is None:
        sound.blocks = Blocks(sound)
    return sound.blocks


class Blocks:
    """The least and the greatest sample of each channel of each block of a sound."""

    def __init__(self, sound):
        self.sound, channels, code = sound, sound.device.channels, TYPES[WIDTH[sound.device.format]]
        self.lows, self.highs = ([array.array(code) for _ in range(channels)] for _ in range(2))
        for begin, end in told(sound.parts(), "sound is measured", sound.frames):
            samples = sound.samples(begin, end)
            for at in range(channels):
                look_up = side_by_side if code == "h" and end - begin == PART else one_by_one
                lows, highs = look_up(samples[at::channels])
                self.lows[at].extend(lows)
                self.highs[at].extend(highs)

    def extremes(self, begin, end):
        """The least and the greatest sample of each channel among frames: of whole blocks, and of the frames before and after them."""
        first, frames, channels = -(-begin // BLOCK), self.sound.frames, self.sound.device.channels
        last = max(len(self.lows[0]) if end >= frames else end // BLOCK, first)
        found = [self.sound.looked_up(*it) for it in ((begin, min(first * BLOCK, end)), (last * BLOCK, end)) if it[0] < it[1]]
        found += [[(0, 0)] * channels] if end > frames else []
        if first < last:
            found.append([(min(self.lows[at][first:last]), max(self.highs[at][first:last])) for at in range(channels)])
        return [(min(low for low, _ in it), max(high for _, high in it)) for it in zip(*found)]


def one_by_one(plane):
    """The least and the greatest of each block of samples."""
    samples = plane.tolist()
    blocks = [samples[k:k + BLOCK] for k in range(0, len(samples), BLOCK)]
    return map(min, blocks), map(max, blocks)


def side_by_side(plane):
    """The same of a part of 16 bits, whose blocks are all looked at together, as the digits of large numbers: those of every second block
    in the upper halves of digits of 32 bits, the others in the lower ones; and the samples of a block one row of digits after another."""
    rows = (plane[k::BLOCK] for k in range(BLOCK))
    count = len(plane) // 2
    both = int.from_bytes(b"".join(map(little, rows)), "little") ^ digits(0x80008000, count)
    found = [folded(it & digits(0xFFFF, count), count) for it in (both, both >> 16)]
    return ([it - 32768 for pair in zip(*every) for it in pair] for every in zip(*found))


def folded(samples, count):
    """The least and the greatest sample of each block, out of `count` digits: half of them are laid upon the others, until one row is left."""
    count //= 2
    low, high = sorted_pairs(samples, count)
    while count > PART // BLOCK // 2:
        count //= 2
        low, high = sorted_pairs(low, count)[0], sorted_pairs(high, count)[1]
    return [numbers_of(it, count) for it in (low, high)]


def sorted_pairs(number, count):
    """The lesser and the greater ones of the digits of both halves of a number, of `count` digits each."""
    one, other = number & (1 << 32 * count) - 1, number >> 32 * count
    by = excess(one, other, count)
    return one - by, other + by


def excess(one, other, count):
    """By how much each digit is above that of another number: 0 where it isn't."""
    by = (one | digits(1 << 16, count)) - other
    is_more = by & digits(1 << 16, count)
    return by & is_more - (is_more >> 16)


def numbers_of(number, count):
    """The digits of a number."""
    found = array.array("I", number.to_bytes(4 * count, "little"))
    if sys.byteorder == "big":
        found.byteswap()
    return found


def little(numbers):
    """The bytes of an array, the lowest first."""
    if sys.byteorder == "big":
        numbers.byteswap()
    return numbers.tobytes()
