"""Frames of files: any of them can be asked for, and none is kept. All samples are whole numbers with a sign."""
import array
import collections
import functools
import operator
import os
import sys

from calls import WIDTHS, number, wave_of

# the settings of frames
Device = collections.namedtuple("Device", "format channels rate ring block")
WIDTH = {**WIDTHS, **{f"{sign}{bits}{order}": bits // 8 for sign in "su" for bits in (8, 16, 24, 32) for order in ("", "le", "be")}}
TYPES = {1: "b", 2: "h", 3: "i", 4: "i"}
# each byte with its highest bit turned; what fills a sample up above its highest byte; and how many samples are compared one by one
TURNED = bytes(byte ^ 128 for byte in range(256))
SIGNS = bytes(255 * (byte >> 7) for byte in range(256))
FEW = 200
# how many frames are looked at in one go; and of how many the least and the greatest sample is kept, where a sound is measured, by `blocks`
PART, BLOCK = 1 << 16, 256


def size_of(device):
    """The bytes of a frame."""
    return WIDTH[device.format] * device.channels


def full_scale(device):
    """The number above the greatest sample."""
    return 1 << 8 * WIDTH[device.format] - 1


def numbers_of(data, form):
    """The samples that bytes spell."""
    width, is_big = WIDTH[form], form.endswith("be")
    if form.startswith("u"):
        data, top = bytearray(data), 0 if is_big else width - 1
        data[top::width] = data[top::width].translate(TURNED)
    if width == 3:
        low, middle, high = (data[at::3] for at in ((2, 1, 0) if is_big else (0, 1, 2)))
        data, is_big = bytearray(4 * len(low)), False
        data[0::4], data[1::4], data[2::4], data[3::4] = low, middle, high, high.translate(SIGNS)
    samples = array.array(TYPES[width])
    samples.frombytes(data)
    if width > 1 and is_big != (sys.byteorder == "big"):
        samples.byteswap()
    return samples


def samples_of(body, device):
    """The samples of whole frames, frame by frame."""
    channels = device.channels
    values = numbers_of(body[:len(body) - len(body) % size_of(device)], device.format)
    return list(zip(*(values[k::channels] for k in range(channels))))


class Sound:
    """The frames of a file from one of its bytes on, and the device whose frames they are."""

    def __init__(self, path, device, begin=0, size=None):
        self.file, self.device, self.begin, self.frame_size = open(path, "rb"), device, begin, size_of(device)
        left = os.fstat(self.file.fileno()).st_size - begin
        self.frames, self.rest = divmod(max(0, left if size is None else min(left, size)), self.frame_size)
        self.whole, self.lead, self.blocks = self, 0, None

    def data(self, begin, end):
        """The bytes of frames, as far as there are some."""
        begin, end = max(begin, 0), min(end, self.frames)
        return os.pread(self.file.fileno(), max(0, end - begin) * self.frame_size, self.begin + begin * self.frame_size)

    def part(self):
        """The bytes after the last frame, of a file that was cut within one."""
        return os.pread(self.file.fileno(), self.rest, self.begin + self.frames * self.frame_size)

    def samples(self, begin, end):
        """The samples of frames one after another, channel by channel, silent where there are none."""
        found = numbers_of(self.data(begin, end), self.device.format)
        before = max(0, min(end, 0) - begin) * self.device.channels
        behind = (end - begin) * self.device.channels - before - len(found)
        return array.array(found.typecode, bytes(before * found.itemsize)) + found + array.array(found.typecode, bytes(behind * found.itemsize))

    def frame(self, at):
        return tuple(self.samples(at, at + 1))

    def parts(self, begin=0, end=None, size=PART):
        """Where parts of the frames begin and end."""
        end = self.frames if end is None else end
        return ((at, min(at + size, end)) for at in range(begin, end, size))

    def from_frame(self, at):
        """The same frames from one of them on."""
        found = Sound(self.file.name, self.device, self.begin + at * self.frame_size)
        found.whole, found.lead = self.whole, self.lead + at
        return found

    def jumps_by(self, begin, end, least):
        """Whether a sample among frames may differ by so much from that of the frame before: all are looked at together, as the digits
        of a large number, by their highest 16 bits."""
        highest = highest_of(self.data(begin - 1 if begin else 0, end), self.device.format)
        count = len(highest) // 2 - self.device.channels
        least = max((least >> 8 * WIDTH[self.device.format] - 16 if WIDTH[self.device.format] > 1 else least << 8) - 1, 1)
        every = int.from_bytes(highest, "little")
        return any(any_apart(every >> shift, every >> shift + 16 * self.device.channels, (count + 1 - shift // 16) // 2, least) for shift in (0, 16))

    def extremes(self, begin, end):
        """The least and the greatest sample of each channel among frames, of which there is one at least."""
        for sound, lead in ((self, 0), (self.whole, self.lead)):
            if sound.blocks and begin >= 0 and end - begin > 2 * BLOCK:
                return sound.blocks.extremes(begin + lead, end + lead)
        return self.looked_up(begin, end)

    def looked_up(self, begin, end):
        """The same, out of the samples."""
        device, width = self.device, WIDTH[self.device.format]
        samples = self.samples(begin, end)
        data = self.data(begin, end)
        if len(data) < (end - begin) * self.frame_size:
            return [(min(it), max(it)) for it in (samples[k::device.channels] for k in range(device.channels))]
        tops = data[0 if device.format.endswith("be") else width - 1::width]
        tops = tops if device.format.startswith("u") else tops.translate(TURNED)
        return [(extreme(samples[k::device.channels], tops[k::device.channels], min),
                 extreme(samples[k::device.channels], tops[k::device.channels], max)) for k in range(device.channels)]


def highest_of(data, form):
    """The highest 16 bits of each sample, without a sign, the lowest byte first."""
    width, is_big = WIDTH[form], form.endswith("be")
    found = bytearray(2 * (len(data) // width))
    top = data[0 if is_big else width - 1::width]
    found[1::2] = top if form.startswith("u") else top.translate(TURNED)
    if width > 1:
        found[0::2] = data[1 if is_big else width - 2::width]
    return bytes(found)


@functools.lru_cache(64)
def digits(value, count):
    """A number of `count` digits of 32 bits, each the same."""
    return int.from_bytes(value.to_bytes(4, "little") * count, "little")


def any_apart(one, other, count, least):
    """Whether one of the lower halves of the digits of two numbers differs by so much. A bit above them is left where it does."""
    one, other = (it & digits(0xFFFF, count) for it in (one, other))
    far, least = digits(1 << 17, count), digits(least, count)
    return bool(((one | far) - other - least) & far or ((other | far) - one - least) & far)


def extreme(samples, tops, which):
    """The least or the greatest of samples, whose highest bytes are given too: most samples are left out by these."""
    top = which(tops) if len(tops) < FEW else next(it for it in (range(256) if which is min else range(255, -1, -1)) if it in tops)
    if len(tops) < FEW or tops.count(top) > FEW:
        return which(samples)
    found, at = [], tops.find(top)
    while at >= 0:
        found.append(samples[at])
        at = tops.find(top, at + 1)
    return which(found)


def sound_of(path, device):
    """The frames of OUT, with the settings that its header has where it is a wave."""
    with open(path, "rb") as file:
        head = file.read(12)
        size = os.fstat(file.fileno()).st_size
    if head[:4] == b"RIFF" and head[8:] == b"WAVE" and number(head, 4, 4) >= size - 8 - 1:
        wave = wave_of(path)
        return Sound(path, device._replace(format=wave.format, channels=wave.channels, rate=wave.rate), wave.at, wave.size)
    return Sound(path, device)


def differ(first, second):
    """The places at which two rows of samples differ."""
    return [at for at, is_other in enumerate(map(operator.ne, first, second)) if is_other]


def joined(numbers, gap=1):
    """Numbers that follow one another within a gap, as the first and the one after the last of each row of them."""
    begin = last = None
    for at in numbers:
        if begin is not None and at > last + gap:
            yield begin, last + 1
            begin = None
        begin, last = at if begin is None else begin, at
    if begin is not None:
        yield begin, last + 1
