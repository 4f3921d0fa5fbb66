"""The jobs that scripts/bench measures, and the inputs that they read."""
import array
import collections
import itertools
import math
import os
import pathlib
import random
import re
import subprocess
import sys

ROOT = pathlib.Path(__file__).resolve().parent.parent

# A job of the program: its name, how many units it does and what one is, the program's words, the file that it reads, if that is
# most of what it reads, and what others do for the same job, each with a name.
Job = collections.namedtuple("Job", "name units unit words source others")

# a quarter of the largest device file: 268,435,456 bytes in frames of four
MOST_FRAMES = 67108864
# how many lines the jobs of small events and of refused ones have
LINES = 1 << 20
WIDTHS = {"u8": 1, "s16le": 2, "s24le": 3, "s32le": 4}


def second_of(form, channels, rate):
    """The bytes of one second of noise over a tone in each channel."""
    chance, width = random.Random(1), WIDTHS[form]
    noise = [chance.randrange(-6000, 6000) for _ in range(8192)]
    tones = [[round(12000 * math.sin(2 * math.pi * (220 + 110 * c) * k / rate)) for k in range(rate)] for c in range(channels)]
    words = array.array("h", (tones[c][k] + noise[(k * channels + c) % 8192] for k in range(rate) for c in range(channels)))
    data = words.tobytes()
    if width == 1:
        return bytes((word >> 8) + 128 for word in words)
    return b"".join(bytes(width - 2) + data[at:at + 2] for at in range(0, len(data), 2)) if width > 2 else data


def make_wave(path, form, channels, rate, seconds):
    """A wave of integer PCM, one second over and over. Its last second may be a part of one."""
    frame = channels * WIDTHS[form]
    whole, part = divmod(round(rate * seconds), rate)
    second = second_of(form, channels, rate)
    size = (whole * rate + part) * frame
    head = b"".join(number.to_bytes(length, "little") for number, length in (
        (16, 4), (1, 2), (channels, 2), (rate, 4), (rate * frame, 4), (frame, 2), (8 * WIDTHS[form], 2)))
    with open(path, "wb") as out:
        out.write(b"RIFF" + (36 + size + size % 2).to_bytes(4, "little") + b"WAVEfmt " + head + b"data" + size.to_bytes(4, "little"))
        for _ in range(whole):
            out.write(second)
        out.write(second[:part * frame] + bytes(size % 2))
    return round(rate * seconds)


class Clients:
    """The lines of a script in which `count` clients send one wave, never short of sound: an interrupt comes as soon as all have
    sent what it takes and some frames more."""

    def __init__(self, count, rate, device_rate=48000, block=1024, ahead=64):
        self.count, self.rate, self.device_rate, self.block, self.ahead = count, rate, device_rate, block, ahead
        self.lines, self.sent, self.played = [f"open {c} play s16le 2 {rate}" for c in range(count)], 0, 0

    def interrupts(self):
        """The interrupts that what was sent suffices for."""
        while self.played + self.block <= (self.sent - self.ahead) * self.device_rate // self.rate:
            self.lines.append(f"intr {self.block}")
            self.played += self.block

    def send(self, source, frames):
        """All clients send the frames of a wave, 4096 bytes at a time."""
        for at in range(0, frames * 4, 4096):
            part = min(4096, frames * 4 - at)
            self.lines += [f"send {c} {source} {at} {part}" for c in range(self.count)]
            self.sent += part // 4
            self.interrupts()
        return self.ended()

    def ended(self):
        """The clients close, and what is left is played."""
        self.lines += [f"close {c}" for c in range(self.count)] + [f"intr {self.block}"] * 8
        self.played += 8 * self.block
        return self.lines, self.played


def small_events(count):
    """Events of a few bytes and frames by three clients that play and one that records: writes, interrupts, requests and reads."""
    chance = random.Random(5)
    yield from ("open 0 play s16le 2 48000", "open 1 play u8 1 8000", "open 2 play s16be 2 22050", "open 3 rec s16le 2 48000")
    yield "ioctl 3 settrigger 1"
    for _ in range(count - 5):
        kind = chance.randrange(16)
        if kind < 6:
            yield f"write {chance.randrange(3)} {chance.getrandbits(64):016x}"
        elif kind < 11:
            yield f"intr {chance.randrange(1, 17)}"
        elif kind < 14:
            yield f"ioctl {chance.randrange(3)} {chance.choice(('getospace', 'getoptr', 'geterror', 'getodelay'))}"
        elif kind < 15:
            yield f"ioctl {chance.randrange(3)} setplayvol {chance.randrange(101)}"
        else:
            yield f"read 3 {chance.randrange(64)}"


def digits(frames):
    """A client that writes noise as hexadecimal digits, 4096 bytes a line."""
    chance = random.Random(7)
    yield "open 0 play s16le 2 48000"
    for _ in range(0, frames, 1024):
        yield f"write 0 {chance.getrandbits(4096 * 8):08192x}"
        yield "intr 1024"
    yield "close 0"


def upward(turns):
    """Sixteen clients of one channel and 4000 frames a second, for a device of eight channels and 192000."""
    chance = random.Random(9)
    yield from (f"open {c} play u8 1 4000" for c in range(16))
    for _ in range(turns):
        yield from (f"write {c} {chance.getrandbits(64 * 8):0128x}" for c in range(16))
        yield from ("intr 1024", "intr 1024")


def said_by(name, *words):
    """What a tool prints."""
    return subprocess.run([ROOT / "tools" / name, *words], stdout=subprocess.PIPE, universal_newlines=True, check=True).stdout


# ---- what others do

def of_ffmpeg(source, *words):
    return ["ffmpeg", "-y", "-v", "error", "-nostdin", "-threads", "1", "-i", source, *words, "ffmpeg.wav"]


def of_sox(source, *words, bits=16):
    return ["sox", "-D", source, "-b", str(bits), "sox.wav", *words]


def of_sndfile(source, rate, quality):
    return ["sndfile-resample", "-to", str(rate), "-c", str(quality), source, "sndfile.wav"]


def resamplers(source, rate):
    """Changes of rate of the same kind as lines, and of a better one."""
    return [("sox -q", of_sox(source, "rate", "-q", str(rate))), ("ffmpeg", of_ffmpeg(source, "-ar", str(rate), "-c:a", "pcm_s16le")),
            ("libsamplerate's lines", of_sndfile(source, rate, 4)), ("ALSA", ["aplay", "-q", "-D", f"to{rate}", source])]


def filterers(source, of_sox_rate, quality):
    return [(f"sox {of_sox_rate}", of_sox(source, "rate", of_sox_rate, "48000")), (f"libsamplerate's {quality}", of_sndfile(source, 48000, quality)),
            ("ffmpeg", of_ffmpeg(source, "-af", "aresample=48000")), ("soxr", of_ffmpeg(source, "-af", "aresample=48000:resampler=soxr"))]


ALSA = """</usr/share/alsa/alsa.conf>
pcm.nowhere { type null }
pcm.written { type file slave.pcm "nowhere" file "FOLDER/alsa.raw" format "raw" }
pcm.to48000 { type rate slave { pcm "written" rate 48000 format S16_LE } converter "linear" }
pcm.to44100 { type rate slave { pcm "written" rate 44100 format S16_LE } converter "linear" }
pcm.to24 { type plug slave { pcm "written" format S24_3LE } }
"""


# ---- the jobs

class Inputs:
    """Makes the inputs of jobs in a folder, with `seconds` seconds of sound."""

    def __init__(self, folder, seconds):
        self.folder, self.seconds = folder, seconds
        (folder / "alsa.conf").write_text(ALSA.replace("FOLDER", str(folder)))

    def wave(self, name, form, channels, rate, seconds=None):
        """A wave, and how many frames it has."""
        return name, make_wave(self.folder / name, form, channels, rate, seconds or self.seconds)

    def text(self, name, lines):
        with open(self.folder / name, "w") as out:
            out.writelines(f"{line}\n" for line in lines)
        return name

    def conversion(self, name, wave, rate, form, channels, others):
        source, frames = wave
        return Job(name, frames, "frame", ["convert", source, "ours", str(rate), form, str(channels)], source, others)

    def conversions(self):
        """Waves at other settings."""
        near, far = self.wave("44100.wav", "s16le", 2, 44100), self.wave("48000.wav", "s16le", 2, 48000)
        six, fine = self.wave("six.wav", "s16le", 6, 48000), self.wave("fine.wav", "s24le", 2, 96000)
        low, eight = self.wave("low.wav", "u8", 1, 8000), self.wave("eight.wav", "s32le", 8, 48000, self.seconds / 4)
        yield self.conversion("44100 to 48000", near, 48000, "s16le", 2, resamplers(near[0], 48000))
        yield self.conversion("48000 to 44100", far, 44100, "s16le", 2, resamplers(far[0], 44100))
        yield self.conversion("six channels to two", six, 48000, "s16le", 2, [
            ("sox", of_sox(six[0], "remix", "1,3v0.7071,5v0.7071", "2,3v0.7071,6v0.7071")),
            ("ffmpeg", of_ffmpeg(six[0], "-ac", "2", "-c:a", "pcm_s16le"))])
        yield self.conversion("16 to 24 bits", far, 48000, "s24le", 2, [
            ("sox", of_sox(far[0], bits=24)), ("ffmpeg", of_ffmpeg(far[0], "-c:a", "pcm_s24le")),
            ("sndfile-convert", ["sndfile-convert", "-pcm24", far[0], "sndfile.wav"]), ("ALSA", ["aplay", "-q", "-D", "to24", far[0]])])
        yield self.conversion("24 bits, 96000, to 16 bits, 48000", fine, 48000, "s16le", 2, resamplers(fine[0], 48000)[:3])
        yield self.conversion("u8, one channel, 8000, to s32le, eight, 48000", low, 48000, "s32le", 8, [])
        yield self.conversion("s32le, eight channels, to s16le, two, 44100", eight, 44100, "s16le", 2, [
            ("ffmpeg", of_ffmpeg(eight[0], "-ac", "2", "-ar", "44100", "-c:a", "pcm_s16le"))])

    def player(self, name, count, wave, config, others=(), **how):
        """Clients that send a wave."""
        source, frames = wave
        script = re.sub(r"\W+", "-", name)
        lines, played = Clients(count, how.get("rate", 44100)).send("tone", frames)
        self.text(f"{script}.s", lines)
        self.text(f"{script}.toml", [f"[vchans]\nplay = {max(count, 4)}", *config[:1], f'[files]\ntone = "{source}"', *config[1:]])
        return Job(name, played, "frame", ["run", f"{script}.s", "ours", f"{script}.toml"], source, list(others))

    def runs(self):
        """Scripts whose clients send waves."""
        near, far = self.wave("44100.wav", "s16le", 2, 44100), self.wave("48000.wav", "s16le", 2, 48000)
        yield self.player("one client, held", 1, near, ["quality = 0"], [("libsamplerate's hold", of_sndfile(near[0], 48000, 3))])
        yield self.player("one client, lines", 1, near, ["quality = 1"], resamplers(near[0], 48000)[2:])
        for taps, of_sox_rate, quality in (("32", "-l", 2), ("64", "-h", 0)):
            config = ["quality = 2", said_by("filter", "44100", "48000", "160", taps)]
            yield self.player(f"one client, {taps} taps", 1, near, config, filterers(near[0], of_sox_rate, quality))
        yield self.player("one client at the device's rate", 1, far, [], rate=48000)
        mixed = ["sox", "-D", "-m", *[far[0]] * 16, "sox.wav"]
        yield self.player("16 clients at the device's rate", 16, far, [], [("sox -m", mixed)], rate=48000)
        yield self.player("16 clients at 44100", 16, near, [])

    def texts(self):
        """Scripts that are long texts themselves."""
        self.text("up.toml", ['[device]\nformat = "s32le"\nchannels = 8\nrate = 192000\n[vchans]\nplay = 16'])
        self.text("up.s", upward(200))
        yield Job("16 clients, u8, 4000, to s32le, eight channels, 192000", 200 * 2048, "frame", ["run", "up.s", "ours", "up.toml"], None, [])
        frames = 48000 * self.seconds
        self.text("digits.s", digits(frames))
        yield Job("writes of hexadecimal digits", frames, "frame", ["run", "digits.s", "ours"], "digits.s", [])
        self.text("events.s", small_events(LINES))
        yield Job("small events", LINES, "event", ["run", "events.s", "ours"], "events.s", [])
        self.text("refused.s", itertools.repeat("close 0", LINES))
        yield Job("refused events", LINES, "event", ["run", "refused.s", "ours"], "refused.s", [])
        self.text("quiet.s", itertools.repeat("intr 1024", MOST_FRAMES // 1024))
        yield Job("268 MB of silence", MOST_FRAMES, "frame", ["run", "quiet.s", "ours"], None, [])
        yield Job("check of small events", LINES, "event", ["check", "events.s"], "events.s", [])
        yield Job("check of hexadecimal digits", frames, "frame", ["check", "digits.s"], "digits.s", [])
        yield Job("soak", 1, "soak", ["soak", "7"], None, [])
        yield self.empty()

    def empty(self):
        """A script without a line: what each run does besides."""
        self.text("empty.s", [])
        return Job("an empty script", 1, "run", ["run", "empty.s", "ours"], None, [])

    def growth(self):
        """The same conversion over more and more sound."""
        for times in (1, 2, 4, 8):
            wave = self.wave(f"long{times}.wav", "s16le", 2, 44100, self.seconds * times)
            yield self.conversion(f"44100 to 48000, {self.seconds * times} seconds", wave, 48000, "s16le", 2, [])

    def equalised(self):
        """A run without sections and with two, and what is set beside it: C by bench_sections.c, and sox."""
        far, peaks = self.wave("48000.wav", "s16le", 2, 48000), (("100", "3", "1"), ("3000", "-4", "1"))
        text = said_by("equaliser", "48000", *(word for peak in peaks for word in ("peak", *peak)))
        effects = [word for hertz, gain, q in peaks for word in ("equalizer", hertz, f"{q}q", gain)]
        for title, sections, more in (("no section", "", []), ("two sections", text, effects)):
            of_c = [str(self.folder / "sections"), far[0], "/dev/null", *re.findall(r"(?m)^\w+ = (-?\d+)$", sections)]
            others = [("C", of_c), ("sox", ["sox", "-D", far[0], "-t", "raw", "/dev/null", *more])]
            yield self.player(f"one client, {title}", 1, far, ["", sections], others, rate=48000)


# the jobs whose instructions are kept
KEPT = ("44100 to 48000", "six channels to two", "16 to 24 bits", "24 bits, 96000, to 16 bits, 48000", "one client, lines",
        "one client, 32 taps", "16 clients at the device's rate", "small events")


def in_child(make):
    """Makes inputs in a process of its own, so that this one stays small: a child's peak of memory is never less than ours."""
    child = os.fork()
    if child == 0:
        make()
        os._exit(0)
    if os.waitpid(child, 0)[1]:
        sys.exit("scripts/bench: the inputs can't be made")
