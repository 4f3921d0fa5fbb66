"""Trials of tools/mix: waves alone and together, what is refused, limits, and rates."""
import array
import itertools
import math
import os

from trials_shared import LAYOUTS, RATES, TOOLS, WIDTHS, ask, called, equal, frames_of, noise, put_wave, tool
from calls import FORMATS

FOLDS = "mix: {}: from {} to {} by lines, so tones above {} Hz fold down; --filter stops them\n"


def try_mix_alone(program, folder):
    """One wave is mixed to what it is converted to."""
    targets = itertools.cycle(itertools.product(RATES, WIDTHS, LAYOUTS))
    for form, channels, rate in itertools.product(FORMATS.values(), LAYOUTS, RATES):
        to_rate, to_form, to_channels = next(targets)
        wave, mixed, converted = noise(folder, form, channels, rate), folder / "mixed.wav", folder / "converted.wav"
        words = ["--rate", to_rate, "--format", to_form, "--channels", to_channels]
        said = FOLDS.format(wave, rate, to_rate, to_rate // 2) if rate > to_rate else ""
        equal(f"mix {wave.name}", tool("mix", "--program", program, *words, wave, mixed), (0, said))
        ask(program, "convert", wave, converted, to_rate, to_form, to_channels)
        equal(f"mix {wave.name} {words}", frames_of(mixed) == frames_of(converted), True)


def summed(parts):
    """The sum of rows of frames of two samples, limited to 16 bits after each."""
    for at in range(max(map(len, parts))):
        sums = [0, 0]
        for part in parts:
            frame = part[at] if at < len(part) else (0, 0)
            sums = [max(-32768, min(32767, total + sample)) for total, sample in zip(sums, frame)]
        yield tuple(sums)


def try_mix_together(program, folder):
    """Three waves become the limited sum of what each is converted to, each from where it starts."""
    waves = [noise(folder, "s16le", 2, 48000), noise(folder, "u8", 1, 22050), noise(folder, "s24le", 6, 192000)]
    starts = (0, 480, 481)
    words = [word for wave, start in zip(waves, starts) for word in ("--at", start / 48000, wave)]
    how = ["--rate", 48000, "--format", "s16le", "--channels", 2]
    status, said, errors = called("mix", "--program", program, *how, *words, folder / "three.wav")
    equal("mix of three", (status, said, errors.splitlines()[0] + "\n"), (0, "", FOLDS.format(waves[2], 192000, 48000, 24000)))
    parts = []
    for wave, start in zip(waves, starts):
        ask(program, "convert", wave, folder / "part.wav", 48000, "s16le", 2)
        parts.append([(0, 0)] * start + frames_of(folder / "part.wav"))
    equal("the sum of three", frames_of(folder / "three.wav") == list(summed(parts)), True)
    # a sample is limited where a sum in the order of the slots is
    count = sum(any(abs(it) > 32767 for it in sums) for at in range(max(map(len, parts))) for sums in partial(parts, at))
    equal("limited samples", f"mix: {count} samples were limited: " in errors, True)


def partial(parts, at):
    """The sums of a frame before each is limited, for each side."""
    for side in (0, 1):
        total, found = 0, []
        for part in parts:
            total = max(-32768, min(32767, total)) + (part[at][side] if at < len(part) else 0)
            found.append(total if total != -32768 else 0)
        yield found


def steady(folder, name, values, rate=48000):
    """A wave of one channel with these samples."""
    put_wave(folder / name, "s16le", 1, rate, array.array("h", values).tobytes())
    return folder / name


def try_mix_refusals(program, folder):
    """What is no wave, no volume and no start; an option that belongs to no wave; an OUT that isn't ours."""
    (folder / "none.wav").write_bytes(b"RIFFnone")
    wave, other = noise(folder, "s16le", 2, 48000), noise(folder, "u8", 1, 48000)
    equal("no wave", tool("mix", "--program", program, folder / "none.wav", folder / "x.wav"), (1, f"mix: {folder / 'none.wav'}: no wave\n"))
    rows = (("--volume", "101", "--volume is 0 to 100, or two such numbers as 80,20: '101' isn't"), ("--at", "-1", "--at is 0 or more seconds: '-1' isn't"),
            ("--at", "soon", "--at is 0 or more seconds: 'soon' isn't"), ("--quality", "5", "--quality is 0 to 4: '5' isn't"),
            ("--rate", "3999", "--rate is 4000 to 192000: '3999' isn't"))
    for option, value, said in rows:
        equal(f"{option} {value}", tool("mix", option, value, wave, folder / "x.wav"), (2, f"mix: {said}; mix --help says more\n"))
    before = other.read_bytes()
    status, said = tool("mix", "--program", program, wave, other, "--volume", 50)
    equal("a volume after the last", (status, "--volume after the last wave belongs to none" in said), (2, True))
    status, said = tool("mix", "--program", program, wave, "--volume", 50, other)
    equal("a volume before OUT", (status, f"--volume before {other} belongs to no wave" in said), (2, True))
    status, said = tool("mix", "--program", program, wave, other)
    equal("an OUT that is there", (status, "--force" in said, other.read_bytes() == before), (1, True, True))
    equal("an OUT by force", tool("mix", "--program", program, "--force", wave, other), (0, ""))
    equal("an OUT of its own", tool("mix", "--program", program, wave, other), (0, ""))
    equal("no wave was made", (folder / "x.wav").exists(), False)


def try_mix_words(program, folder):
    """Floats, a name with signs, seventeen at once, an empty wave, and waves that come and go by pipes."""
    floats = folder / "f.wav"
    floats.write_bytes(noise(folder, "s32le", 1, 48000).read_bytes()[:20] + b"\x03\0" + noise(folder, "s32le", 1, 48000).read_bytes()[22:])
    equal("floats", tool("mix", "--program", program, floats, folder / "x.wav"), (1, f"mix: {floats}: the wave holds floats: sox {floats} -b 24 f-24.wav\n"))
    plain, odd = noise(folder, "s16le", 1, 48000), folder / "a \"quote\" and 'two' \\ ä\n.wav"
    odd.write_bytes(plain.read_bytes())
    for name, wave in (("plain", plain), ("odd", odd)):
        equal(f"a name, {name}", tool("mix", "--program", program, wave, folder / f"{name}-mixed.wav"), (0, ""))
    equal("a name with signs", (folder / "plain-mixed.wav").read_bytes() == (folder / "odd-mixed.wav").read_bytes(), True)
    # a fiftieth of a second and some frames are 967, and count until 1024 later: the seventeenth can start at 1991
    for start, wanted in ((1990, 1), (1991, 0)):
        words = [*[plain] * 16, "--at", f"{start / 48000:.7f}", plain, folder / "many.wav"]
        equal(f"seventeen, the last at {start}", called("mix", "--program", program, *words)[0], wanted)
    equal("seventeen", tool("mix", "--program", program, *[plain] * 17, folder / "x.wav"), (1, "mix: 17 waves sound at once at 0.000 s, and 16 can: mix some of them first, and their mix with the others\n"))
    steady(folder, "empty.wav", [])
    equal("an empty wave", tool("mix", "--program", program, folder / "empty.wav", folder / "x.wav"), (1, f"mix: {folder / 'empty.wav'}: a wave without frames\n"))
    command = f"'{TOOLS / 'mix'}' --program '{program}' - - < '{plain}' > '{folder / 'piped.wav'}'"
    equal("pipes", (os.system(command), (folder / "piped.wav").read_bytes() == (folder / "plain-mixed.wav").read_bytes()), (0, True))


def try_mix_limits(program, folder):
    """30000 and 10000 are 40000, which is 1.74 dB above 32767; at 81 of 100 the sum is 32400, and at 82 it is 32800."""
    one, two = steady(folder, "one.wav", [30000, -30000, 100, 5] * 100), steady(folder, "two.wav", [10000, -10000, 100, 5] * 100)
    equal("limits", called("mix", "--program", program, one, two, folder / "out.wav"), (
        0, "", "mix: 200 samples were limited: 1.8 dB less is enough, which is 81 % of each wave's volume\n"))
    equal("what is limited", frames_of(folder / "out.wav")[:4], [(32767,), (-32768,), (200,), (10,)])
    equal("no limit", called("mix", "--program", program, "--volume", 81, one, "--volume", 81, two, folder / "out.wav"), (0, "", ""))


def try_mix_filters(program, folder):
    """A tone of 30 kHz at 96000 lies above half of 48000: by lines it is every second sample, at full strength; a filter leaves it out."""
    tone = [round(16000 * math.sin(2 * math.pi * 30000 * k / 96000 + 0.3)) for k in range(4000)]
    wave = steady(folder, "tone.wav", tone, 96000)
    status, said = tool("mix", "--program", program, "--rate", 48000, wave, folder / "lines.wav")
    equal("lines", (status, said), (0, FOLDS.format(wave, 96000, 48000, 24000)))
    equal("every second sample", [it for it, in frames_of(folder / "lines.wav")], tone[::2])
    for words in (["--filter"], ["--quality", 2], ["--quality", 4]):
        equal(f"mix {words}", tool("mix", "--program", program, *words, "--rate", 48000, wave, folder / f"out{words[-1]}.wav"), (0, ""))
    inner = frames_of(folder / "out--filter.wav")[100:1900]
    equal("a filter stops it", max(abs(it) for it, in inner) < 16, True)
    equal("qualities are one", len({(folder / f"out{it}.wav").read_bytes() for it in ("--filter", 2, 4)}), 1)
    many = [noise(folder, "u8", 1, rate) for rate in (8000, 11025, 16000, 22050, 32000)]
    equal("five filters", tool("mix", "--program", program, "--filter", "--rate", 48000, *many, folder / "x.wav"), (
        1, "mix: 5 rates differ from 48000, and there are 4 filters at most: convert some of the waves first\n"))


TRIALS = (try_mix_alone, try_mix_together, try_mix_filters, try_mix_words, try_mix_limits, try_mix_refusals)
