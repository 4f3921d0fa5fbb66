"""What the trials of the tools share: how a tool is called, what is compared, and the waves and devices that are tried."""
import os
import pathlib
import random
import subprocess
import sys

ROOT = pathlib.Path(__file__).resolve().parent.parent
# the tools that are tried; those of another folder may be named
TOOLS = pathlib.Path(os.environ.get("TOOLS", ROOT / "tools"))
sys.path.insert(0, str(ROOT / "tools"))
sys.dont_write_bytecode = True

from calls import WIDTHS, put_wave, wave_of  # noqa: E402
from sounds import Device, samples_of  # noqa: E402

LAYOUTS = (1, 2, 4, 6, 8)
DEVICE_FORMATS = ("u8", "s8", *(f"{sign}{bits}{order}" for bits in (16, 24, 32) for sign in "su" for order in ("le", "be")))
RATES = (4000, 22050, 48000, 192000)
FAULTS = []


def tool(name, *words, folder=ROOT, stdin=""):
    """Runs a tool in a folder. Answers its status and what it printed, on either output."""
    status, said, errors = called(name, *words, folder=folder, stdin=stdin)
    return status, said + errors


def called(name, *words, folder=ROOT, stdin=""):
    """The same, with what it printed on each output."""
    ran = subprocess.run([sys.executable, str(TOOLS / name), *map(str, words)], cwd=folder, input=stdin, stdout=subprocess.PIPE, stderr=subprocess.PIPE,
                         universal_newlines=True, check=False)
    return ran.returncode, ran.stdout, ran.stderr


def ask(program, *words):
    """What the program prints, of a call that ends with 0."""
    return subprocess.run([str(program), *map(str, words)], stdout=subprocess.PIPE, universal_newlines=True, check=True).stdout


def config_of(script):
    """The configuration that stands beside a script, or none."""
    return [it for it in [script.with_suffix(".toml")] if it.exists()]


def equal(what, found, wanted):
    if found != wanted:
        FAULTS.append(f"{what}: {found!r}, and not {wanted!r}")


def noise(folder, form, channels, rate):
    """A wave of noise, a fiftieth of a second and some frames."""
    path, frames = folder / f"{form}-{channels}-{rate}.wav", rate // 50 + 7
    size = frames * channels * WIDTHS[form]
    put_wave(path, form, channels, rate, random.Random(size).getrandbits(8 * size).to_bytes(size, "little"))
    return path


def device(folder, form, channels):
    path = folder / "device.toml"
    path.write_text(f'[device]\nformat = "{form}"\nchannels = {channels}\nhw_block = 8\nhw_blocks = 2\n')
    return path


def frames_of(path):
    """The frames of a wave."""
    wave = wave_of(path)
    return samples_of(path.read_bytes()[wave.at:wave.at + wave.size], Device(wave.format, wave.channels, wave.rate, 0, 0))


# clients of a mix at half the rate: 30000 and 10000 twice, and then 100 each
LOUD = """open 0 play s16le 2 24000
open 1 play s16le 2 24000
write 0 307530753075307564006400
write 1 102710271027102764006400
close 0
close 1
intr 4
intr 8
intr 8
"""
HALF = "[device]\nhw_block = 4\nhw_blocks = 2\n[vchans]\nrate = 24000\n"
