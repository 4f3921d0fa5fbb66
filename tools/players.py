"""A program that is played to, from its begin to the replay of what it did: what tools/live and tools/record have in common."""
import array
import collections
import contextlib
import json
import os
import pathlib
import re
import shutil
import signal
import socket
import stat
import sys
import tempfile
import threading

from calls import WIDTHS, look_at_out, put, wave_of, writing
from commands import UNREAD, fail, say
from holding import CODES, MOST_BYTES, NOTHING, OTHER, PART, UNWRITTEN, USUAL, Device, Holding, Replay, compiled, environment, status_of
from scripts import count_of, has_entries, keys_of
from sounds import WIDTH, numbers_of

# how many mapped channels there are where nothing says how many
MAPPED = 12
# a script that needs a configuration for its slots: one with a mapped channel, or with the mixer's line of one
NEEDS_MAPPED = re.compile(rb"(?m)^open \d+ map|^mixer (slot|mute) ([4-9]|1\d) ")

# what is wanted of a run: the words of the program, its device, how fast it goes, where the wave and the script go, how many bytes of sound
# go into lines, and the program that replays it, or None
Wanted = collections.namedtuple("Wanted", "words device pace out script lines program")


def capture_into(path, device, folder):
    """A file of what recordings hear, as samples of 32 bits. Answers its path, or None where that is silence."""
    if not path:
        return None
    wave = wave_of(path)
    if (wave.channels, wave.rate) != (device.channels, device.rate):
        fail(f"{path}: {wave.channels} channels at {wave.rate}, and the device has {device.channels} at {device.rate}: dsp_replay convert")
    with open(path, "rb") as file:
        file.seek(wave.at)
        body = file.read(wave.size)
    samples = array.array("i", [it << 32 - 8 * WIDTHS[wave.format] for it in numbers_of(body, wave.format)])
    (folder / "captured").write_bytes(samples.tobytes())
    return folder / "captured"


def beside(script, ending):
    return f"{script}{ending}"


def device_of(text, is_step):
    """The device of a configuration's text. Without one it has mapped slots, which change nothing where no buffer is mapped; but step by
    step it is the usual one."""
    keys = keys_of(text)
    if has_entries(text, "tables") or has_entries(text, "eq"):
        fail("filters and an equaliser aren't taken from a configuration")

    def number(key, usual):
        return count_of(keys, key, str(usual))

    capture = keys.get("device.capture")
    return Device(keys.get("device.format", USUAL.format), number("device.channels", USUAL.channels), number("device.rate", USUAL.rate),
                  number("device.hw_block", USUAL.block), number("device.hw_blocks", USUAL.blocks), number("vchans.play", USUAL.play),
                  number("vchans.record", USUAL.record), number("vchans.mapped", USUAL.mapped if text or is_step else MAPPED),
                  number("vchans.quality", USUAL.quality), number("vchans.channels", 0), number("vchans.rate", 0),
                  keys.get(f"files.{capture}") if capture else None)


def needs_slots(script):
    """Whether a script has a mapped channel, or a slot of one."""
    with open(script, "rb") as file:
        rest = b""
        while data := file.read(PART):
            if NEEDS_MAPPED.search(rest + data):
                return True
            rest = data[-100:]
    return False


def configuration(wanted, result, is_mapped, data):
    """The text of the configuration that a script needs, or nothing."""
    is_of, usual = wanted.device, USUAL._replace(mapped=0)
    device = {"format": json.dumps(is_of.format), "channels": is_of.channels, "rate": is_of.rate, "hw_block": is_of.block, "hw_blocks": is_of.blocks}
    usually = {"format": json.dumps(usual.format), "channels": usual.channels, "rate": usual.rate, "hw_block": usual.block, "hw_blocks": usual.blocks}
    device = {key: value for key, value in device.items() if value != usually[key]}
    mapped = is_of.mapped if is_mapped or is_of.mapped != MAPPED else 0
    vchans = {"play": (is_of.play, usual.play), "record": (is_of.record, usual.record), "mapped": (mapped, 0), "quality": (is_of.quality, usual.quality),
              "channels": (is_of.mix_channels, 0), "rate": (is_of.mix_rate, 0)}
    files = {**({"data": json.dumps(str(data))} if result["data"] else {}), **({"captured": json.dumps(str(is_of.capture))} if is_of.capture else {})}
    tables = {"device": {**device, **({"capture": '"captured"'} if is_of.capture else {})},
              "vchans": {key: value for key, (value, other) in vchans.items() if value != other}, "files": files}
    return "".join(f"[{name}]\n" + "".join(f"{key} = {value}\n" for key, value in keys.items()) for name, keys in tables.items() if keys)


def put_script(path, script):
    """Copies a script to where it is wanted, part by part."""
    with open(script, "rb") as file, writing(path) as out:
        shutil.copyfileobj(file, out, PART)


def time_of(frames, rate):
    return f"{frames // rate // 60}:{frames / rate % 60:05.2f}"


def tell_cut(result, device):
    """Says that a script ends before the program did."""
    if result["cut"]:
        at = time_of(result["bytes"] // (WIDTH[device.format] * device.channels), device.rate)
        say(f"the script ends at {at}, as a run takes no more: 1048576 events, and {MOST_BYTES} bytes of the device and of sound. "
            "A device of fewer bytes, by --rate, --channels or --format, lasts longer")


def tell_configuration(script, config, is_mapped):
    """Says which configuration a script needs that would stand alone without a mapped buffer."""
    if is_mapped and script == "-":
        say(f"a buffer is mapped: the script runs with `mapped = {MAPPED}` in the table `vchans` of a configuration")
    elif is_mapped:
        say(f"a buffer is mapped: {pathlib.Path(script).name} runs with {pathlib.Path(config).name}")


def finish_script(wanted, folder, result, data):
    """Puts a script and its configuration where they are wanted, and replays it. Answers the status of that."""
    script, is_mapped = folder / "script", needs_slots(folder / "script")
    if wanted.script == "-" and result["data"]:
        fail("more sound than goes into lines: --out FILE has a file for it beside the script")
    text = configuration(wanted, result, is_mapped, data)
    config = folder / "config.toml" if wanted.script == "-" else pathlib.Path(beside(wanted.script, ".toml"))
    try:
        put_script(wanted.script, script)
        if text:
            put(config, text.encode())
    except OSError as fault:
        say(f"{fault.filename or wanted.script}: {fault.strerror}")
        return UNWRITTEN
    tell_configuration(wanted.script, config, is_mapped and wanted.lines)
    tell_cut(result, wanted.device)
    differs = Replay(wanted.program, script, config if text else None, folder / "replies", folder / "device").run() if wanted.program else []
    if differs:
        say(f"the replay of the script differs: {' and '.join(differs)}")
    return OTHER if differs else 0


def faults_of(wanted, result):
    """The status of what couldn't be written, with a line that says so, or 0."""
    if result["unheard"] and wanted.out == "-":
        return UNREAD
    if result["unheard"] or (result["failed"] and wanted.out):
        say(f"{wanted.out}: it can't be written")
        return UNWRITTEN
    if result["lost"] or result["failed"]:
        say(f"no room for the script in {tempfile.gettempdir()}, or for its sound beside it")
        return UNWRITTEN
    return 0


def look_at_files(wanted):
    """Fails where a file can't be written, or a script is no file that its sound can stand beside."""
    for it in filter(None, (wanted.out, wanted.script)):
        look_at_out(it)
    if wanted.device.format not in CODES or (wanted.out and wanted.device.format not in WIDTHS):
        fail(f"a wave can't have the format {wanted.device.format}: {', '.join(WIDTHS)} can be")
    if wanted.script and not wanted.lines and pathlib.Path(wanted.script).exists() and not pathlib.Path(wanted.script).is_file():
        fail(f"{wanted.script}: no file, and the sound of the script stands beside it")


def files_of(wanted, folder):
    """Which files the engine's process writes, and where the sound of a script goes."""
    data = folder / "data" if wanted.script == "-" else beside(wanted.script, ".wav")
    files = {"wave": wanted.out, "capture": capture_into(wanted.device.capture, wanted.device, folder)}
    if wanted.script:
        files.update(script=folder / "script", replies=folder / "replies", kept=folder / "device", data=data, lines=wanted.lines)
    return files, data


def finished(wanted, folder, result, data, status):
    """The status of a run whose program ended with a status, or that of what was wrong."""
    return faults_of(wanted, result) or (finish_script(wanted, folder, result, data) if wanted.script else 0) or status


def play(wanted):
    """Runs a program. Answers its status, or what was wrong."""
    look_at_files(wanted)
    with compiled() as tools, tempfile.TemporaryDirectory(prefix="live-") as name:
        folder = pathlib.Path(name)
        files, data = files_of(wanted, folder)
        holding = Holding(tools, folder, wanted.device, wanted.pace, **files)
        try:
            status = status_of(wanted.words, holding.environment(), sys.stderr if "-" in (wanted.out, wanted.script) else None)
        finally:
            result = holding.end()
        if not result["opened"]:
            say(f"{wanted.words[0]} ended with {status}, and opened no /dev/dsp")
            return NOTHING
        return finished(wanted, folder, result, data, status)


# ---- several programs ----

def place_of(name):
    """The socket of a name, in a folder that is its owner's alone."""
    folder = pathlib.Path(os.environ.get("XDG_RUNTIME_DIR") or tempfile.gettempdir()) / f"dsp_live-{os.getuid()}"
    with contextlib.suppress(FileExistsError):
        folder.mkdir(mode=0o700)
    is_there = folder.lstat()
    if not stat.S_ISDIR(is_there.st_mode) or is_there.st_uid != os.getuid() or is_there.st_mode & 0o077:
        fail(f"{folder}: it isn't a folder of yours alone")
    return folder / name


def is_held(place):
    """Whether a process listens at a socket."""
    with socket.socket(socket.AF_UNIX) as asks:
        return asks.connect_ex(str(place)) == 0


def wait_for_end():
    """Waits until this tool is to end."""
    ended = threading.Event()
    for ends in (signal.SIGINT, signal.SIGTERM, signal.SIGHUP):
        if signal.getsignal(ends) is not signal.SIG_IGN:
            signal.signal(ends, lambda *_: ended.set())
    while not ended.wait(0.2):
        pass


def hold(wanted, name):
    """Holds an engine under a name until Ctrl-C. Answers 0, or what was wrong."""
    look_at_files(wanted)
    place = place_of(name)
    if is_held(place):
        fail(f"{name} is held already")
    with compiled() as tools, tempfile.TemporaryDirectory(prefix="live-") as room:
        folder = pathlib.Path(room)
        files, data = files_of(wanted, folder)
        place.unlink(missing_ok=True)
        place.with_suffix(".pace").write_text(wanted.pace)
        holding = Holding(tools, folder, wanted.device, wanted.pace, place, **files)
        try:
            wait_for_end()
        finally:
            place.unlink(missing_ok=True)
            place.with_suffix(".pace").unlink(missing_ok=True)
            result = holding.end()
        if not result["opened"]:
            say("nobody opened /dev/dsp")
            return NOTHING
        return finished(wanted, folder, result, data, 0)


def join(words, name):
    """Runs a program whose device is held under a name. Answers its status."""
    place = place_of(name)
    if not is_held(place):
        fail(f"nothing is held as {name}: tools/live --hold {name} does that")
    with compiled() as tools:
        return status_of(words, environment(tools / "client.so", place, place.with_suffix(".pace").read_text()), None)
