"""Trials of tools/record: players, a game and recorders, as scripts. They need the library, so scripts/trials_library.py makes them."""
import itertools
import os
import signal
import subprocess
import sys
import time

from trials_shared import LAYOUTS, TOOLS, Device, ask, called, equal, noise, samples_of, tool, wave_of
from calls import FORMATS, RING

# a player: it asks for the settings of a wave, and writes its body as a whole
PLAYER = """import fcntl, os, struct, sys
sys.path.insert(0, sys.argv[1])
from calls import wave_of
wave = wave_of(sys.argv[2])
fd = os.open("/dev/dsp", os.O_WRONLY)
codes = {"u8": 8, "s16le": 0x10, "s24le": 0x10000, "s32le": 0x1000}
for request, value in ((0xC0045005, codes[wave.format]), (0xC0045006, wave.channels), (0xC0045002, wave.rate)):
    assert struct.unpack("i", fcntl.ioctl(fd, request, struct.pack("i", value)))[0] == value
with open(sys.argv[2], "rb") as file:
    body = file.read()[wave.at:wave.at + wave.size]
assert os.write(fd, body) == len(body)
os.close(fd)
"""


# a game: it maps the buffer, starts it with half of it filled, and fills the halves while the other one is taken, until all was taken once
GAME = """import fcntl, mmap, os, struct
fd = os.open("/dev/dsp", os.O_RDWR)
for request, value in ((0xC0045005, 0x10), (0xC0045006, 2), (0xC0045002, 48000)):
    assert struct.unpack("i", fcntl.ioctl(fd, request, struct.pack("i", value)))[0] == value
_, total, size, _ = struct.unpack("iiii", fcntl.ioctl(fd, 0x8010500C, bytes(16)))
area, half = mmap.mmap(fd, total * size, mmap.MAP_SHARED, mmap.PROT_WRITE | mmap.PROT_READ), total * size // 2
frames = lambda begin: b"".join(struct.pack("<hh", begin + k, -begin - k) for k in range(half // 4))
area[:half] = frames(1)
fcntl.ioctl(fd, 0x40045010, struct.pack("i", 2))
area[half:] = frames(5001)
passed = 0
while passed < total * size:
    before, (passed, blocks, at) = passed, struct.unpack("iii", fcntl.ioctl(fd, 0x800C5012, bytes(12)))
    assert at == passed % (total * size)
    if before < half <= passed:
        area[:half] = frames(10001)
fcntl.ioctl(fd, 0x40045010, struct.pack("i", 0))
area.close()
os.close(fd)
"""
# a recorder: it asks for settings, and reads until it has `count` bytes
RECORDER = """import fcntl, os, struct, sys
fd = os.open("/dev/dsp", os.O_RDONLY)
code, channels, rate, count = map(int, sys.argv[1:])
for request, value in ((0xC0045005, code), (0xC0045006, channels), (0xC0045002, rate)):
    assert struct.unpack("i", fcntl.ioctl(fd, request, struct.pack("i", value)))[0] == value
while count > 0:
    count -= len(os.read(fd, min(count, 3000)))
os.close(fd)
"""


def try_record_others(program, folder):
    """A buffer that is mapped is heard as it stood when it was taken, and the reads of a recorder get all that they ask for."""
    (folder / "game").write_text(GAME)
    words = ["--out", folder / "mapped", "--", sys.executable, folder / "game"]
    equal("record a game", tool("record", *words), (0, "record: a buffer is mapped: mapped runs with mapped.toml\n"))
    replies = ask(program, "run", folder / "mapped", folder / "heard", folder / "mapped.toml").splitlines()
    equal("a game's replies", [line for line in replies if ": ok" not in line], [])
    # the ring of 16384 bytes has 4096 frames
    wanted = [begin + k for begin, count in ((1, 2048), (5001, 2048)) for k in range(count)]
    heard = samples_of((folder / "heard").read_bytes(), Device("s16le", 2, 48000, 0, 0))[RING:]
    equal("a game is heard", heard[:len(wanted)] == [(it, -it) for it in wanted], True)
    equal("no more of a game is heard", any(map(any, heard[len(wanted):])), False)
    (folder / "recorder").write_text(RECORDER)
    for code, channels, rate in ((8, 1, 8000), (0x10, 2, 44100), (0x10000, 6, 96000), (0x2000, 8, 48000)):
        words = ["--out", folder / "recorded", "--", sys.executable, folder / "recorder", code, channels, rate, 9000]
        equal(f"record a recorder at {rate}", tool("record", *words), (0, ""))
        replies = ask(program, "run", folder / "recorded", folder / "heard").splitlines()
        equal(f"a recorder's replies at {rate}", [line for line in replies if ": ok" not in line], [])
        reads = [line.split() for line in replies if len(line.split()) == 4]
        equal(f"what a recorder gets at {rate}", [int(words[2]) for words in reads], [3000] * 3)


def try_record(program, folder):
    """What a player writes is heard as its wave is converted, with no answer but ok."""
    (folder / "player").write_text(PLAYER)
    rates = itertools.cycle((8000, 44100, 96000))
    for form, channels in itertools.product(FORMATS.values(), LAYOUTS):
        wave, script = noise(folder, form, channels, next(rates)), folder / "recorded"
        words = ["--out", script, "--", sys.executable, folder / "player", TOOLS, wave]
        equal(f"record {wave.name}", tool("record", *words), (0, ""))
        replies = ask(program, "run", script, folder / "heard").splitlines()
        equal(f"record {wave.name}", [line for line in replies if ": ok" not in line], [])
        ask(program, "convert", wave, folder / "converted", 48000, "s16le", 2)
        wanted, heard = wave_of(folder / "converted"), (folder / "heard").read_bytes()[RING * 4:]
        body = (folder / "converted").read_bytes()[wanted.at:wanted.at + wanted.size]
        equal(f"what {wave.name} is heard as", (heard[:len(body)] == body, any(heard[len(body):])), (True, False))
    equal("no player", tool("record", "--out", folder / "none", "--", "true"), (3, "record: true ended with 0, and opened no /dev/dsp\n"))


# a player that writes a sound of two blocks, and then does what its words say
ENDS = """import os, signal, sys, time
fd = os.open("/dev/dsp", os.O_WRONLY)
print("it plays", flush=True)
for _ in range(10):
    os.write(fd, bytes(3000))
if sys.argv[1] == "wait":
    signal.signal(signal.SIGINT, signal.SIG_DFL)
    open(sys.argv[2], "w").close()
    time.sleep(60)
"""


def end_by(number, is_group, words, waits):
    """Ends a recording by a signal, to all as a terminal does or to the tool alone, once a program waits. Answers what comes of it."""
    ran = subprocess.Popen([str(it) for it in (TOOLS / "record", *words, waits)], stdout=subprocess.PIPE, stderr=subprocess.PIPE, start_new_session=True,
                           preexec_fn=lambda: signal.signal(signal.SIGINT, signal.SIG_DFL))
    for _ in range(200):
        if waits.exists():
            break
        time.sleep(0.1)
    (os.killpg if is_group else os.kill)(ran.pid, number)
    said, errors = ran.communicate(timeout=30)
    waits.unlink()
    return ran.returncode, said, errors


def try_record_ends(program, folder):
    """However a recording ends, its script has whole lines, or is what it was, and a line reports a fault."""
    (folder / "player").write_text(ENDS)
    words, script = ["--", sys.executable, folder / "player"], folder / "recorded"
    for number, is_group, status in ((signal.SIGINT, True, 130), (signal.SIGTERM, False, 143)):
        equal(f"record and signal {number}", end_by(number, is_group, ["--out", script, *words, "wait"], folder / "waits"), (status, b"it plays\n", b""))
        text = script.read_text()
        equal(f"a script by signal {number}", (text.startswith("open 0 play\nwrite 0 00"), text.endswith("\n")), (True, True))
        ask(program, "check", script)
    status, said, errors = called("record", "--out", "-", *words, "end", folder=folder)
    equal("record into a pipe", (status, said.startswith("open 0 play\nwrite 0 00"), "plays" in said, errors), (0, True, False, "it plays\n"))
    equal("a status", tool("record", "--out", script, "--", "sh", "-c", f"{sys.executable} {folder / 'player'} end; exit 3"), (3, "it plays\n"))
    text = script.read_text()
    (folder / "text").write_text("no program\n")
    for what, out, more, status, fault in (
            ("nothing played", script, ["--", "true"], 3, "true ended with 0, and opened no /dev/dsp"),
            ("no program", script, ["--", folder / "none"], 1, f"{folder / 'none'}: No such file or directory"),
            ("a text", script, ["--", folder / "text"], 1, f"{folder / 'text'}: Permission denied"),
            ("a folder", folder, [*words, "end"], 1, f"{folder}: a folder"),
            ("a folder that isn't there", folder / "none" / "x", [*words, "end"], 1, f"{folder / 'none' / 'x'}: there is no such folder"),
            ("a full disk", "/dev/full", [*words, "end"], 5, "/dev/full: No space left on device")):
        found, _, errors = called("record", "--out", out, *more, folder=folder)
        equal(f"record: {what}", (found, errors), (status, f"record: {fault}\n"))
    equal("what was recorded before", script.read_text() == text, True)
    equal("files", sorted(it.name for it in folder.iterdir()), ["player", "recorded", "text"])


TRIALS = (try_record, try_record_others, try_record_ends)
