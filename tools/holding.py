"""Plays /dev/dsp to a program: the library that is loaded into it, the process that holds the engine, and the replay of what it did.

tools/oss/ has both in C; `cc` compiles them at their first use, over the library of the engine.
"""
import collections
import contextlib
import hashlib
import os
import pathlib
import shutil
import signal
import socket
import subprocess
import tempfile
import threading

from calls import judge
from commands import Progress, fail
from places import ROOT

SOURCES = pathlib.Path(__file__).resolve().parent / "oss"
EMBED, ARCHIVE = ROOT / "embed", "libdsp_engine.a"
LIBRARIES = (ROOT / "bin" / ARCHIVE, ROOT / "lib" / ARCHIVE, ROOT / ARCHIVE)
# the statuses of their own: nothing was opened, the replay is another, something couldn't be written
NOTHING, OTHER, UNWRITTEN = 3, 4, 5
# how the requests of OSS are compiled, so that each call of the engine that one makes is taken in
TAKEN = [f"-Ddsp_engine_{name}=device_{name}" for name in ("ioctl", "join", "start")]
CFLAGS = ["-std=gnu99", "-O2", "-Wall", "-Wextra"]
# the codes of formats
CODES = {"u8": 8, "s8": 0x40, "s16le": 0x10, "s16be": 0x20, "u16le": 0x80, "u16be": 0x100, "s24le": 0x10000, "s24be": 0x20000, "u24le": 0x40000,
         "u24be": 0x80000, "s32le": 0x1000, "s32be": 0x2000, "u32le": 0x4000, "u32be": 0x8000}
# the bytes that are compared at once; and those of a run's device and of its text, past which a script isn't taken
PART, MOST_BYTES = 1 << 20, 268435456

# a device, whose mix has its rate and its channels where they are 0; and the usual one, on which scripts without a configuration run
Device = collections.namedtuple("Device", "format channels rate block blocks play record mapped quality mix_channels mix_rate capture")
USUAL = Device("s16le", 2, 48000, 256, 4, 4, 4, 0, 1, 0, 0, None)


def library():
    """The library of the engine."""
    found = next((it for it in LIBRARIES if it.is_file()), None)
    return found or fail(f"no library at {', '.join(map(str, LIBRARIES))}: scripts/embed makes it")


def ran(words):
    """Runs the compiler."""
    made = subprocess.run(list(map(str, words)), stdout=subprocess.PIPE, stderr=subprocess.STDOUT, check=False)
    if made.returncode:
        fail(f"cc ended with {made.returncode}: {made.stdout.decode(errors='replace').strip()}")


def compile_into(folder, archive):
    """Compiles the library of programs and the holder into a folder."""
    clients = sorted(SOURCES.glob("client*.c"))
    holders = sorted(it for it in SOURCES.glob("*.c") if it not in clients)
    ran(["cc", *CFLAGS, "-shared", "-fPIC", "-o", folder / "client.so", *clients, "-ldl", "-lpthread"])
    ran(["cc", *CFLAGS, *TAKEN, "-I", EMBED, "-c", "-o", folder / "dsp_oss.o", EMBED / "dsp_oss.c"])
    ran(["cc", *CFLAGS, "-I", EMBED, "-o", folder / "holder", *holders, folder / "dsp_oss.o", archive])


def digest_of(archive):
    """What distinguishes these sources and this library from others."""
    told = hashlib.sha256(" ".join([*CFLAGS, *TAKEN]).encode())
    for it in sorted([*SOURCES.glob("*.[ch]"), *EMBED.glob("dsp_*.[ch]"), archive]):
        told.update(it.name.encode() + it.read_bytes())
    return told.hexdigest()[:16]


@contextlib.contextmanager
def compiled():
    """A folder with both: one that is kept in bin/ where that can be written, else one of this call."""
    if not shutil.which("cc"):
        fail("cc isn't in the path; it compiles what is loaded into the program")
    archive = library()
    kept = ROOT / "bin" / "live" / digest_of(archive)
    if kept.is_dir():
        yield kept
        return
    with tempfile.TemporaryDirectory(prefix="live-") as name:
        compile_into(pathlib.Path(name), archive)
        with contextlib.suppress(OSError):
            keep(pathlib.Path(name), kept)
        yield pathlib.Path(name)


def keep(folder, kept):
    """Puts what was compiled into bin/, as a whole, in place of what was kept of other sources."""
    if not os.access(ROOT / "bin", os.W_OK):
        return
    kept.parent.mkdir(exist_ok=True)
    part = kept.parent / f".{kept.name}-{os.getpid()}"
    shutil.copytree(folder, part)
    old = [it for it in kept.parent.iterdir() if not it.name.startswith(".") and it != kept]
    part.rename(kept)
    for it in old:
        shutil.rmtree(it, ignore_errors=True)


class Holding:
    """A process that holds the engine, and what it writes into a folder."""

    def __init__(self, tools, folder, device, pace, path=None, **files):
        self.folder, self.pace, self.path = folder, pace, path or folder / "dsp"
        self.result = {}
        words = {**device._asdict(), "format": CODES[device.format], "ring": device.block * device.blocks, "pace": pace,
                 "result": folder / "result", **files}
        with socket.socket(socket.AF_UNIX) as listens:
            self.bind(listens)
            words["listens"] = listens.fileno()
            self.process = subprocess.Popen([str(tools / "holder"), *(f"{name}={value}" for name, value in words.items() if value is not None)],
                                            stdin=subprocess.PIPE, pass_fds=[listens.fileno()], start_new_session=True)
        self.client = tools / "client.so"

    def bind(self, listens):
        try:
            listens.bind(str(self.path))
        except OSError as fault:
            fail(f"{self.path}: no socket: {fault}")
        listens.listen(128)

    def environment(self):
        return environment(self.client, self.path, self.pace)

    def end(self):
        """Lets it play what is left, and reads what came of it."""
        self.process.stdin.close()
        status = self.process.wait()
        path = self.folder / "result"
        lines = path.read_text().splitlines() if path.exists() else fail(f"the engine's process ended with {status}")
        self.result = {name: int(value) for name, _, value in (it.partition("=") for it in lines)}
        return self.result


def environment(client, path, pace):
    """What a program has in its environment that is played to."""
    loaded = [str(client), *filter(None, [os.environ.get("LD_PRELOAD")])]
    return {**os.environ, "LD_PRELOAD": ":".join(loaded), "DSP_LIVE": str(path), **({"DSP_LIVE_FAST": "1"} if pace == "fast" else {})}


def status_of(words, env, printed):
    """Runs a program to its end. Ctrl-C reaches it from the terminal, and what else ends this tool is passed on to it; after it both end
    this tool again."""
    before = {it: signal.getsignal(it) for it in (signal.SIGINT, signal.SIGTERM, signal.SIGHUP)}
    with subprocess.Popen(words, env=env, stdout=printed) as program:
        for ends, act in before.items():
            if act is not signal.SIG_IGN:
                signal.signal(ends, lambda number, _: number == signal.SIGINT or program.send_signal(number))
        status = program.wait()
    for ends, act in before.items():
        signal.signal(ends, act)
    return status if status >= 0 else 128 - status


def same(one, two, at=lambda done: None):
    """Whether two streams have the same bytes, to the end of the first; both are read on, and `at` gets how far that is."""
    is_so, done = True, 0
    while data := one.read(PART):
        is_so &= two.read(len(data)) == data
        done += len(data)
        at(done)
    return is_so


class Replay:
    """The run of a script, whose replies and bytes are compared with what was answered and heard."""

    def __init__(self, program, script, config, replies, heard):
        self.words = [str(program), "run", str(script)]
        self.config, self.replies, self.heard = [str(config)] if config else [], replies, heard
        self.is_same = False

    def look_at_bytes(self, end):
        """Compares what comes out of a pipe with what was heard."""
        progress, size = Progress("the script is replayed"), os.path.getsize(self.heard)
        with open(end, "rb", buffering=PART) as out, open(self.heard, "rb") as heard:
            self.is_same = same(out, heard, lambda done: progress.at(done, size)) and not heard.read(1)
        progress.end()

    def run(self):
        """Answers what differs, in words, or nothing."""
        reads, writes = os.pipe()
        looks = threading.Thread(target=self.look_at_bytes, args=(reads,))
        with tempfile.TemporaryFile() as errors:
            words = [*self.words, f"/dev/fd/{writes}", *self.config]
            with subprocess.Popen(words, stdin=subprocess.DEVNULL, stdout=subprocess.PIPE, stderr=errors, pass_fds=[writes]) as program:
                os.close(writes)
                looks.start()
                with open(self.replies, "rb") as replies:
                    are_same = same(program.stdout, replies) and not replies.read(1)
            looks.join()
            errors.seek(0)
            judge(program.returncode, "", errors.read().decode(errors="replace"))
        return [what for what, is_so in (("its replies are others", not are_same), ("its bytes are others", not self.is_same)) if is_so]
