"""How the program is called, and what a wave has in its header."""
import collections
import contextlib
import os
import pathlib
import shlex
import subprocess
import sys
import tempfile

from commands import Progress, fail

# the frames of the device's ring that the tools configure, which are silent at first
RING = 1024
# the formats that a wave can have, by their bytes
FORMATS = {1: "u8", 2: "s16le", 3: "s24le", 4: "s32le"}
WIDTHS = {name: width for width, name in FORMATS.items()}
# the codings of a wave, by their numbers, that are no whole numbers; and the one that states its coding further on
CODINGS, INTEGER, EXTENSIBLE = {2: "ADPCM", 3: "floats", 6: "A-law", 7: "mu-law", 85: "MP3"}, 1, 0xFFFE
# how often it is looked how far a run is, in seconds; and how many bytes are read of what reports a fault
LOOK, MOST_SAID = 0.1, 2000
# the status of a program that couldn't write; and what a status means of which nothing is said
UNWRITTEN, SILENT = 7, {7: "no room for what it writes", 8: "out of memory"}

# a wave's settings, and where its body lies in the file
Wave = collections.namedtuple("Wave", "path format channels rate at size")


def call(program, *words):
    """Calls the program. Answers its status and what it printed on both outputs."""
    with tempfile.TemporaryFile() as printed:
        status, _, errors = call_into(printed, program, *words)
        printed.seek(0)
        return status, printed.read().decode("utf-8", "surrogateescape"), errors


def call_into(printed, program, *words, out=None, size=0, does="the program runs"):
    """Calls the program, which prints into a file, and writes another one of some size. Answers its status, the last line that it printed,
    and what it said on the error output."""
    progress = Progress(does)
    with tempfile.TemporaryFile() as errors:
        with subprocess.Popen([str(program), *map(str, words)], stdin=subprocess.DEVNULL, stdout=printed, stderr=errors) as ran:
            try:
                wait_for(ran, progress, out, size)
            except BaseException:
                ran.kill()
                raise
            finally:
                progress.end()
        for file in (errors, printed):
            file.seek(max(0, file.seek(0, os.SEEK_END) - MOST_SAID))
        return (ran.returncode, *(it.read().decode("utf-8", "replace") for it in (printed, errors)))


def wait_for(ran, progress, out, size):
    """Waits for a program to end, and shows how much it has written."""
    while True:
        try:
            return ran.wait(timeout=LOOK)
        except subprocess.TimeoutExpired:
            progress.at(os.path.getsize(out) if out and os.path.exists(out) else 0, size)


def judge(status, printed, errors):
    """Fails where the program did, with all that it said in one line."""
    if status < 0:
        fail(f"the program was stopped by signal {-status}")
    if status:
        # what was printed is cut where there is no room, and says no reason
        lines = [printed.strip().split("\n")[-1] if status != UNWRITTEN else "", errors]
        said = ": ".join(filter(None, (it.strip().replace("dsp_replay: ", "", 1) for it in lines)))
        fail(f"the program ended with {status}: {said or SILENT.get(status, 'it says nothing')}")


def number(data, at, size):
    return int.from_bytes(data[at:at + size], "little")


def look_at_form(path, body):
    """The settings that a wave's header states, or a fault where its samples are no whole numbers."""
    coding, bits = number(body, 0, 2), number(body, 14, 2)
    coding = number(body, 24, 2) if coding == EXTENSIBLE else coding
    form = FORMATS.get(bits // 8) if bits % 8 == 0 else None
    if coding != INTEGER or not form:
        holds = f"holds {CODINGS[coding]}" if coding in CODINGS else f"has samples of {bits} bits" if coding == INTEGER else f"has the coding {coding}"
        words = [shlex.quote(it) for it in (str(path), f"{pathlib.Path(path).stem}-24.wav")]
        fail(f"{path}: the wave {holds}: sox {words[0]} -b 24 {words[1]}")
    return form, number(body, 2, 2), number(body, 4, 4)


def wave_of(path):
    """What a wave's header says. What the program refuses, it refuses itself; here only what is needed to ask it is read."""
    with open(path, "rb") as file:
        head = file.read(12)
        if head[:4] != b"RIFF" or head[8:] != b"WAVE":
            fail(f"{path}: no wave")
        settings = None
        while len(chunk := file.read(8)) == 8:
            size = number(chunk, 4, 4)
            if chunk[:4] == b"data" and settings:
                left = os.fstat(file.fileno()).st_size - file.tell()
                return Wave(path, *settings, file.tell(), min(size, left))
            body = file.read(size + size % 2)
            if chunk[:4] == b"fmt " and not settings:
                settings = look_at_form(path, body)
    return fail(f"{path}: a wave without frames")


def wave_head(form, channels, rate, size, more=0):
    """The header of a wave whose body has `size` bytes, with `more` bytes after it."""
    frame = channels * WIDTHS[form]
    settings = b"".join(value.to_bytes(size, "little") for value, size in (
        (16, 4), (1, 2), (channels, 2), (rate, 4), (rate * frame, 4), (frame, 2), (8 * WIDTHS[form], 2)))
    return b"RIFF" + (36 + size + size % 2 + more).to_bytes(4, "little") + b"WAVEfmt " + settings + b"data" + size.to_bytes(4, "little")


def put_wave(path, form, channels, rate, body):
    """Writes a wave."""
    with writing(path) as out:
        out.write(wave_head(form, channels, rate, len(body)) + body + bytes(len(body) % 2))


def standard_input():
    """All bytes of standard input."""
    return sys.stdin.buffer.read()


def bytes_of(path):
    """The bytes of a file, or of standard input."""
    return standard_input() if str(path) == "-" else pathlib.Path(path).read_bytes()


def text_of(path):
    """The text of a file, or none where none is named. Bytes that are no text stay what they are."""
    return bytes_of(path).decode("utf-8", "surrogateescape") if path else ""


@contextlib.contextmanager
def writing(path):
    """A file to write bytes into, or standard output. What goes wrong with a file is said by its name."""
    if str(path) == "-":
        yield sys.stdout.buffer
        sys.stdout.buffer.flush()
        return
    try:
        with open(path, "wb") as out:
            yield out
    except OSError as fault:
        fault.filename = fault.filename or str(path)
        raise


def look_at_out(path):
    """Fails where a file can't be written, before anything takes long."""
    path = pathlib.Path(path)
    if str(path) != "-" and (path.is_dir() or not path.absolute().parent.is_dir()):
        fail(f"{path}: {'a folder' if path.is_dir() else 'there is no such folder'}")
    if str(path) != "-" and not os.access(path if path.exists() else path.absolute().parent, os.W_OK):
        fail(f"{path}: it can't be written")


def put(path, data):
    """Writes bytes into a file, or to standard output."""
    with writing(path) as out:
        out.write(data)
