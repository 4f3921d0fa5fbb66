"""Plays recorded programs through the package, on engines that are saved and loaded: the scripts of corpus/programs, line by line.

After each call, and after each few frames of an interrupt, the engine's state is loaded into another one, which goes on. The replies and
the device's bytes are those that stand beside the script.
"""
import pathlib
import struct
import unittest
import wave
from typing import List

from dsp_engine import Answer, Engine, Request, Way

PROGRAMS = pathlib.Path(__file__).resolve().parents[2] / "corpus" / "programs"
SCRIPTS = ("ffmpeg_plays", "ffmpeg_records", "mpg123_plays", "ogg123_plays")
WAYS = {"play": Way.PLAY, "rec": Way.RECORD}
# an interrupt is cut into parts of so many frames, which isn't heard; a script has as many places at least
FRAMES, PLACES = 16, 100


def events(script: pathlib.Path) -> List[List[str]]:
    """The words of each event of a script."""
    lines = [line.partition("#")[0].split() for line in script.read_text().splitlines()]
    return [words for words in lines if words]


def device_bytes(file: pathlib.Path) -> bytes:
    """The device's bytes: a line `N x HEX` is N times these bytes."""
    lines = [line.split(" x ") for line in file.read_text().splitlines()]
    return b"".join(int(count) * bytes.fromhex(hexes) for count, hexes in lines)


def captured_samples(script: pathlib.Path) -> List[int]:
    """The samples that the device captures, of 32 bits: those of the one wave, where the script has a configuration."""
    if not script.with_suffix(".toml").exists():
        return []
    with wave.open(str(PROGRAMS / "mic.wav")) as file:
        content = file.readframes(file.getnframes())
    return [sample << 16 for sample in struct.unpack(f"<{len(content) // 2}h", content)]


def told(request: Request, answer: Answer) -> str:
    """What the program replies to a request that was answered so."""
    if request in (Request.SETTRIGGER, Request.POST, Request.SYNC, Request.HALT):
        return "ok"
    if request in (Request.GETOSPACE, Request.GETISPACE):
        return "ok fragments={} fragstotal={} fragsize={} bytes={}".format(*answer)
    return f"ok {answer.first}"


class Player:
    """Plays events on an engine that makes way for another one again and again."""

    def __init__(self, captured: List[int]) -> None:
        self.engine, self.other = Engine(), Engine()
        self.captured = captured
        self.handed = b""
        self.places = 0

    def free(self) -> None:
        """Frees both engines."""
        self.engine.free()
        self.other.free()

    def move(self) -> None:
        """The other engine goes on, which is where this one was before."""
        self.other.load(self.engine.save())
        self.engine, self.other = self.other, self.engine
        self.places += 1

    def interrupt(self, frames: int) -> str:
        """The device takes frames, in parts, with those that it captured."""
        for begin in range(0, frames, FRAMES):
            part = min(FRAMES, frames - begin)
            samples, self.captured = self.captured[:2 * part], self.captured[2 * part:]
            self.handed += self.engine.interrupt(part, samples)
            self.move()
        return f"ok {frames}"

    def call(self, words: List[str]) -> str:
        """Makes the call of an event of a descriptor. Answers its reply."""
        name, descriptor, engine = words[0], int(words[1]), self.engine
        if name == "open":
            return f"ok {engine.open(descriptor, WAYS[words[2]])}"
        if name == "write":
            return f"ok {engine.write(descriptor, bytes.fromhex(words[2]))}"
        if name == "read":
            read = engine.read(descriptor, int(words[2]))
            return f"ok {len(read)} {read.hex()}"
        if name == "close":
            engine.close(descriptor)
            return "ok"
        request = Request[words[2].upper()]
        return told(request, engine.ioctl(descriptor, request, *map(int, words[3:])))

    def play(self, words: List[str]) -> str:
        """Does what an event says, and moves to the other engine. Answers its reply."""
        if words[0] == "intr":
            return self.interrupt(int(words[1]))
        reply = self.call(words)
        self.move()
        return reply


@unittest.skipUnless(PROGRAMS.is_dir(), "no recorded programs are here")
class Programs(unittest.TestCase):
    """What recorded programs hear and are told by engines that are loaded."""

    def test_programs_go_on_where_their_engines_were_saved(self) -> None:
        for name in SCRIPTS:
            with self.subTest(name):
                script = PROGRAMS / f"{name}.script"
                player = Player(captured_samples(script))
                self.addCleanup(player.free)
                replies = [f"{number}: {player.play(words)}" for number, words in enumerate(events(script), 1)]
                self.assertEqual(replies, script.with_suffix(".replies").read_text().splitlines())
                self.assertEqual(player.handed, device_bytes(script.with_suffix(".device")))
                self.assertGreaterEqual(player.places, PLACES)


if __name__ == "__main__":
    unittest.main()
