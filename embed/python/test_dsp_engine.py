"""Tries the package over the library: python3 -m unittest discover embed/python

Values are those of docs/SCRIPTS.md, of examples/17-a-mute, or by hand from the rules.
"""
import copy
import dataclasses
import errno
import gc
import os
import pathlib
import struct
import subprocess
import sys
import unittest
from typing import Callable, Iterator, List, Optional, Tuple

from dsp_engine import (
    Answer,
    Device,
    Engine,
    Errors,
    Filter,
    Format,
    Fragments,
    MixerRequest,
    Position,
    Refusal,
    Refused,
    Request,
    Section,
    Settings,
    Slot,
    SlotState,
    Space,
    State,
    Trigger,
    Volume,
    Way,
    WouldBlock,
)

DESCRIPTORS = MUSIC, VOICE = 0, 1
SMALL = Device(ring_frames=16, play_slots=1, record_slots=1, map_slots=1, quality=2)


def frames(scale: int) -> bytes:
    """Twelve frames: frame n, from 1 on, is n on the left and 256 + n on the right, times a scale."""
    samples: Iterator[int] = (scale * it for n in range(1, 13) for it in (n, 256 + n))
    return b"".join(struct.pack("<H", it) for it in samples)


class AMute(unittest.TestCase):
    """The calls of examples/17-a-mute, line by line, and the bytes of its table."""

    def setUp(self) -> None:
        self.engine = Engine(Device(ring_frames=8))
        self.handed: List[bytes] = []

    def tearDown(self) -> None:
        self.engine.free()

    def interrupt(self) -> None:
        self.handed.append(self.engine.interrupt(4))

    def begin(self) -> None:
        """Lines 1 to 7."""
        for slot, descriptor in enumerate(DESCRIPTORS):
            self.assertEqual(self.engine.open(descriptor, Way.PLAY, Format.S16_LE, 2, 48000), slot)
        self.assertEqual(self.engine.write(MUSIC, frames(1)), 48)
        self.assertEqual(self.engine.write(VOICE, frames(16)), 48)
        for descriptor in DESCRIPTORS:
            self.engine.post(descriptor)
        self.interrupt()

    def mute(self) -> None:
        """Lines 8 to 13."""
        self.engine.mute_slot(0)
        self.interrupt()
        self.assertEqual(self.engine.output_position(MUSIC), Position(bytes=32, blocks=0, place=32))
        self.assertEqual(self.engine.slot(0), Volume(100, 100))
        self.engine.mute_slot(0, False)
        self.interrupt()

    def end(self) -> None:
        """Lines 14 to 18."""
        self.assertEqual(self.engine.errors(MUSIC), Errors(0, 0))
        for descriptor in DESCRIPTORS:
            self.engine.close(descriptor)
        self.interrupt()
        self.interrupt()

    def test_lines(self) -> None:
        self.begin()
        self.mute()
        self.end()
        heard = "11001111 22002211 33003311 44004411 50005010 60006010 70007010 80008010 99009911 aa00aa11 bb00bb11 cc00cc11"
        self.assertEqual(b"".join(self.handed), bytes(32) + bytes.fromhex(heard))


class Calls(unittest.TestCase):
    """What calls are answered that are accepted."""

    def setUp(self) -> None:
        self.engine = Engine(SMALL)

    def tearDown(self) -> None:
        self.engine.free()

    def test_requests_of_an_opening(self) -> None:
        self.engine.open(5, Way.PLAY)
        self.assertEqual((self.engine.format(5), self.engine.channels(5), self.engine.rate(5)), (Format.U8, 1, 8000))
        self.assertEqual(self.engine.set_format(5, Format.S24_BE), Format.S24_BE)
        self.assertEqual(self.engine.set_channels(5, 6), 6)
        self.assertEqual(self.engine.set_rate(5, 44100), 44100)
        self.assertEqual(sorted(self.engine.formats(5)), sorted(Format))
        self.assertEqual(self.engine.capabilities(5), 0x1200)
        self.assertEqual(self.engine.fragment_bytes(5), 4096)
        self.assertEqual(self.engine.volume(5), Volume(100, 100))
        self.assertEqual(self.engine.trigger(5), Trigger.PLAY)

    def test_room_and_delay(self) -> None:
        self.engine.open(0, Way.PLAY, Format.S16_LE, 2, 48000)
        self.assertEqual(self.engine.set_fragments(0, 2, 4), Fragments(2, 4))
        self.assertEqual(self.engine.write(0, bytearray(12)), 12)
        self.assertEqual(self.engine.output_space(0), Space(1, 2, 16, 20))
        self.assertEqual(self.engine.output_delay(0), 12)
        self.assertEqual(self.engine.write(0, memoryview(bytes(100))), 20)

    def test_settings_that_are_asked(self) -> None:
        self.engine.open(0, Way.PLAY, Format.S16_LE, 2, 48000)
        self.assertEqual(self.engine.set_volume(0, (100, 50)), Volume(100, 50))
        self.engine.set_trigger(0, Trigger.NONE)
        self.assertEqual(self.engine.trigger(0), Trigger.NONE)
        self.assertEqual(self.engine.set_master((90, 90)), Volume(90, 90))
        self.assertEqual(self.engine.master(), (90, 90))
        self.assertEqual(self.engine.set_slot(0, (50, 100)), (50, 100))
        self.assertEqual(self.engine.ioctl(0, Request.SPEED, 44100), (44100, 0, 0, 0))
        self.assertEqual(self.engine.mixer(MixerRequest.GET_MASTER).first, 0x5A5A)

    def test_a_recording(self) -> None:
        """Three frames come of four that are captured, and silence."""
        samples = [each << 16 for n in (1, 2, 3) for each in (n, -n)]
        self.engine.open(2, Way.RECORD, Format.S16_LE, 2, 48000)
        self.engine.set_trigger(2, Trigger.RECORD)
        self.assertEqual(self.engine.interrupt(4, samples), bytes(16))
        self.assertEqual(self.engine.input_space(2).bytes, 16)
        self.assertEqual(self.engine.input_position(2), Position(16, 0, 16))
        self.assertEqual(self.engine.read(2, 6), struct.pack("<hhh", 1, -1, 2))
        self.assertEqual(self.engine.read(2), struct.pack("<hhhhh", -2, 3, -3, 0, 0))
        self.assertEqual(self.engine.read(2, 0), b"")

    def test_a_mapped_channel(self) -> None:
        self.assertEqual(self.engine.open(3, Way.MAP, Format.S16_LE, 2, 48000), 1)
        self.engine.poke(3, 4, bytes.fromhex("6400640065006500"))
        self.engine.post(3)
        self.engine.interrupt(3)
        self.assertEqual(self.engine.output_position(3).bytes, 12)
        self.engine.interrupt(13)
        self.assertEqual(self.engine.interrupt(3), bytes.fromhex("000000006400640065006500"))

    def test_a_group(self) -> None:
        self.engine.open(0, Way.PLAY, Format.S16_LE, 2, 48000)
        self.engine.open(1, Way.RECORD, Format.S16_LE, 2, 48000)
        self.assertEqual(self.engine.join(0), 1)
        self.assertEqual(self.engine.join(1, 1), 1)
        self.engine.write(0, bytes(4))
        self.engine.start(1, 1)
        with self.assertRaises(Refused) as caught:
            self.engine.start(0, 1)
        self.assertEqual(caught.exception.number, Refusal.INVALID)

    def test_filters_and_sections(self) -> None:
        """A filter from 24000 to 48000 gives each frame, and then the mean of it and the next."""
        half = Section(shift=1, b0=1, b1=0, b2=0, a1=0, a2=0)
        between = Filter(rows=[[2, 0], [1, 1]], shift=1, src=24000, dst=48000)
        with Engine(SMALL, [between], [half]) as engine:
            engine.open(0, Way.PLAY, Format.S16_LE, 2, 24000)
            engine.write(0, struct.pack("<4h", 0, 0, 200, 200))
            engine.close(0)
            engine.interrupt(16)
            self.assertEqual(engine.interrupt(4), struct.pack("<8h", 0, 0, 50, 50, 100, 100, 50, 50))


class Questions(unittest.TestCase):
    """Questions, which change nothing. The device takes four bytes a frame, and a ring holds four fragments of 4096 bytes."""

    def setUp(self) -> None:
        self.engine = Engine(Device(play_slots=2, record_slots=1, map_slots=1))
        self.engine.open(MUSIC, Way.PLAY, Format.S16_LE, 2, 48000)

    def tearDown(self) -> None:
        self.engine.free()

    def test_how_a_channel_is(self) -> None:
        opened = Settings(Way.PLAY, 0, Format.S16_LE, 2, 48000, 4, 4096, True, Volume(100, 100), 0, State.SETUP)
        self.assertEqual(self.engine.settings(MUSIC), opened)
        with self.assertRaises(Refused) as caught:
            self.engine.settings(VOICE)
        self.assertEqual(caught.exception.number, Refusal.BAD_DESCRIPTOR)

    def test_no_question_tells_a_position(self) -> None:
        self.engine.write(MUSIC, bytes(16384))
        for _ in range(4):
            self.engine.interrupt(256)
        left = self.engine.frames_left
        for _ in range(2):
            self.assertEqual(self.engine.peek(MUSIC, Request.GETOPTR), Answer(4096, 1, 4096, 0))
        self.assertEqual(self.engine.frames_left, left)
        self.assertEqual(self.engine.output_position(MUSIC), Position(4096, 1, 4096))
        self.assertEqual(self.engine.peek(MUSIC, Request.GETOPTR).second, 0)

    def test_who_waits_and_how_long(self) -> None:
        self.assertEqual(self.engine.ready(), ({MUSIC}, set()))
        self.engine.write(MUSIC, bytes(16384))
        self.assertEqual(self.engine.ready(), (set(), set()))
        self.assertEqual(self.engine.frames_until(MUSIC, 4096), 1024)
        with self.assertRaises(Refused) as caught:
            self.engine.frames_until(MUSIC, 16385)
        self.assertEqual(caught.exception.number, Refusal.BUSY)

    def test_slots(self) -> None:
        self.engine.write(MUSIC, bytes(400))
        self.engine.close(MUSIC)
        self.assertEqual(self.engine.slot_status(Way.PLAY, 0), Slot(SlotState.CLOSING, 100))
        self.assertEqual(self.engine.slot_status(Way.MAP, 2), Slot(SlotState.FREE, 0))
        self.assertFalse(self.engine.is_idle)
        self.engine.interrupt(1024)
        self.engine.interrupt(100)
        self.assertTrue(self.engine.is_idle)


class States(unittest.TestCase):
    """An engine whose descriptor 0 has started, as bytes."""

    def setUp(self) -> None:
        self.engine = Engine(SMALL)
        self.engine.open(0, Way.PLAY, Format.S16_LE, 2, 48000)
        self.engine.write(0, bytes([7]) * 64)
        self.engine.post(0)
        self.engine.discard(16)
        self.state = self.engine.save()

    def tearDown(self) -> None:
        self.engine.free()

    def refuses(self, number: Refusal, state: bytes, engine: Optional[Engine] = None) -> None:
        """Sees that an engine refuses a state with that number, and stays as it is."""
        asked = engine or self.engine
        before = asked.save()
        with self.assertRaises(Refused) as caught:
            asked.load(state)
        self.assertEqual(caught.exception.number, number)
        self.assertEqual(asked.save(), before)

    def test_an_engine_goes_on_where_a_state_was_saved(self) -> None:
        self.assertEqual(len(self.state), self.engine.state_size)
        self.engine.close(0)
        self.engine.interrupt(16)
        for engine in (self.engine, Engine(SMALL)):
            engine.load(bytearray(self.state))
            self.assertEqual(engine.save(), self.state)
            self.assertEqual(engine.interrupt(16), bytes([7]) * 64)
            self.assertEqual(engine.errors(0), Errors(1, 0))

    def test_another_process_goes_on(self) -> None:
        code = "import sys; from dsp_engine import Device, Engine; engine = Engine(Device(*map(int, sys.argv[1:])));"
        code += "engine.load(sys.stdin.buffer.read()); sys.stdout.buffer.write(engine.interrupt(16) + engine.save())"
        words = [sys.executable, "-B", "-c", code, *(str(int(it)) for it in dataclasses.astuple(SMALL))]
        env = {**os.environ, "PYTHONPATH": str(pathlib.Path(__file__).resolve().parent)}
        ran = subprocess.run(words, input=self.state, stdout=subprocess.PIPE, env=env, check=True)
        self.assertEqual(ran.stdout, self.engine.interrupt(16) + self.engine.save())

    def test_states_that_are_refused(self) -> None:
        self.refuses(Refusal.NOT_A_STATE, bytes([self.state[0] + 1]) + self.state[1:])
        self.refuses(Refusal.SHORT_STATE, self.state[:-1])
        self.refuses(Refusal.LONG_STATE, self.state + b"1")
        self.refuses(Refusal.OTHER_DEVICE, self.state, Engine(Device()))
        half = Section(shift=1, b0=1, b1=0, b2=0, a1=0, a2=0)
        self.refuses(Refusal.OTHER_DEVICE, self.state, Engine(SMALL, [], [half]))

    def test_a_freed_engine_has_no_state(self) -> None:
        with Engine(SMALL) as engine:
            engine.free()
            calls: Tuple[Callable[[], object], ...] = (engine.save, lambda: engine.load(self.state), lambda: engine.state_size)
            for call in calls:
                with self.assertRaises(Refused) as caught:
                    call()
                self.assertEqual(caught.exception.number, Refusal.NOT_AN_ENGINE)


class Refusals(unittest.TestCase):
    """What calls raise that aren't accepted."""

    def setUp(self) -> None:
        self.engine = Engine(SMALL)

    def tearDown(self) -> None:
        self.engine.free()

    def refuses(self, number: Refusal, call: str, *words: object) -> Refused:
        """Sees that a call is refused with that number. Answers what it raised."""
        with self.assertRaises(Refused) as caught:
            getattr(self.engine, call)(*words)
        self.assertEqual(caught.exception.number, number)
        self.assertTrue(caught.exception.strerror)
        return caught.exception

    def test_refusals_by_state(self) -> None:
        self.assertEqual(self.refuses(Refusal.BAD_DESCRIPTOR, "write", 0, b"1234").errno, errno.EBADF)
        self.engine.open(0, Way.PLAY, Format.S16_LE, 2, 48000)
        self.assertEqual(self.refuses(Refusal.EXISTS, "open", 0, Way.PLAY).errno, errno.EEXIST)
        self.assertEqual(self.refuses(Refusal.BUSY, "open", 1, Way.PLAY).errno, errno.EBUSY)
        self.assertEqual(self.refuses(Refusal.INVALID, "read", 0).errno, errno.EINVAL)
        self.refuses(Refusal.INVALID, "set_volume", 0, (101, 0))
        self.refuses(Refusal.INVALID, "set_channels", 0, 3)

    def test_would_block(self) -> None:
        self.engine.open(0, Way.PLAY, Format.S16_LE, 2, 48000)
        self.assertEqual(self.engine.write(0, bytes(20000)), 16384)
        with self.assertRaises(WouldBlock) as caught:
            self.engine.write(0, b"1")
        self.assertEqual((caught.exception.number, caught.exception.errno), (Refusal.AGAIN, errno.EAGAIN))
        self.assertIsInstance(caught.exception, BlockingIOError)
        self.engine.open(1, Way.RECORD)
        with self.assertRaises(BlockingIOError):
            self.engine.read(1)

    def test_numbers_outside_their_limits(self) -> None:
        self.refuses(Refusal.WRONG_ARGUMENT, "close", 64)
        self.refuses(Refusal.WRONG_ARGUMENT, "open", 0, 3)
        self.refuses(Refusal.INVALID, "open", 0, Way.PLAY, Format.U8, 5)
        self.refuses(Refusal.WRONG_ARGUMENT, "ioctl", 0, 20)
        self.refuses(Refusal.WRONG_ARGUMENT, "mixer", 5)
        self.refuses(Refusal.WRONG_ARGUMENT, "interrupt", 0)
        self.refuses(Refusal.WRONG_ARGUMENT, "interrupt", 17)
        self.refuses(Refusal.WRONG_ARGUMENT, "interrupt", 1, [0, 0, 0])
        self.refuses(Refusal.WRONG_ARGUMENT, "interrupt", 2, [0, 0, 0])
        self.refuses(Refusal.BAD_DESCRIPTOR, "close", 0)
        self.assertEqual(self.engine.frames_left, 70368744177664)
        self.engine.interrupt(16)
        self.assertEqual(self.engine.frames_left, 70368744177648)

    def test_what_nobody_hears_is_let_go(self) -> None:
        self.engine.open(0, Way.PLAY, Format.S16_LE, 2, 48000)
        self.engine.write(0, bytes([7]) * 64)
        self.engine.post(0)
        self.refuses(Refusal.WRONG_ARGUMENT, "discard", 17)
        self.assertEqual(self.engine.discard(16), 64)
        self.assertEqual(self.engine.interrupt(16), bytes([7]) * 64)

    def test_numbers_that_do_not_fit(self) -> None:
        with self.assertRaises(ValueError):
            self.engine.close(-1)
        with self.assertRaises(ValueError):
            self.engine.close(1 << 32)
        with self.assertRaises(ValueError):
            self.engine.set_master((256, 0))
        with self.assertRaises(ValueError):
            self.engine.set_fragments(0, 1 << 15, 4)
        with self.assertRaises(ValueError):
            self.engine.interrupt(1, [1 << 31])
        with self.assertRaises(TypeError):
            self.engine.write(0, 5)  # type: ignore[arg-type]

    def test_devices_that_there_are_not(self) -> None:
        wrong = Device(channels=3), Device(rate=3999), Device(play_slots=16, map_slots=1), Device(mix_rate=3999), Device(quality=5)
        for device in (*wrong, Device(ring_frames=0)):
            with self.assertRaises(Refused) as caught:
                Engine(device)
            self.assertEqual(caught.exception.number, Refusal.WRONG_ARGUMENT)
        with self.assertRaises(Refused):
            Engine(SMALL, [Filter(rows=[[1, 2, 3]], shift=1)])
        with self.assertRaises(ValueError):
            Engine(SMALL, [Filter(rows=[[1, 2], [3]], shift=1)])

    def test_a_freed_engine(self) -> None:
        self.engine.free()
        self.engine.free()
        with self.assertRaises(Refused):
            self.engine.close(0)

    def test_an_engine_has_no_copy(self) -> None:
        with self.assertRaises(TypeError):
            copy.copy(self.engine)
        with self.assertRaises(TypeError):
            copy.deepcopy(self.engine)

    def test_a_clone_goes_on_where_its_engine_is(self) -> None:
        self.engine.open(0, Way.PLAY, Format.S16_LE, 2, 48000)
        self.engine.write(0, bytes([7]) * 64)
        self.engine.post(0)
        self.engine.discard(16)
        with self.engine.clone() as clone:
            self.engine.close(0)
            self.assertEqual((clone.device, clone.frames_left), (self.engine.device, self.engine.frames_left))
            self.engine.free()
            self.assertEqual(clone.interrupt(16), bytes([7]) * 64)
            self.assertEqual(clone.errors(0), Errors(1, 0))
            self.refuses(Refusal.NOT_AN_ENGINE, "clone")

    def test_engines_are_freed_with_their_names(self) -> None:
        for _ in range(100):
            Engine()
        gc.collect()


if __name__ == "__main__":
    unittest.main()
