"""An engine, call by call."""
import ctypes
import threading
from types import TracebackType
from typing import Any, Iterable, List, Optional, Sequence, Tuple, Type, Union

from .library import AnswerStruct, EngineStruct, FilterStruct, SectionStruct, SettingsStruct, SlotStruct, accepted, library
from .numbers import (
    Answer,
    Device,
    Errors,
    Filter,
    Format,
    Fragments,
    MixerRequest,
    Position,
    Ready,
    Request,
    Section,
    Settings,
    Slot,
    SlotState,
    Space,
    State,
    Trigger,
    Volume,
    Way,
)
from .structs import device_struct, filter_structs, fits, samples_of, section_struct, volume_number, volume_of

Bytes = Union[bytes, bytearray, memoryview]

READ_MOST = 4096  # bytes that one read gets


class Engine:
    """An engine of a device, with filters and sections of the equaliser. It is freed by `free`, or where its `with` ends.

    Each call either is accepted, or raises `Refused` and has changed nothing; a number that doesn't fit 32 bits raises ValueError. Several
    threads may use one engine: one call is made after the other.
    """

    def __init__(self, device: Device = Device(), filters: Sequence[Filter] = (), sections: Sequence[Section] = ()) -> None:
        structs, coefs = filter_structs(filters)
        parts = [section_struct(section) for section in sections]
        self._begin(device)
        accepted(
            self._library.dsp_engine_new(
                self._handle,
                device_struct(device),
                (FilterStruct * len(structs))(*structs),
                len(structs),
                (ctypes.c_int32 * len(coefs))(*coefs),
                len(coefs),
                (SectionStruct * len(parts))(*parts),
                len(parts),
            )
        )

    def _begin(self, device: Device) -> None:
        """No engine is there yet."""
        self._handle = EngineStruct()
        self._lock = threading.Lock()
        self._device = device
        self._library = library()
        self._frame_bytes = Format(device.format).sample_bytes * device.channels

    def __enter__(self) -> "Engine":
        return self

    def __exit__(self, kind: Optional[Type[BaseException]], value: Optional[BaseException], trace: Optional[TracebackType]) -> None:
        self.free()

    def __del__(self) -> None:
        if hasattr(self, "_library"):
            self.free()

    def __reduce__(self) -> Any:
        raise TypeError("an engine has no copy: see clone and save")

    def clone(self) -> "Engine":
        """An engine that goes on where this one is, and answers the same calls alike."""
        other = Engine.__new__(Engine)
        other._begin(self._device)
        self._call("clone", other._handle)
        return other

    @property
    def state_size(self) -> int:
        """How many bytes `save` answers now."""
        return self._call("state_size")

    def save(self) -> bytes:
        """The state of the engine, which an engine of the same device, filters and sections can `load`, also in another process."""
        with self._lock:
            size = accepted(self._library.dsp_engine_state_size(self._handle))
            room = ctypes.create_string_buffer(size)
            accepted(self._library.dsp_engine_save(self._handle, room, size))
        return room.raw

    def load(self, state: Bytes) -> None:
        """The engine goes on where a state was saved. Bytes that are none of its device are refused, and it goes on where it was."""
        content = bytes(memoryview(state))
        self._call("load", content, len(content))

    def free(self) -> None:
        """Frees the engine. Whatever is called then is refused."""
        with self._lock:
            self._library.dsp_engine_free(self._handle)

    def _call(self, name: str, *arguments: Any) -> int:
        """Makes a call. Answers its number, if it was accepted."""
        with self._lock:
            number: int = getattr(self._library, f"dsp_engine_{name}")(self._handle, *arguments)
        return accepted(number)

    @property
    def device(self) -> Device:
        """The device of the engine."""
        return self._device

    @property
    def frames_left(self) -> int:
        """How many frames the engine still hands over. Nothing but interrupts uses them up."""
        with self._lock:
            return int(self._library.dsp_engine_frames_left(self._handle))

    def open(self, descriptor: int, way: Way, format: Format = Format.U8, channels: int = 1, rate: int = 8000) -> int:
        """Opens a descriptor, 0 to 63. Answers the number of its slot."""
        numbers = (descriptor, way, format, channels, rate)
        return self._call("open", *map(fits, numbers, ("descriptor", "way", "format", "channels", "rate")))

    def write(self, descriptor: int, data: Bytes) -> int:
        """Writes bytes to a descriptor that plays. Answers how many of them its ring took: the first ones."""
        content = bytes(memoryview(data))
        return self._call("write", fits(descriptor, "descriptor"), content, len(content))

    def poke(self, descriptor: int, offset: int, data: Bytes) -> None:
        """Writes bytes into the area of a mapped descriptor, from its byte `offset` on."""
        content = bytes(memoryview(data))
        self._call("poke", fits(descriptor, "descriptor"), fits(offset, "offset"), content, len(content))

    def read(self, descriptor: int, length: int = READ_MOST) -> bytes:
        """Reads at most `length` bytes, and never more than 4096, of what a descriptor has recorded."""
        room = ctypes.create_string_buffer(min(fits(length, "length"), READ_MOST))
        count = self._call("read", fits(descriptor, "descriptor"), room, len(room))
        return room.raw[:count]

    def ioctl(self, descriptor: int, request: Request, argument: int = 0) -> Answer:
        """Asks something of the channel of a descriptor. The methods below ask each request by its name."""
        answer = AnswerStruct()
        self._call("ioctl", fits(descriptor, "descriptor"), fits(request, "request"), fits(argument, "argument"), answer)
        return Answer(answer.first, answer.second, answer.third, answer.fourth)

    def set_format(self, descriptor: int, format: Format) -> Format:
        """Sets the format, and returns it."""
        return Format(self.ioctl(descriptor, Request.SETFMT, format).first)

    def format(self, descriptor: int) -> Format:
        """The format."""
        return Format(self.ioctl(descriptor, Request.SETFMT).first)

    def set_rate(self, descriptor: int, rate: int) -> int:
        """Sets the frames per second, and returns them."""
        return self.ioctl(descriptor, Request.SPEED, rate).first

    def rate(self, descriptor: int) -> int:
        """The frames per second."""
        return self.ioctl(descriptor, Request.SPEED).first

    def set_channels(self, descriptor: int, channels: int) -> int:
        """Sets the number of channels, and returns it."""
        return self.ioctl(descriptor, Request.CHANNELS, channels).first

    def channels(self, descriptor: int) -> int:
        """The number of channels."""
        return self.ioctl(descriptor, Request.CHANNELS).first

    def formats(self, descriptor: int) -> List[Format]:
        """Which formats there are."""
        codes = self.ioctl(descriptor, Request.GETFMTS).first
        return [each for each in Format if codes & each]

    def capabilities(self, descriptor: int) -> int:
        """What the device can do, by the bits of SNDCTL_DSP_GETCAPS."""
        return self.ioctl(descriptor, Request.GETCAPS).first

    def fragment_bytes(self, descriptor: int) -> int:
        """The bytes of a fragment."""
        return self.ioctl(descriptor, Request.GETBLKSIZE).first

    def set_fragments(self, descriptor: int, number: int, power: int) -> Fragments:
        """Cuts the ring into `number` fragments of 2 ** power bytes, 0 for as many as fit. Answers what it is cut into."""
        if not (0 <= number < 1 << 15 and 0 <= power < 1 << 16):
            raise ValueError(f"fragments {number}, {power} are not 0 to 32767 of 0 to 65535")
        answered = self.ioctl(descriptor, Request.SETFRAGMENT, number << 16 | power).first
        return Fragments(answered >> 16, answered & 0xFFFF)

    def output_space(self, descriptor: int) -> Space:
        """What a write would take now."""
        return Space(*self.ioctl(descriptor, Request.GETOSPACE))

    def input_space(self, descriptor: int) -> Space:
        """What a read would get now."""
        return Space(*self.ioctl(descriptor, Request.GETISPACE))

    def output_position(self, descriptor: int) -> Position:
        """How far a channel has played."""
        return Position(*self.ioctl(descriptor, Request.GETOPTR)[:3])

    def input_position(self, descriptor: int) -> Position:
        """How far a channel has recorded."""
        return Position(*self.ioctl(descriptor, Request.GETIPTR)[:3])

    def output_delay(self, descriptor: int) -> int:
        """Bytes that are still to be heard."""
        return self.ioctl(descriptor, Request.GETODELAY).first

    def errors(self, descriptor: int) -> Errors:
        """Shortages since they were asked last."""
        return Errors(*self.ioctl(descriptor, Request.GETERROR)[:2])

    def set_trigger(self, descriptor: int, trigger: Trigger) -> None:
        """Says whether the channel may start."""
        self.ioctl(descriptor, Request.SETTRIGGER, trigger)

    def trigger(self, descriptor: int) -> Trigger:
        """Whether the channel may start."""
        return Trigger(self.ioctl(descriptor, Request.GETTRIGGER).first)

    def set_volume(self, descriptor: int, volume: Tuple[int, int]) -> Volume:
        """Sets the volume of both sides, 0 to 100 each, and returns it."""
        return volume_of(self.ioctl(descriptor, Request.SETPLAYVOL, volume_number(volume)).first)

    def volume(self, descriptor: int) -> Volume:
        """The volume of both sides."""
        return volume_of(self.ioctl(descriptor, Request.GETPLAYVOL).first)

    def post(self, descriptor: int) -> None:
        """Starts the channel now."""
        self.ioctl(descriptor, Request.POST)

    def sync(self, descriptor: int) -> None:
        """Says that no more comes for now: what is there plays to its end."""
        self.ioctl(descriptor, Request.SYNC)

    def halt(self, descriptor: int) -> None:
        """Drops what is there."""
        self.ioctl(descriptor, Request.HALT)

    def join(self, descriptor: int, group: int = 0) -> int:
        """Makes a descriptor a member of a group: of a new one by 0, or of one that is there. Answers its number."""
        answer = AnswerStruct()
        self._call("join", fits(descriptor, "descriptor"), fits(group, "group"), answer)
        return int(answer.first)

    def start(self, descriptor: int, group: int) -> None:
        """Starts all members of a group at one frame."""
        self._call("start", fits(descriptor, "descriptor"), fits(group, "group"))

    def close(self, descriptor: int) -> None:
        """Closes a descriptor. What was written plays to its end; what was recorded and not read is dropped."""
        self._call("close", fits(descriptor, "descriptor"))

    def mixer(self, request: MixerRequest, slot: int = 0, value: int = 0) -> Answer:
        """Asks something of the mixer device. The methods below ask each request by its name."""
        answer = AnswerStruct()
        self._call("mixer", fits(request, "request"), fits(slot, "slot"), fits(value, "value"), answer)
        return Answer(answer.first, answer.second, answer.third, answer.fourth)

    def set_master(self, volume: Tuple[int, int]) -> Volume:
        """Sets the volume of all that is mixed, and returns it."""
        return volume_of(self.mixer(MixerRequest.SET_MASTER, 0, volume_number(volume)).first)

    def master(self) -> Volume:
        """The volume of all that is mixed."""
        return volume_of(self.mixer(MixerRequest.GET_MASTER).first)

    def set_slot(self, slot: int, volume: Tuple[int, int]) -> Volume:
        """Sets the volume of what is heard of a slot, and returns it."""
        return volume_of(self.mixer(MixerRequest.SET_SLOT, slot, volume_number(volume)).first)

    def slot(self, slot: int) -> Volume:
        """The volume of what is heard of a slot."""
        return volume_of(self.mixer(MixerRequest.GET_SLOT, slot).first)

    def mute_slot(self, slot: int, is_muted: bool = True) -> None:
        """Mutes a slot, or lets it be heard again."""
        self.mixer(MixerRequest.MUTE_SLOT, slot, int(is_muted))

    def interrupt(self, frames: int, samples: Iterable[int] = ()) -> bytes:
        """The device takes `frames` frames. Answers their bytes. With them come the samples that the device captured, of 32 bits, as many as
        it has channels for each frame; where there are fewer, silence follows."""
        captured = samples_of(samples)
        room = ctypes.create_string_buffer(self._room_for(fits(frames, "frames")))
        place = (ctypes.c_int32 * len(captured)).from_buffer(captured) if captured else None
        count = self._call("interrupt", frames, place, len(captured), room, len(room))
        return room.raw[:count]

    def discard(self, frames: int, samples: Iterable[int] = ()) -> int:
        """The device takes `frames` frames, as by `interrupt`, and nobody hears them. Answers how many bytes these are."""
        captured = samples_of(samples)
        place = (ctypes.c_int32 * len(captured)).from_buffer(captured) if captured else None
        return self._call("interrupt", fits(frames, "frames"), place, len(captured), None, 0)

    def _room_for(self, frames: int) -> int:
        """The bytes of `frames` frames, if the device can hand them over at once."""
        return frames * self._frame_bytes if frames <= self._device.ring_frames else 0

    # ---- questions: none is a step, and none changes anything

    def settings(self, descriptor: int) -> Settings:
        """How the channel of a descriptor is."""
        told = SettingsStruct()
        self._call("settings", fits(descriptor, "descriptor"), told)
        return Settings(
            way=Way(told.way),
            slot=told.slot,
            format=Format(told.format),
            channels=told.channels,
            rate=told.rate,
            fragments=told.fragments,
            fragment_bytes=told.fragment_bytes,
            trigger=bool(told.trigger),
            volume=volume_of(told.volume),
            group=told.group,
            state=State(told.state),
        )

    def peek(self, descriptor: int, request: Request, argument: int = 0) -> Answer:
        """What `ioctl` would answer now. Nothing is done: no position and no shortage counts as answered."""
        answer = AnswerStruct()
        self._call("peek", fits(descriptor, "descriptor"), fits(request, "request"), fits(argument, "argument"), answer)
        return Answer(answer.first, answer.second, answer.third, answer.fourth)

    def slot_status(self, way: Way, number: int) -> Slot:
        """How a slot of a way is, by the number that `open` answers."""
        told = SlotStruct()
        self._call("slot", fits(way, "way"), fits(number, "number"), told)
        return Slot(SlotState(told.state), told.frames)

    @property
    def is_idle(self) -> bool:
        """Whether no slot of any way is taken: nothing plays, records or drains."""
        return bool(self._call("is_idle"))

    def ready(self) -> Ready:
        """Which descriptors are ready: a byte can be written, or read."""
        writable, readable = ctypes.c_uint64(), ctypes.c_uint64()
        self._call("ready", writable, readable)
        return Ready(*(frozenset(fd for fd in range(64) if bits.value >> fd & 1) for bits in (writable, readable)))

    def frames_until(self, descriptor: int, length: int) -> int:
        """After how many frames that interrupts take a write of `length` bytes fits whole, or as many can be read, if nothing else happens."""
        return self._call("frames_until", fits(descriptor, "descriptor"), fits(length, "length"))
