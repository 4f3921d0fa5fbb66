"""The numbers of the library by their names: devices, formats, requests, and what calls are answered."""
from dataclasses import dataclass
from enum import IntEnum, IntFlag
from typing import FrozenSet, NamedTuple, Sequence


class Format(IntEnum):
    """A sample format, by its code of SNDCTL_DSP_SETFMT: the bits, and which byte comes first. 24 bits are three bytes."""

    U8 = 0x8
    S8 = 0x40
    S16_LE = 0x10
    S16_BE = 0x20
    U16_LE = 0x80
    U16_BE = 0x100
    S24_LE = 0x10000
    S24_BE = 0x20000
    U24_LE = 0x40000
    U24_BE = 0x80000
    S32_LE = 0x1000
    S32_BE = 0x2000
    U32_LE = 0x4000
    U32_BE = 0x8000

    @property
    def sample_bytes(self) -> int:
        """The bytes of a sample."""
        return int(self.name.partition("_")[0][1:]) // 8


class Way(IntEnum):
    """Which way sound goes through a descriptor."""

    PLAY = 0
    RECORD = 1
    MAP = 2


class Request(IntEnum):
    """What a client asks of its channel."""

    SETFMT = 0
    SPEED = 1
    CHANNELS = 2
    GETFMTS = 3
    GETCAPS = 4
    GETBLKSIZE = 5
    SETFRAGMENT = 6
    GETOSPACE = 7
    GETISPACE = 8
    GETOPTR = 9
    GETIPTR = 10
    GETODELAY = 11
    GETERROR = 12
    SETTRIGGER = 13
    GETTRIGGER = 14
    SETPLAYVOL = 15
    GETPLAYVOL = 16
    POST = 17
    SYNC = 18
    HALT = 19


class MixerRequest(IntEnum):
    """What the mixer device is asked."""

    SET_MASTER = 0
    GET_MASTER = 1
    SET_SLOT = 2
    GET_SLOT = 3
    MUTE_SLOT = 4


class Trigger(IntFlag):
    """Which channels may start: those that record, and those that play or are mapped."""

    NONE = 0
    RECORD = 1
    PLAY = 2


@dataclass(frozen=True)
class Device:
    """A device. As it stands it is the one of a run without a configuration."""

    format: Format = Format.S16_LE
    channels: int = 2
    rate: int = 48000
    mix_channels: int = 0  # 0: as the device
    mix_rate: int = 0  # 0: as the device
    ring_frames: int = 1024
    play_slots: int = 4
    record_slots: int = 4
    map_slots: int = 0
    quality: int = 1


@dataclass(frozen=True)
class Filter:
    """A filter for a change of rate, or for any where both rates are 0: rows of coefficients, which count as divided by 2 ** shift."""

    rows: Sequence[Sequence[int]]
    shift: int
    src: int = 0
    dst: int = 0


@dataclass(frozen=True)
class Section:
    """A section of the equaliser, whose coefficients count as divided by 2 ** shift."""

    shift: int
    b0: int
    b1: int
    b2: int
    a1: int
    a2: int


class Answer(NamedTuple):
    """What a request is answered, in the order of the library."""

    first: int
    second: int
    third: int
    fourth: int


class Space(NamedTuple):
    """What a write would take now, or a read would get: whole fragments, fragments in all, the bytes of one, and bytes."""

    fragments: int
    fragments_in_all: int
    fragment_bytes: int
    bytes: int


class Position(NamedTuple):
    """How far a channel is: its bytes, the fragments passed since it was asked last, and the place in its ring."""

    bytes: int
    blocks: int
    place: int


class Errors(NamedTuple):
    """Shortages since they were asked last."""

    underruns: int
    overruns: int


class Fragments(NamedTuple):
    """How a ring is cut: `number` fragments of 2 ** power bytes."""

    number: int
    power: int


class Volume(NamedTuple):
    """A volume of each side, 0 to 100."""

    left: int
    right: int


class State(IntEnum):
    """Where the run of a channel stands."""

    SETUP = 0  # nothing of a run is there
    PRIMED = 1  # written to, and not started
    RUNNING = 2
    DRAINING = 3  # takes nothing more until what was written has played


class SlotState(IntEnum):
    """Who has a slot."""

    FREE = 0
    HELD = 1
    CLOSING = 2  # closed: it plays what was written to its end


@dataclass(frozen=True)
class Settings:
    """How the channel of a descriptor is."""

    way: Way
    slot: int
    format: Format
    channels: int
    rate: int
    fragments: int
    fragment_bytes: int
    trigger: bool
    volume: Volume
    group: int  # 0: none
    state: State


class Slot(NamedTuple):
    """How a slot is, and the frames of the mix that it gives still of what was written."""

    state: SlotState
    frames: int


class Ready(NamedTuple):
    """The descriptors to which a byte can be written, and those from which one can be read."""

    writable: FrozenSet[int]
    readable: FrozenSet[int]
