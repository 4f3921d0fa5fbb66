"""The shared library: where it is, and its functions with their types."""
import ctypes
import ctypes.util
import functools
import os
import pathlib
from typing import Iterator

from .refusals import refused

VARIABLE = "DSP_ENGINE_LIBRARY"
NAMES = ("libdsp_engine.so.2", "libdsp_engine.so", "libdsp_engine.dylib")
MAJOR, MINOR = 2, 1  # the version of the library that this package needs: a later minor one fits, too

U32 = ctypes.c_uint32
SIZE = ctypes.c_size_t


class EngineStruct(ctypes.Structure):
    """struct dsp_engine: all of it 0 is none"""

    _fields_ = [("there", ctypes.c_bool), ("at", ctypes.c_void_p)]


Handle = ctypes.POINTER(EngineStruct)


class DeviceStruct(ctypes.Structure):
    """struct dsp_device"""

    _fields_ = [
        (name, U32)
        for name in "format channels rate mix_channels mix_rate ring_frames play_slots record_slots map_slots quality".split()
    ]


class FilterStruct(ctypes.Structure):
    """struct dsp_filter"""

    _fields_ = [(name, U32) for name in "src dst phases taps shift first".split()]


class SectionStruct(ctypes.Structure):
    """struct dsp_section"""

    _fields_ = [("shift", U32), *((name, ctypes.c_int32) for name in "b0 b1 b2 a1 a2".split())]


class AnswerStruct(ctypes.Structure):
    """struct dsp_answer"""

    _fields_ = [(name, ctypes.c_uint64) for name in "first second third fourth".split()]


class SettingsStruct(ctypes.Structure):
    """struct dsp_settings"""

    _fields_ = [
        (name, U32)
        for name in "way slot format channels rate fragments fragment_bytes trigger volume group state".split()
    ]


class SlotStruct(ctypes.Structure):
    """struct dsp_slot"""

    _fields_ = [("state", U32), ("frames", ctypes.c_uint64)]


# what each function takes; all answer a number of 32 bits but those of RESULTS
PARAMETERS = {
    "new": [
        Handle,
        ctypes.POINTER(DeviceStruct),
        ctypes.POINTER(FilterStruct),
        SIZE,
        ctypes.POINTER(ctypes.c_int32),
        SIZE,
        ctypes.POINTER(SectionStruct),
        SIZE,
    ],
    "free": [Handle],
    "clone": [Handle, Handle],
    "state_size": [Handle],
    "save": [Handle, ctypes.c_void_p, SIZE],
    "load": [Handle, ctypes.c_char_p, SIZE],
    "open": [Handle, U32, U32, U32, U32, U32],
    "write": [Handle, U32, ctypes.c_char_p, SIZE],
    "poke": [Handle, U32, U32, ctypes.c_char_p, SIZE],
    "read": [Handle, U32, ctypes.c_void_p, SIZE],
    "ioctl": [Handle, U32, U32, U32, ctypes.POINTER(AnswerStruct)],
    "join": [Handle, U32, U32, ctypes.POINTER(AnswerStruct)],
    "start": [Handle, U32, U32],
    "close": [Handle, U32],
    "mixer": [Handle, U32, U32, U32, ctypes.POINTER(AnswerStruct)],
    "interrupt": [Handle, U32, ctypes.POINTER(ctypes.c_int32), SIZE, ctypes.c_void_p, SIZE],
    "frames_left": [Handle],
    "settings": [Handle, U32, ctypes.POINTER(SettingsStruct)],
    "peek": [Handle, U32, U32, U32, ctypes.POINTER(AnswerStruct)],
    "slot": [Handle, U32, U32, ctypes.POINTER(SlotStruct)],
    "is_idle": [Handle],
    "ready": [Handle, ctypes.POINTER(ctypes.c_uint64), ctypes.POINTER(ctypes.c_uint64)],
    "frames_until": [Handle, U32, U32],
    "version": [],
    "error": [ctypes.c_int32],
    "errno": [ctypes.c_int32],
}
RESULTS = {
    "free": None,
    "state_size": ctypes.c_int64,
    "save": ctypes.c_int64,
    "frames_left": ctypes.c_uint64,
    "frames_until": ctypes.c_int64,
    "version": U32,
    "error": ctypes.c_char_p,
}


def places() -> Iterator[str]:
    """Where the library may be, the first place first: the one that the variable names alone, else beside this package or the system's."""
    named = os.environ.get(VARIABLE)
    if named:
        yield named
        return
    package = pathlib.Path(__file__).resolve().parent
    for folder in (package, package.parent):
        yield from (str(folder / name) for name in NAMES if (folder / name).is_file())
    yield NAMES[0]
    found = ctypes.util.find_library("dsp_engine")
    if found:
        yield found


def loaded() -> ctypes.CDLL:
    """The library as the system loads it."""
    faults = []
    for place in places():
        try:
            return ctypes.CDLL(place)
        except OSError as fault:
            faults.append(str(fault))
    raise ImportError(f"dsp_engine: the shared library isn't there ({'; '.join(faults)}): name it in {VARIABLE}")


@functools.lru_cache(maxsize=None)
def library() -> ctypes.CDLL:
    """The library, loaded once, with the types of its functions."""
    found = loaded()
    version = int(found.dsp_engine_version())
    if version >> 16 != MAJOR or version >> 8 & 255 < MINOR:
        raise ImportError(f"dsp_engine: the library is of version {version >> 16}.{version >> 8 & 255}.{version & 255}, and not of {MAJOR}.{MINOR}")
    for name, parameters in PARAMETERS.items():
        function = getattr(found, f"dsp_engine_{name}")
        function.argtypes = parameters
        function.restype = RESULTS.get(name, ctypes.c_int32)
    return found


def accepted(number: int) -> int:
    """What a call answered, or its refusal raised."""
    if number >= 0:
        return number
    found = library()
    raise refused(number, found.dsp_engine_errno(number), found.dsp_engine_error(number).decode())
