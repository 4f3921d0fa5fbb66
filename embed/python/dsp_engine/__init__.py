"""The engine of dsp_replay for Python: what a kernel does with the sound of several clients, call by call.

    from dsp_engine import Device, Engine, Format, Way

    with Engine(Device()) as engine:
        engine.open(0, Way.PLAY, Format.S16_LE, 2, 44100)
        taken = engine.write(0, frames)
        handed = engine.interrupt(256)

It needs the shared library, which is looked for at the path in DSP_ENGINE_LIBRARY, then beside this package, then where the system keeps
libraries. docs/EMBEDDING.md says what the library is, and docs/SCRIPTS.md what each call means.
"""
from .engine import Engine
from .numbers import (
    Answer,
    Device,
    Errors,
    Filter,
    Format,
    Fragments,
    MixerRequest,
    Position,
    Ready,
    Request,
    Section,
    Settings,
    Slot,
    SlotState,
    Space,
    State,
    Trigger,
    Volume,
    Way,
)
from .refusals import Refusal, Refused, WouldBlock

__all__ = [
    "Answer",
    "Device",
    "Engine",
    "Errors",
    "Filter",
    "Format",
    "Fragments",
    "MixerRequest",
    "Position",
    "Ready",
    "Refusal",
    "Refused",
    "Request",
    "Section",
    "Settings",
    "Slot",
    "SlotState",
    "Space",
    "State",
    "Trigger",
    "Volume",
    "Way",
    "WouldBlock",
]
