"""What a call raises that isn't accepted. It has changed nothing then."""
from enum import IntEnum


class Refusal(IntEnum):
    """Why a call isn't accepted, by the number that the library answers."""

    AGAIN = -1
    BUSY = -2
    INVALID = -3
    BAD_DESCRIPTOR = -4
    EXISTS = -5
    NO_MEMORY = -6
    WRONG_ARGUMENT = -7
    NULL_POINTER = -8
    NOT_AN_ENGINE = -9
    SHORT_ROOM = -10
    WORN_OUT = -11
    NOT_A_STATE = -12
    OTHER_DEVICE = -13
    SHORT_STATE = -14
    LONG_STATE = -15
    UNSPELLED = -16
    OUT_OF_ORDER = -17


class Refused(OSError):
    """A call wasn't accepted. `number` is what the library answered, `errno` the system's number for it, and `strerror` its text."""

    def __init__(self, number: int, errno: int, text: str) -> None:
        super().__init__(errno, text)
        self.number = number


class WouldBlock(Refused, BlockingIOError):
    """The ring has no room for a write now, or no byte for a read."""


def refused(number: int, errno: int, text: str) -> Refused:
    """What is raised for a number below 0."""
    kind = WouldBlock if number == Refusal.AGAIN else Refused
    return kind(number, errno, text)
