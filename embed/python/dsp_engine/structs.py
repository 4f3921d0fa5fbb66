"""What the library takes, of Python's values: numbers that fit, structs, and samples."""
from array import array
from typing import Iterable, List, Tuple

from .library import DeviceStruct, FilterStruct, SectionStruct
from .numbers import Device, Filter, Section, Volume


def fits(number: int, name: str) -> int:
    """A number that is handed on as one of 32 bits without a sign, which ctypes would cut."""
    if not 0 <= number < 1 << 32:
        raise ValueError(f"{name} {number} is not 0 to {(1 << 32) - 1}")
    return int(number)


def fits_signed(number: int, name: str) -> int:
    """A number that is handed on as one of 32 bits with a sign."""
    if not -(1 << 31) <= number < 1 << 31:
        raise ValueError(f"{name} {number} is not {-(1 << 31)} to {(1 << 31) - 1}")
    return int(number)


def device_struct(device: Device) -> DeviceStruct:
    """The struct of a device."""
    names = [name for name, _ in DeviceStruct._fields_]
    return DeviceStruct(*(fits(getattr(device, name), name) for name in names))


def filter_struct(filter_: Filter, first: int) -> FilterStruct:
    """The struct of a filter whose first coefficient stands there. All rows have the length of the first."""
    taps = len(filter_.rows[0]) if filter_.rows else 0
    if any(len(row) != taps for row in filter_.rows):
        raise ValueError("the rows of a filter have one length")
    return FilterStruct(fits(filter_.src, "src"), fits(filter_.dst, "dst"), len(filter_.rows), taps, fits(filter_.shift, "shift"), first)


def filter_structs(filters: Iterable[Filter]) -> Tuple[List[FilterStruct], List[int]]:
    """The structs of filters, and the coefficients of all."""
    structs: List[FilterStruct] = []
    coefs: List[int] = []
    for each in filters:
        structs.append(filter_struct(each, len(coefs)))
        coefs += [fits_signed(coef, "coefficient") for row in each.rows for coef in row]
    return structs, coefs


def section_struct(section: Section) -> SectionStruct:
    """The struct of a section."""
    coefs = (section.b0, section.b1, section.b2, section.a1, section.a2)
    return SectionStruct(fits(section.shift, "shift"), *(fits_signed(coef, "coefficient") for coef in coefs))


def volume_number(volume: Tuple[int, int]) -> int:
    """A volume as one number."""
    left, right = volume
    if not (0 <= left < 256 and 0 <= right < 256):
        raise ValueError(f"volume {left}, {right} is not 0 to 255 on each side")
    return left + 256 * right


def volume_of(number: int) -> Volume:
    """The volume of a number."""
    return Volume(number & 0xFF, number >> 8)


def samples_of(samples: Iterable[int]) -> "array[int]":
    """Samples as the library takes them."""
    try:
        return array("i", samples)
    except OverflowError as fault:
        raise ValueError(f"a sample is not {-(1 << 31)} to {(1 << 31) - 1}") from fault
