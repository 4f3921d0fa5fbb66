"""Positions as they are written: frames, or seconds."""
import fractions
import re

from commands import wrong

SECONDS = re.compile(r"(?:(\d{1,5}):)?(\d{1,9}(?:\.\d{0,9})?|\.\d{1,9})(s?)")


def position(word):
    """What makes frames at a rate of a word: digits alone are frames, and `2.5`, `2s` and `1:02.5` are seconds."""
    if re.fullmatch(r"\d{1,12}", word):
        return lambda rate: int(word)
    found = SECONDS.fullmatch(word)
    if not found:
        wrong(f"a position is a number of frames, or of seconds as 2.5, 2s or 1:02.5: {word!r} isn't")
    value = 60 * int(found[1] or 0) + fractions.Fraction(found[2])
    return lambda rate: int(value * rate)
